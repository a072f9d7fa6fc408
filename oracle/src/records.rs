//! Document 01's unpack and pack, worked through from its text on the original's decoders and writers. The original has neither call.
use crate::asmap::pack_le;
pub use crate::codes::in_range;
use crate::codes::instruction;
use crate::document::{check_bits, instruction_at, Refusal, Verdict};
use crate::width::{Width, W128};
use maps::rewrite::Program;
use std::iter::repeat_with;

pub fn record(opcode: u32, operand: u32, place: usize, length: usize) -> Vec<u8> {
    [opcode, operand, place as u32, length as u32].iter().flat_map(|n| n.to_le_bytes()).collect()
}

pub fn unpack(map: &[u8]) -> Result<Vec<u8>, Refusal> {
    unpack_bits(map, W128)
}

/// The check at a width decides; the records are the same.
pub fn unpack_bits(map: &[u8], width: Width) -> Result<Vec<u8>, Refusal> {
    let count = match check_bits(map, width) {
        Verdict::Refused(reason) => return Err(reason),
        Verdict::Accepted { count, .. } => count,
    };
    let mut pos = 0;
    let records = (0..count).flat_map(|_| {
        let place = pos;
        let (opcode, operand) = instruction_at(&mut pos, map).expect("an accepted map's instruction");
        record(opcode, operand, place, pos - place)
    });
    Ok(records.collect())
}

/// An accepted map as a program that can be rewritten.
pub fn program(map: &[u8]) -> Program {
    let mut place = 0;
    Program::read(&mut repeat_with(|| instruction_at(&mut place, map).expect("an accepted map's instruction")))
}

pub fn pack(records: &[u8]) -> Result<Vec<u8>, Refusal> {
    if records.len() % 16 != 0 {
        return Err(16);
    }
    let mut bits = vec![];
    for bytes in records.chunks(16) {
        let number = |at: usize| u32::from_le_bytes(bytes[at..at + 4].try_into().expect("4 bytes"));
        let (opcode, operand) = (u32::from(bytes[0]), number(4));
        if !in_range(opcode, operand) {
            return Err(15);
        }
        let written = instruction(opcode, operand);
        let right = number(8) as usize == bits.len() && number(12) as usize == written.len();
        if bytes[1..4] != [0; 3] || !right {
            return Err(16);
        }
        bits.extend(written);
        if bits.len() > 8 * 16_777_216 {
            return Err(1);
        }
    }
    Ok(pack_le(&bits))
}
