//! The check reads in order: of several faults in a map it names the first, whatever stands behind.
use crate::holds;
use crate::programs::{DEFAULT, JUMP, MATCH, RETURN};
use corbastrigo::codes::encode_instruction;
use corbastrigo::{pack, sanity_check, Instruction, Refusal};
use proptest::prelude::*;

/// A MATCH of eight bits, and one of one bit.
const BYTE: (u32, u32) = (MATCH, 256);
const ONE_BIT: (u32, u32) = (MATCH, 2);

/// Instructions that are refused behind a MATCH of eight bits, each with its reason. All that is ever behind them is another instruction.
const FAULTS: [(Refusal, &[(u32, u32)]); 8] = [
    // The DEFAULT has 19 bits, so what comes after it starts past the target.
    (Refusal::PastTarget, &[(JUMP, 17), (DEFAULT, 1), BYTE]),
    (Refusal::AfterDefault, &[(DEFAULT, 1), (DEFAULT, 1)]),
    (Refusal::AfterDefault, &[(DEFAULT, 1), (RETURN, 1)]),
    (Refusal::Padding, &[(RETURN, 1)]),
    (Refusal::NotAtTarget, &[(JUMP, 40), (RETURN, 1)]),
    (Refusal::NoBits, &[BYTE; 16]),
    (Refusal::TargetsCross, &[(JUMP, 17), (JUMP, 17)]),
    (Refusal::ShortMatches, &[ONE_BIT, ONE_BIT]),
];

/// The bytes that instructions make, one behind the other.
fn packed(instructions: &[(u32, u32)]) -> Result<Vec<u8>, Refusal> {
    let mut place = 0;
    let mut records = Vec::new();
    for &(opcode, operand) in instructions {
        let size = encode_instruction(opcode, operand)?.len as u32;
        records.extend(Instruction { opcode, operand, place, size }.record());
        place += size;
    }
    pack(&records)
}

#[test]
fn the_first_fault_is_named() {
    let faults = prop::collection::vec(prop::sample::select(FAULTS.to_vec()), 0..5);
    holds(1_500, (1..9usize, faults), |(bytes, faults)| {
        let mut instructions = vec![BYTE; bytes];
        for (_, fault) in &faults {
            instructions.extend(*fault);
        }
        instructions.push((RETURN, 1));
        let map = packed(&instructions).map_err(|refusal| TestCaseError::fail(refusal.to_string()))?;
        prop_assert_eq!(sanity_check(&map).err(), faults.first().map(|&(reason, _)| reason));
        Ok(())
    });
}
