//! The four rows of sizes, each with the original's decoder and writer.
use crate::asmap::*;
use crate::document::{Refusal, CUT_OPCODE, CUT_OPERAND};

pub struct Row {
    /// Its number in the list.
    pub number: u8,
    pub name: &'static str,
    pub least: u32,
    pub sizes: &'static [u8],
    decode: fn(&mut usize, &[u8]) -> u32,
}

pub const ROWS: [Row; 4] = [
    Row { number: 0, name: "opcode", least: 0, sizes: &TYPE_BIT_SIZES, decode: decode_type },
    Row { number: 1, name: "asn", least: 1, sizes: &ASN_BIT_SIZES, decode: decode_asn },
    Row { number: 2, name: "match", least: 2, sizes: &MATCH_BIT_SIZES, decode: decode_match },
    Row { number: 3, name: "jump", least: 17, sizes: &JUMP_BIT_SIZES, decode: decode_jump },
];

impl Row {
    /// The value after the greatest.
    pub fn end(&self) -> u32 {
        self.least + self.sizes.iter().map(|&size| 1 << size).sum::<u32>()
    }

    pub fn holds(&self, value: u32) -> bool {
        (self.least..self.end()).contains(&value)
    }

    /// The first and the last value of each size, which are one where the size is 0.
    pub fn edges(&self) -> Vec<[u32; 2]> {
        let mut first = self.least;
        let edges = self.sizes.iter().map(|&size| {
            first += 1 << size;
            [first - (1 << size), first - 1]
        });
        edges.collect()
    }

    /// The value at a bit and the bit after it; none where the map's end cuts it. No row has a value as large as the original's mark
    /// for a cut code.
    pub fn read(&self, map: &[u8], at: usize) -> Option<(u32, usize)> {
        let mut pos = at;
        let value = (self.decode)(&mut pos, map);
        (value != INVALID).then_some((value, pos))
    }

    /// "A code read alone gives 4 for the opcode row and 19 for the other three, also from the map's end on" (document 02, CR 5).
    pub fn cut(&self) -> Refusal {
        match self.number {
            0 => CUT_OPCODE,
            _ => CUT_OPERAND,
        }
    }

    pub fn write(&self, value: u32) -> Vec<bool> {
        encode_bits(value, self.least, self.sizes)
    }
}

/// The row of an opcode's operand.
pub fn operand_row(opcode: u32) -> &'static Row {
    match opcode {
        JUMP => &ROWS[3],
        MATCH => &ROWS[2],
        _ => &ROWS[1],
    }
}

/// An opcode and an operand of its row.
pub fn instruction(opcode: u32, operand: u32) -> Vec<bool> {
    [ROWS[0].write(opcode), operand_row(opcode).write(operand)].concat()
}

pub fn in_range(opcode: u32, operand: u32) -> bool {
    ROWS[0].holds(opcode) && operand_row(opcode).holds(operand)
}

/// The first bit lowest.
pub fn word(bits: &[bool]) -> u64 {
    bits.iter().rev().fold(0, |w, &b| 2 * w + u64::from(b))
}
