//! Codes: all rows read at every bit of many maps, and written at all boundaries and many numbers between.
use crate::calls::{self, Read, Written, BEFORE32, BEFORE64, BEFORE_SIZE};
use crate::programs::number;
use crate::tally::Tally;
use crate::Form;
use corbastrigo_sys as sys;
use maps::Random;
use oracle::asmap::*;
use oracle::document::{instruction_at, CUT_OPCODE, CUT_OPERAND};
use oracle::records::in_range;

/// A row: the library's two calls, the original's reader, least value and sizes.
struct Row {
    name: &'static str,
    reads: sys::Decode,
    writes: sys::Encode,
    original: fn(&mut usize, &[u8]) -> u32,
    least: u32,
    sizes: &'static [u8],
}

fn rows() -> [Row; 4] {
    use sys::*;
    let row = |name, reads, writes, original, least, sizes| Row { name, reads, writes, original, least, sizes };
    [
        row("type", corbastrigo_decode_type, corbastrigo_encode_type, decode_type, 0, &TYPE_BIT_SIZES),
        row("asn", corbastrigo_decode_asn, corbastrigo_encode_asn, decode_asn, 1, &ASN_BIT_SIZES),
        row("match", corbastrigo_decode_match, corbastrigo_encode_match, decode_match, 2, &MATCH_BIT_SIZES),
        row("jump", corbastrigo_decode_jump, corbastrigo_encode_jump, decode_jump, 17, &JUMP_BIT_SIZES),
    ]
}

impl Row {
    /// One past the greatest value.
    fn end(&self) -> u64 {
        u64::from(self.least) + self.sizes.iter().map(|&size| 1u64 << size).sum::<u64>()
    }

    /// "4 for the opcode row and 19 for the other three" where the map's end cuts it.
    fn expected_read(&self, map: &[u8], at: usize) -> Read {
        let mut pos = at;
        match (self.original)(&mut pos, map) {
            INVALID if self.name == "type" => (number(CUT_OPCODE), BEFORE32, BEFORE_SIZE),
            INVALID => (number(CUT_OPERAND), BEFORE32, BEFORE_SIZE),
            value => (0, value, pos),
        }
    }

    fn expected_written(&self, value: u32) -> Written {
        if value < self.least || u64::from(value) >= self.end() {
            return (15, BEFORE64, BEFORE_SIZE);
        }
        word(&encode_bits(value, self.least, self.sizes))
    }
}

/// Bits as one number, the first lowest.
fn word(bits: &[bool]) -> Written {
    let number = bits.iter().enumerate().fold(0, |sum, (place, &bit)| sum | u64::from(bit) << place);
    (0, number, bits.len())
}

pub fn expected_instruction(map: &[u8], at: usize) -> (u8, u32, u32, usize) {
    let mut pos = at;
    match instruction_at(&mut pos, map) {
        Err(reason) => (number(reason), BEFORE32, BEFORE32, BEFORE_SIZE),
        Ok((opcode, operand)) => (0, opcode, operand, pos - at),
    }
}

/// Each row at a bit of a map within the limit.
pub fn read_at(tally: &mut Tally, map: &[u8], at: usize) {
    for row in rows() {
        tally.same(row.name, &(map, at), calls::decode(row.reads, map, at), row.expected_read(map, at));
    }
    tally.same("instruction", &(map, at), calls::decode_instruction(map, at), expected_instruction(map, at));
}

fn written(tally: &mut Tally, row: &Row, value: u32) {
    tally.same(row.name, &value, calls::encode(row.writes, value), row.expected_written(value));
}

fn instruction_written(tally: &mut Tally, opcode: u32, operand: u32) {
    let expected = match in_range(opcode, operand) {
        true => word(&oracle::instruction(opcode, operand)),
        false => (15, BEFORE64, BEFORE_SIZE),
    };
    tally.same("instruction", &(opcode, operand), calls::encode_instruction(opcode, operand), expected);
}

/// The first and the last value of every size with their neighbours, and the ends of u32.
fn boundaries(row: &Row) -> Vec<u32> {
    let mut values = vec![0, 1, 2, 3, 4, 5, 16, 17, u32::MAX - 1, u32::MAX, 1 << 31, (1 << 31) - 1];
    let mut first = u64::from(row.least);
    for &size in row.sizes {
        let next = first + (1 << size);
        values.extend([first.wrapping_sub(1), first, first + 1, next.wrapping_sub(2), next - 1, next, next + 1].map(|v| v as u32));
        first = next;
    }
    values
}

pub fn run(tally: &mut Tally, random: &mut Random, form: Form) {
    for row in &rows() {
        let operands = if row.name == "type" || row.name == "match" { (0..2_000).collect() } else { vec![] };
        let drawn: Vec<u32> = (0..form.choose(100_000, 2_000_000)).map(|_| any_size(random)).collect();
        for &value in boundaries(row).iter().chain(&operands).chain(&drawn) {
            written(tally, row, value);
        }
        for &value in boundaries(row).iter().chain(&operands) {
            (0..6).chain([u32::MAX]).for_each(|opcode| instruction_written(tally, opcode, value));
        }
    }
    for _ in 0..form.choose(200_000, 2_000_000) {
        instruction_written(tally, random.below(5) as u32, any_size(random));
    }
    for _ in 0..form.choose(4_000, 40_000) {
        // Ones are made common: they are what leads to long codes.
        let length = random.below(24) as usize;
        let dense = random.percent(50);
        let map: Vec<u8> = (0..length).map(|_| (random.next() | if dense { random.next() } else { 0 }) as u8).collect();
        (0..8 * length + 2).chain([usize::MAX, usize::MAX / 8]).for_each(|at| read_at(tally, &map, at));
    }
}

/// A number with any number of bits.
fn any_size(random: &mut Random) -> u32 {
    (random.next() as u32) >> random.below(32)
}
