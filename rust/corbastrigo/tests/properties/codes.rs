//! Codes and instructions, there and back at every bit of a byte, and their refusals.
use crate::calls::{self, BEFORE32, BEFORE64, BEFORE_SIZE};
use crate::programs::MOST_ASN;
use crate::{holds, too_long};
use corbastrigo_sys as sys;
use proptest::prelude::*;
use std::ops::RangeInclusive;

struct Row {
    decode: sys::Decode,
    encode: sys::Encode,
    values: RangeInclusive<u32>,
    /// The refusal of a code that is cut.
    cut: u8,
}

/// The rows of an opcode, and of the operands of RETURN, JUMP, MATCH and DEFAULT.
fn rows() -> [Row; 5] {
    let asn = || Row { decode: sys::corbastrigo_decode_asn, encode: sys::corbastrigo_encode_asn, values: 1..=MOST_ASN, cut: 19 };
    [
        Row { decode: sys::corbastrigo_decode_type, encode: sys::corbastrigo_encode_type, values: 0..=3, cut: 4 },
        asn(),
        Row { decode: sys::corbastrigo_decode_jump, encode: sys::corbastrigo_encode_jump, values: 17..=2_147_483_632, cut: 19 },
        Row { decode: sys::corbastrigo_decode_match, encode: sys::corbastrigo_encode_match, values: 2..=511, cut: 19 },
        asn(),
    ]
}

/// Numbers of every width, and those near the edges of the rows.
fn numbers() -> impl Strategy<Value = u32> {
    let edges = prop::sample::select(vec![0, 1, 2, 3, 16, 17, 511, MOST_ASN, 2_147_483_632]);
    prop_oneof![
        (any::<u32>(), 0..32u32).prop_map(|(number, width)| number >> width),
        (edges, 0..3u32).prop_map(|(edge, more)| (edge + more).saturating_sub(1)),
    ]
}

/// A map of the filling byte, with bits written at a place, to the end of the byte that holds the last of them.
fn with_bits(fill: u8, at: usize, bits: u64, len: usize) -> Vec<u8> {
    let mut map = vec![fill; (at + len).div_ceil(8)];
    for place in 0..len {
        let (byte, mask) = ((at + place) / 8, 1 << ((at + place) % 8));
        map[byte] = if bits >> place & 1 == 1 { map[byte] | mask } else { map[byte] & !mask };
    }
    map
}

#[test]
fn a_code_that_was_written_is_read_again() {
    holds(2_000, (0..5usize, numbers(), 0..70usize, any::<u8>()), |(row, value, at, fill)| {
        let row = &rows()[row];
        let (answer, bits, len) = calls::encode(row.encode, value);
        if !row.values.contains(&value) {
            prop_assert_eq!((answer, bits, len), (15, BEFORE64, BEFORE_SIZE));
            return Ok(());
        }
        prop_assert_eq!(answer, 0);
        let map = with_bits(fill, at, bits, len);
        prop_assert_eq!(calls::decode(row.decode, &map, at), (0, value, at + len));
        prop_assert_eq!(calls::decode(row.decode, &map[..map.len() - 1], at), (row.cut, BEFORE32, BEFORE_SIZE));
        Ok(())
    });
}

#[test]
fn a_code_that_was_read_is_written_again() {
    holds(2_000, (0..5usize, prop::collection::vec(any::<u8>(), 0..12), 0..100usize), |(row, map, at)| {
        let row = &rows()[row];
        let (answer, value, next) = calls::decode(row.decode, &map, at);
        if answer != 0 || at >= map.len() * 8 {
            prop_assert_eq!((answer, value, next), (row.cut, BEFORE32, BEFORE_SIZE));
            return Ok(());
        }
        prop_assert!(row.values.contains(&value) && next <= map.len() * 8);
        let (answer, bits, len) = calls::encode(row.encode, value);
        prop_assert_eq!((answer, len), (0, next - at));
        prop_assert_eq!(
            (0..len).all(|place| bits >> place & 1 == u64::from(map[(at + place) / 8] >> ((at + place) % 8) & 1)),
            true
        );
        Ok(())
    });
}

#[test]
fn an_instruction_is_its_opcode_and_its_operand() {
    holds(2_000, (0..6u32, numbers(), 0..9usize, any::<u8>()), |(opcode, operand, at, fill)| {
        let (answer, bits, len) = calls::encode_instruction(opcode, operand);
        let known = opcode <= 3 && rows()[1 + opcode as usize].values.contains(&operand);
        if !known {
            prop_assert_eq!((answer, bits, len), (15, BEFORE64, BEFORE_SIZE));
            return Ok(());
        }
        let (first, second) = (calls::encode(rows()[0].encode, opcode), calls::encode(rows()[1 + opcode as usize].encode, operand));
        prop_assert_eq!((answer, bits, len), (0, first.1 | second.1 << first.2, first.2 + second.2));
        let map = with_bits(fill, at, bits, len);
        prop_assert_eq!(calls::decode_instruction(&map, at), (0, opcode, operand, len));
        // Without its last bytes, down to none of it: cut in the operand as long as the opcode's bits are there, else in the opcode.
        for end in at / 8..map.len() {
            let wanted = if at + first.2 <= 8 * end { 19 } else { 4 };
            prop_assert_eq!(calls::decode_instruction(&map[..end], at), (wanted, BEFORE32, BEFORE32, BEFORE_SIZE));
        }
        Ok(())
    });
}

#[test]
fn reading_asks_for_the_maps_length_first() {
    let places = prop_oneof![0..70usize, Just(too_long().len() * 8), Just(usize::MAX)];
    holds(100, (0..5usize, places), |(row, at)| {
        prop_assert_eq!(calls::decode(rows()[row].decode, too_long(), at), (1, BEFORE32, BEFORE_SIZE));
        prop_assert_eq!(calls::decode_instruction(too_long(), at), (1, BEFORE32, BEFORE32, BEFORE_SIZE));
        Ok(())
    });
}
