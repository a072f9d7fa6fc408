//! Draws and loads over drawn seeds, worked through here as document 02 says them (CR 6), and that a refused one leaves everything.
use crate::calls::{self, BEFORE, BEFORE64, BEFORE_SIZE};
use crate::holds;
use crate::prefixes::failed;
use corbastrigo::{instructions, interpret, load, load_address, sanity_check_bits, unpack, End, LOAD_BYTES, MAX_PAIRS};
use proptest::prelude::*;

const OPCODES: [u32; 3] = [3, 2, 0];

/// Seeds of which some are 0, some have one bit, some are as large as they can be.
fn seeds() -> impl Strategy<Value = u64> {
    prop_oneof![1 => Just(0), 2 => (0..64u32).prop_map(|bit| 1 << bit), 1 => (0..4u64).prop_map(|below| u64::MAX - below), 6 => any::<u64>()]
}

/// Numbers of pairs up to the most and a little past it, and some that are far too many.
fn pairs() -> impl Strategy<Value = usize> {
    prop_oneof![8 => 0..MAX_PAIRS + 1, 2 => MAX_PAIRS - 1..MAX_PAIRS + 3, 1 => (0..4usize).prop_map(|below| usize::MAX - below), 1 => Just(1 << 32)]
}

/// The draw after s, by 128 bits and remainders.
fn drawn(s: u64) -> u64 {
    let modulus = 1u128 << 64;
    let up = |s: u128, bits: u32| s ^ (s * (1 << bits) % modulus);
    let first = up(u128::from(s), 13);
    (up(first ^ (first / 128), 17) % modulus) as u64
}

#[test]
fn a_draw_is_the_next_one_and_only_0_is_refused() {
    holds(4_000, seeds(), |s| {
        let wanted = if s == 0 { (20, BEFORE64) } else { (0, drawn(s)) };
        prop_assert_eq!(calls::next_draw(s), wanted);
        prop_assert!(s == 0 || wanted.1 != 0);
        Ok(())
    });
}

#[test]
fn a_load_has_the_instructions_that_are_drawn_and_is_walked_whole() {
    holds(400, (seeds().prop_filter("a seed", |seed| *seed != 0), 0..MAX_PAIRS + 1), |(seed, pairs)| {
        let map = load(seed, pairs).map_err(failed)?;
        let mut s = seed;
        for (place, read) in instructions(&unpack(&map).map_err(failed)?).enumerate() {
            s = drawn(s);
            let opcode = if place == 2 * pairs { OPCODES[2] } else { OPCODES[place % 2] };
            let operand = if opcode == 2 { 2 + s % 2 } else { 1 + s % 65_536 };
            prop_assert_eq!((read.opcode, u64::from(read.operand)), (opcode, operand));
        }
        let check = |width| sanity_check_bits(&map, width).map(|check| (check.count as usize, check.depth));
        prop_assert_eq!(check(128), Ok((2 * pairs + 1, 0)));
        prop_assert_eq!(check(32).is_ok(), pairs <= 32);
        let walk = interpret(&map, &load_address(seed, pairs).map_err(failed)?).map_err(failed)?;
        prop_assert_eq!(
            (walk.end, u64::from(walk.number), walk.count as usize, usize::from(walk.bits)),
            (End::Returned, 1 + s % 65_536, 2 * pairs + 1, pairs)
        );
        Ok(())
    });
}

#[test]
fn a_load_asks_for_the_seed_and_the_pairs_before_room() {
    holds(2_000, (seeds(), pairs(), 0..LOAD_BYTES + 3), |(seed, pairs, room)| {
        let (answer, written, out) = calls::load(seed, pairs, room);
        if seed == 0 || pairs > MAX_PAIRS {
            prop_assert_eq!(answer, 20);
        } else {
            let map = load(seed, pairs).map_err(failed)?;
            prop_assert_eq!(answer, if room < map.len() { 14 } else { 0 });
            prop_assert!(answer != 0 || (written == map.len() && out[..written] == map));
        }
        let kept = if answer == 0 { written } else { 0 };
        prop_assert!(answer == 0 || written == BEFORE_SIZE);
        prop_assert!(out[kept..].iter().all(|&byte| byte == BEFORE));
        Ok(())
    });
}
