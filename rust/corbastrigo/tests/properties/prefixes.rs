//! The list of a map's prefixes: the order of its refusals, what it leaves, and that every address lies in just one, which has the number
//! of its walk.
use crate::calls::{self, BEFORE_SIZE};
use crate::holds;
use crate::order::any_maps;
use crate::packed::left_the_rest;
use crate::programs::{programs, walked_programs, MATCH, RETURN};
use corbastrigo::{instructions, interpret, list, prefixes, unpack, Prefix, Refusal, PREFIX_BYTES};
use proptest::prelude::*;
use proptest::test_runner::TestCaseResult;

pub fn failed(refusal: Refusal) -> TestCaseError {
    TestCaseError::fail(refusal.to_string())
}

/// The bytes that a list needs: a prefix for each RETURN, and one for each bit of a MATCH.
fn needed(map: &[u8]) -> Result<usize, Refusal> {
    let records = unpack(map)?;
    let prefixes = instructions(&records).map(|instruction| match instruction.opcode {
        RETURN => 1,
        MATCH => instruction.operand.ilog2() as usize,
        _ => 0,
    });
    Ok(prefixes.sum::<usize>() * PREFIX_BYTES)
}

#[test]
fn a_list_asks_for_the_map_then_for_room() {
    holds(2_500, (any_maps(), 0..5usize), |(map, room)| {
        let needed = needed(&map);
        // From two bytes too few to two too many.
        let room = (needed.unwrap_or(30) + room).saturating_sub(2);
        let left = calls::list(&map, room);
        prop_assert_eq!(left.0, needed.map_or_else(Refusal::number, |needed| if room < needed { 14 } else { 0 }));
        prop_assert!(left.0 != 0 || Ok(left.1) == needed);
        prop_assert_eq!(
            calls::list_bytes(&map),
            needed.map_or_else(|refusal| (refusal.number(), BEFORE_SIZE), |needed| (0, needed))
        );
        left_the_rest(&left)
    });
}

#[test]
fn the_prefixes_are_those_of_the_tree() {
    holds(1_500, programs(), |program| {
        let expected: Vec<u8> = program.prefixes().into_iter().flat_map(Prefix::record).collect();
        prop_assert_eq!(list(&program.map()), Ok(expected));
        Ok(())
    });
}

/// The first and the last address of a prefix.
pub fn ends(prefix: Prefix) -> (u128, u128) {
    let first = u128::from_be_bytes(prefix.address);
    (first, first | u128::MAX.checked_shr(prefix.length.into()).unwrap_or(0))
}

/// Each prefix begins where the one before it ends, the first at the first address, and the last ends at the last one.
fn tile(listed: &[Prefix]) -> TestCaseResult {
    let mut next = Some(0);
    for &prefix in listed {
        let (first, last) = ends(prefix);
        prop_assert!(prefix.length <= 128 && Some(first) == next, "{:?} does not begin at {:?}", prefix, next);
        next = last.checked_add(1);
    }
    prop_assert_eq!(next, None);
    Ok(())
}

/// A map with the bit at a place turned, where there is one.
pub fn turned(mut map: Vec<u8>, place: Option<prop::sample::Index>) -> Vec<u8> {
    if let Some(place) = place.map(|place| place.index(map.len() * 8)) {
        map[place / 8] ^= 1 << (place % 8);
    }
    map
}

#[test]
fn every_address_lies_in_just_one_prefix_which_has_its_walks_number() {
    let place = prop::option::of(any::<prop::sample::Index>());
    holds(1_500, (walked_programs(), place), |((program, addresses), place)| {
        let map = turned(program.map(), place);
        let Ok(records) = list(&map) else { return Ok(()) };
        let listed: Vec<Prefix> = prefixes(&records).collect();
        tile(&listed)?;
        for &prefix in &listed {
            let (first, last) = ends(prefix);
            for address in [first, last] {
                let walk = interpret(&map, &address.to_be_bytes()).map_err(failed)?;
                prop_assert_eq!((walk.number, walk.bits), (prefix.number, prefix.length));
            }
        }
        for address in addresses {
            let number = interpret(&map, &address).map_err(failed)?.number;
            let address = u128::from_be_bytes(address);
            let around = listed.iter().filter(|&&prefix| (ends(prefix).0..=ends(prefix).1).contains(&address));
            prop_assert_eq!(around.map(|prefix| prefix.number).collect::<Vec<_>>(), [number]);
        }
        Ok(())
    });
}
