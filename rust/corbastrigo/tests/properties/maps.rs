//! Accepted maps, maps that were accepted before a bit was turned or an end was lost, and their walks.
use crate::holds;
use crate::programs::{programs, walked_programs};
use corbastrigo::codes::{decode_instruction, decode_type};
use corbastrigo::{interpret, pack, sanity_check, unpack, AsMap, End, Refusal, Walk};
use proptest::prelude::*;
use proptest::test_runner::TestCaseResult;

/// What is promised of every walk of an accepted map.
fn ends_well(walk: Walk) -> TestCaseResult {
    prop_assert!(!walk.end.is_abort(), "{:?}", walk);
    prop_assert!(walk.bits <= 128);
    prop_assert!(walk.count <= 2 * u32::from(walk.bits) + 1, "{:?}", walk);
    Ok(())
}

#[test]
fn a_sane_program_is_accepted_with_its_count_and_depth() {
    holds(1_500, programs(), |program| {
        let check = sanity_check(&program.map());
        prop_assert!(check.is_ok(), "{:?}", check);
        let expected = (program.instructions().len() as u32, program.depth());
        prop_assert_eq!(check.map(|check| (check.count, check.depth)), Ok(expected));
        Ok(())
    });
}

#[test]
fn a_walk_ends_as_the_tree_says_and_never_aborts() {
    holds(1_500, walked_programs(), |(program, addresses)| {
        let map = AsMap::checked(program.map()).map_err(|refusal| TestCaseError::fail(refusal.to_string()))?;
        for address in addresses {
            let walk = map.walk(&address);
            ends_well(walk)?;
            prop_assert_eq!((walk.end, walk.number, walk.count, walk.bits), program.walk(&address));
            prop_assert_eq!(interpret(map.as_bytes(), &address), Ok(walk));
        }
        Ok(())
    });
}

#[test]
fn drawn_programs_reach_what_the_properties_are_about() {
    let (ends, deepest, longest) = (std::cell::Cell::new((0, 0)), std::cell::Cell::new(0), std::cell::Cell::new(0));
    holds(1_500, walked_programs(), |(program, addresses)| {
        deepest.set(deepest.get().max(program.depth()));
        for address in addresses {
            let (end, _, _, bits) = program.walk(&address);
            longest.set(longest.get().max(bits));
            let (returned, differed) = ends.get();
            ends.set(if end == End::Returned { (returned + 1, differed) } else { (returned, differed + 1) });
        }
        Ok(())
    });
    let (returned, differed) = ends.get();
    assert!(returned > 200 && differed > 200, "{returned} walks returned, {differed} differed");
    assert!(deepest.get() > 30 && longest.get() == 128, "depth {}, bits {}", deepest.get(), longest.get());
}

#[test]
fn unpack_lists_the_program_and_pack_gives_the_map_back() {
    holds(1_500, programs(), |program| {
        let (records, map) = (program.records(), program.map());
        prop_assert_eq!(unpack(&map), Ok(records.clone()));
        prop_assert_eq!(pack(&records), Ok(map));
        Ok(())
    });
}

#[test]
fn a_turned_bit_is_refused_or_leaves_a_map_without_aborts() {
    holds(2_500, (walked_programs(), any::<prop::sample::Index>()), |((program, addresses), place)| {
        let mut map = program.map();
        let place = place.index(map.len() * 8);
        map[place / 8] ^= 1 << (place % 8);
        let Ok(check) = sanity_check(&map) else { return Ok(()) };
        let records = unpack(&map).map_err(|refusal| TestCaseError::fail(refusal.to_string()))?;
        prop_assert_eq!(records.len(), check.count as usize * corbastrigo::RECORD_BYTES);
        prop_assert_eq!(pack(&records), Ok(map.clone()));
        for address in addresses {
            ends_well(interpret(&map, &address).map_err(|refusal| TestCaseError::fail(refusal.to_string()))?)?;
        }
        Ok(())
    });
}

#[test]
fn a_map_that_lost_its_end_is_refused_and_so_is_a_longer_one() {
    holds(500, programs(), |program| {
        let mut map = program.map();
        for end in 0..map.len() {
            let refusal = sanity_check(&map[..end]);
            // Behind the last whole instruction stands nothing, a part of an opcode, or an opcode with a part of its operand.
            let mut at = 0;
            let cut = loop {
                match decode_instruction(&map[..end], at) {
                    Ok((_, _, size)) => at += size,
                    Err(_) if at == 8 * end => break Refusal::MapEnds,
                    Err(refusal) => break refusal,
                }
            };
            prop_assert_eq!(cut == Refusal::CutOperand, decode_type(&map[..end], at).is_ok());
            prop_assert_eq!(refusal, Err(cut), "cut at {}", end);
        }
        map.push(0);
        prop_assert_eq!(sanity_check(&map), Err(Refusal::Padding));
        Ok(())
    });
}
