//! Two maps compared: the order of the refusals, what is left, that the changes are those of the two trees, and that they hold just the
//! addresses whose walks differ.
use crate::calls::{self, BEFORE, BEFORE_SIZE};
use crate::holds;
use crate::order::any_maps;
use crate::packed::left_the_rest;
use crate::prefixes::{ends, failed, turned};
use crate::programs::{programs, Program};
use corbastrigo::{changes, compare, compare_bytes, first_change, interpret, sanity_check};
use corbastrigo::{Change, CompareError, Prefix, Refusal, CHANGE_BYTES};
use proptest::prelude::*;
use proptest::test_runner::TestCaseResult;

/// The first fault of two maps, as a comparison answers it.
fn fault(old: &[u8], new: &[u8]) -> u8 {
    let number = |map| sanity_check(map).err().map_or(0, Refusal::number);
    match (number(old), number(new)) {
        (0, 0) => 0,
        (0, new) => 100 + new,
        (old, _) => old,
    }
}

#[test]
fn a_comparison_asks_for_the_old_map_then_for_the_new_then_for_room() {
    holds(2_500, (any_maps(), any_maps(), 0..5usize, 14..19usize), |(old, new, room, first)| {
        let (fault, needed) = (fault(&old, &new), compare_bytes(&old, &new));
        prop_assert_eq!(needed.map_or_else(CompareError::number, |_| 0), fault);
        let needed = needed.unwrap_or(30);
        // From two bytes too few to two too many.
        let room = (needed + room).saturating_sub(2);
        let left = calls::compare([&old, &new], room);
        prop_assert_eq!(left.0, if fault == 0 && room < needed { 14 } else { fault });
        prop_assert!(left.0 != 0 || left.1 == needed);
        left_the_rest(&left)?;
        let (answer, bytes, out) = calls::compare_bytes([&old, &new], first);
        prop_assert_eq!(answer, if fault == 0 && first < 16 { 14 } else { fault });
        prop_assert_eq!(bytes, if answer == 0 { needed } else { BEFORE_SIZE });
        let kept = if answer == 0 { &out[16..] } else { &out };
        prop_assert!(kept.iter().all(|&byte| byte == BEFORE));
        Ok(())
    });
}

/// Where two prefixes overlap, the longer one with both numbers.
fn overlap(old: Prefix, new: Prefix) -> Option<Change> {
    let longer = if old.length > new.length { old } else { new };
    let ((old_first, old_last), (new_first, new_last)) = (ends(old), ends(new));
    let overlap = old_first <= new_last && new_first <= old_last;
    overlap.then_some(Change { address: longer.address, length: longer.length, old: old.number, new: new.number })
}

/// The changes between two trees, by their prefixes alone: every two of them are held against each other.
fn expected(old: &Program, new: &Program) -> Vec<Change> {
    let (old, new) = (old.prefixes(), new.prefixes());
    let overlaps = old.iter().flat_map(|&old| new.iter().filter_map(move |&new| overlap(old, new)));
    let mut changes: Vec<Change> = overlaps.filter(|change| change.old != change.new).collect();
    changes.sort_by_key(|change| change.address);
    changes
}

/// Two programs: of their own, or one and the same with another number somewhere.
fn pairs() -> impl Strategy<Value = (Program, Program)> {
    let renumbered = (programs(), any::<prop::sample::Index>(), 1..400_000u32)
        .prop_map(|(program, place, number)| (program.clone(), program.renumbered(place, number)));
    prop_oneof![1 => (programs(), programs()), 2 => renumbered]
}

#[test]
fn the_changes_are_those_of_the_two_trees() {
    let met = std::cell::Cell::new([0; 3]);
    holds(1_500, pairs(), |(old, new)| {
        let expected = expected(&old, &new);
        let mut counts = met.get();
        counts[expected.len().min(2)] += 1;
        met.set(counts);
        let (old, new) = (old.map(), new.map());
        let records: Vec<u8> = expected.iter().copied().flat_map(Change::record).collect();
        prop_assert_eq!(compare_bytes(&old, &new), Ok(expected.len() * CHANGE_BYTES));
        prop_assert_eq!(first_change(&old, &new), Ok(expected.first().map(|change| change.address)));
        prop_assert_eq!(compare(&old, &new), Ok(records));
        Ok(())
    });
    let [none, one, more] = met.get();
    assert!(none > 20 && one > 200 && more > 200, "{none} pairs have no change, {one} have one, {more} have more");
}

/// The two maps send an address to these numbers.
fn sent(old: &[u8], new: &[u8], address: u128) -> Result<(u32, u32), TestCaseError> {
    let number = |map| interpret(map, &address.to_be_bytes()).map(|walk| walk.number).map_err(failed);
    Ok((number(old)?, number(new)?))
}

/// From one address to another, both included, nothing changes: as far as the ends and the middle tell.
fn unchanged(old: &[u8], new: &[u8], first: u128, last: u128) -> TestCaseResult {
    for address in [first, first + (last - first) / 2, last] {
        let (old, new) = sent(old, new, address)?;
        prop_assert_eq!(old, new, "{:x} lies in no change", address);
    }
    Ok(())
}

/// The changes rise and do not overlap; their first and last addresses are sent as they say, and nothing changes between them.
fn by_walks(old: &[u8], new: &[u8], changes: impl Iterator<Item = Change>) -> TestCaseResult {
    let mut next = Some(0);
    for change in changes {
        let (first, last) = ends(Prefix { address: change.address, length: change.length, number: 0 });
        let from = next.ok_or_else(|| TestCaseError::fail("a change past the last address"))?;
        prop_assert!(change.length <= 128 && first >= from && change.old != change.new, "{:?}", change);
        if first > from {
            unchanged(old, new, from, first - 1)?;
        }
        for address in [first, last] {
            prop_assert_eq!(sent(old, new, address)?, (change.old, change.new), "{:?}", change);
        }
        next = last.checked_add(1);
    }
    next.map_or(Ok(()), |from| unchanged(old, new, from, u128::MAX))
}

#[test]
fn an_address_lies_in_a_change_just_where_its_walks_differ() {
    let place = || prop::option::of(any::<prop::sample::Index>());
    holds(1_500, (pairs(), place(), place(), any::<[u8; 16]>(), 0..128u8), |((old, new), at, other, address, but)| {
        let address = u128::from_be_bytes(new.led(address, but));
        let (old, new) = (turned(old.map(), at), turned(new.map(), other));
        let Ok(records) = compare(&old, &new) else { return Ok(()) };
        by_walks(&old, &new, changes(&records))?;
        let around = changes(&records).filter(|change| {
            let (first, last) = ends(Prefix { address: change.address, length: change.length, number: 0 });
            (first..=last).contains(&address)
        });
        let numbers = sent(&old, &new, address)?;
        let wanted = if numbers.0 == numbers.1 { vec![] } else { vec![numbers] };
        prop_assert_eq!(around.map(|change| (change.old, change.new)).collect::<Vec<_>>(), wanted);
        Ok(())
    });
}

#[test]
fn the_same_bytes_have_no_change_and_two_maps_exchanged_have_their_numbers_exchanged() {
    holds(1_000, pairs(), |(old, new)| {
        let (old, new) = (old.map(), new.map());
        prop_assert_eq!((compare(&old, &old), first_change(&new, &new)), (Ok(vec![]), Ok(None)));
        let (there, back) = (compare(&old, &new), compare(&new, &old));
        let exchanged = |change: Change| Change { old: change.new, new: change.old, ..change };
        let wanted: Vec<u8> = changes(&there.unwrap_or_default()).flat_map(|change| exchanged(change).record()).collect();
        prop_assert_eq!(back, Ok(wanted));
        Ok(())
    });
}

#[test]
fn a_default_that_is_moved_changes_nothing() {
    let met = std::cell::Cell::new(0);
    holds(1_000, (programs(), 1..400_000u32), |(program, number)| {
        // A default that every walk meets first, and the same in either half of a JUMP: other bytes, the same walks.
        let above = Program::default(number, Program::jump(program.clone(), program.clone()));
        let below = Program::jump(Program::default(number, program.clone()), Program::default(number, program));
        let (above, below) = (above.map(), below.map());
        // Neither a RETURN nor a DEFAULT may follow a DEFAULT, nor may it all be longer than an address.
        if fault(&above, &below) != 0 {
            return Ok(());
        }
        met.set(met.get() + 1);
        prop_assert_ne!(&above, &below);
        prop_assert_eq!((compare(&above, &below), first_change(&below, &above)), (Ok(vec![]), Ok(None)));
        Ok(())
    });
    assert!(met.get() > 200, "{} programs could be tried", met.get());
}
