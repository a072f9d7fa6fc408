//! The scan of the occupied groups, worked through here as document 02 says it (CR 2), and what a pick takes for occupied.
use crate::calls::{self, BEFORE, BEFORE_SIZE};
use crate::holds;
use corbastrigo::{netgroup, pick, scan_occupied, IPV4_GROUPS, MAX_CANDIDATES};
use proptest::prelude::*;
use std::collections::HashSet;
use std::net::{Ipv4Addr, SocketAddr};

/// Groups of which many are equal, many differ in one bit, and some are as large as they can be.
fn groups() -> impl Strategy<Value = u64> {
    let one_bit = (0..4u64, 0..64u32).prop_map(|(low, bit)| low ^ 1 << bit);
    prop_oneof![4 => 0..60u64, 4 => one_bit, 1 => (0..4u64).prop_map(|below| u64::MAX - below), 1 => any::<u64>()]
}

#[test]
fn a_scan_ends_at_the_first_hit() {
    holds(2_000, (groups(), prop::collection::vec(groups(), 0..80)), |(group, occupied)| {
        let hit = occupied.iter().position(|&other| other == group);
        let read = hit.map_or(occupied.len(), |place| place + 1);
        let scan = scan_occupied(group, &occupied).map_err(|refusal| TestCaseError::fail(refusal.to_string()))?;
        prop_assert_eq!((scan.place, scan.read), (hit, read));
        // Past the safe crate none has the place 0.
        prop_assert_eq!(calls::scan_occupied(group, &occupied), (0, u8::from(hit.is_some()), hit.unwrap_or(0), read));
        Ok(())
    });
}

#[test]
fn over_4096_occupied_groups_are_refused_and_nothing_is_written() {
    let lengths = prop_oneof![MAX_CANDIDATES - 2..MAX_CANDIDATES + 3, Just(3 * MAX_CANDIDATES)];
    holds(200, (groups(), lengths), |(group, length)| {
        // The first would be a hit.
        let (answer, found, place, read) = calls::scan_occupied(group, &vec![group; length]);
        let wanted = if length > MAX_CANDIDATES { (12, BEFORE, BEFORE_SIZE, BEFORE_SIZE) } else { (0, 1, 0, 1) };
        prop_assert_eq!((answer, found, place, read), wanted);
        Ok(())
    });
}

#[test]
fn a_pick_takes_a_group_for_occupied_where_a_scan_finds_it() {
    let groups = prop::collection::vec(IPV4_GROUPS..IPV4_GROUPS + 60, 0..80);
    holds(1_000, (0..60u32, groups), |(high, occupied)| {
        let peer = SocketAddr::from((Ipv4Addr::from(high << 16), 8333));
        let set: HashSet<u64> = occupied.iter().copied().collect();
        let picked = pick(&[peer], 1, &set, None).map_err(|refusal| TestCaseError::fail(refusal.to_string()))?;
        let scan = scan_occupied(netgroup(peer, None), &occupied).map_err(|refusal| TestCaseError::fail(refusal.to_string()))?;
        prop_assert_eq!(picked.first_pass().is_empty(), scan.place.is_some());
        Ok(())
    });
}
