//! Of several faults a call names the one that document 01 puts first ("Order"), and a refused call leaves everything that was lent.
//! Codes are in `codes`, the reasons of the check in `check`, unpack and pack in `packed`, the list of prefixes in `prefixes`, the map built
//! from such a list in `builds`, the comparison of two maps in `changes`, the scan of the occupied groups in `scans`, widths that are none in
//! `widths`, the page in `pages`.
use crate::calls::{self, Asked, BEFORE, BEFORE16, BEFORE32, BEFORE64, BEFORE_SIZE};
use crate::programs::programs;
use crate::{holds, too_long};
use corbastrigo::codes::decode_instruction;
use corbastrigo::{ip16_for_lookup, sanity_check, Refusal, MAX_CANDIDATES};
use corbastrigo_sys as sys;
use proptest::prelude::*;
use std::borrow::Cow;
use std::net::IpAddr;

/// A map as a call may get it: accepted, turned in one bit, any bytes, or over the limit.
pub fn any_maps() -> impl Strategy<Value = Cow<'static, [u8]>> {
    let turned = (programs(), any::<prop::sample::Index>()).prop_map(|(program, place)| {
        let mut map = program.map();
        let place = place.index(map.len() * 8);
        map[place / 8] ^= 1 << (place % 8);
        Cow::Owned(map)
    });
    prop_oneof![
        3 => programs().prop_map(|program| Cow::Owned(program.map())),
        2 => turned,
        1 => prop::collection::vec(any::<u8>(), 0..20).prop_map(Cow::Owned),
        1 => Just(Cow::Borrowed(too_long())),
    ]
}

/// The number that a call answers which checks the map, and one which does not.
pub fn refusals_of(map: &[u8]) -> (u8, u8) {
    let checked = sanity_check(map).err().map_or(0, Refusal::number);
    (checked, if checked == 1 { 1 } else { 0 })
}

/// The first fault that is there.
pub fn first(faults: &[u8]) -> u8 {
    faults.iter().copied().find(|&fault| fault != 0).unwrap_or(0)
}

/// A number where something is so, else 0.
pub fn fault(is: bool, number: u8) -> u8 {
    if is {
        number
    } else {
        0
    }
}

/// Candidates, most of them well formed.
pub fn candidates() -> impl Strategy<Value = Vec<u8>> {
    let well = any::<(IpAddr, u16)>().prop_map(|(ip, port)| {
        let mut bytes = vec![if ip.is_ipv4() { 4 } else { 6 }, 0];
        bytes.extend(ip16_for_lookup(ip));
        bytes.extend(port.to_be_bytes());
        bytes
    });
    let other = (0..3u8, 0..18usize).prop_map(|(fault, place)| {
        let mut bytes = vec![4, 0, 0, 0, 0, 0, 0, 0, 0, 0, 0, 0, 0xff, 0xff, 1, 2, 3, 4, 0x20, 0x8d];
        match fault {
            0 => bytes[0] = 5,
            1 => bytes[1] = 1,
            // A byte of the mapped form.
            _ => bytes[2 + place % 12] ^= 1,
        }
        bytes
    });
    prop_oneof![12 => well, 1 => other]
}

pub fn well_formed(candidate: &[u8]) -> bool {
    let mapped = candidate[2..12] == [0; 10] && candidate[12..14] == [0xff; 2];
    candidate[1] == 0 && (candidate[0] == 6 || candidate[0] == 4 && mapped)
}

#[test]
fn a_check_leaves_its_numbers_where_it_refuses() {
    holds(1_500, any_maps(), |map| {
        let (answer, count, depth) = calls::sanity_check(&map);
        prop_assert!(answer <= 10 || answer == 19);
        prop_assert!(answer == 0 || (count, depth) == (BEFORE32, BEFORE));
        prop_assert_eq!(answer == 1, map.len() == too_long().len());
        Ok(())
    });
}

#[test]
fn the_place_of_the_check_has_its_reason_and_is_where_an_instruction_starts() {
    holds(1_500, any_maps(), |map| {
        let (answer, reason, place) = calls::sanity_check_stop(&map);
        let checked = calls::sanity_check(&map).0;
        if checked == 1 {
            prop_assert_eq!((answer, reason, place), (1, BEFORE, BEFORE_SIZE));
            return Ok(());
        }
        prop_assert_eq!((answer, reason), (0, checked));
        let mut at = 0;
        while at < place {
            let (_, _, size) = decode_instruction(&map, at).map_err(|refusal| TestCaseError::fail(refusal.to_string()))?;
            at += size;
        }
        prop_assert_eq!(at, place);
        Ok(())
    });
}

#[test]
fn a_walk_asks_for_the_address_then_for_the_map() {
    holds(1_500, (any_maps(), prop_oneof![Just(16), 0..40usize]), |(map, length)| {
        let (answer, kind, number, count, bits) = calls::interpret(&map, &vec![7; length]);
        prop_assert_eq!(answer, first(&[fault(length != 16, 11), refusals_of(&map).1]));
        prop_assert_eq!(answer != 0, (kind, number, count, bits) == (BEFORE, BEFORE32, BEFORE32, BEFORE));
        Ok(())
    });
}

#[test]
fn a_group_asks_for_the_candidate_then_for_the_map() {
    let lengths = prop_oneof![4 => Just(20), 1 => 0..60usize];
    holds(2_500, (any_maps(), candidates(), lengths, any::<u8>()), |(map, mut candidate, length, has_map)| {
        candidate.resize(length, 0);
        let form = fault(length != 20 || !well_formed(&candidate), 13);
        let (checked, unchecked) = if has_map == 0 { (0, 0) } else { refusals_of(&map) };
        for (call, of_map) in
            [(sys::corbastrigo_netgroup as sys::Netgroup, checked), (sys::corbastrigo_netgroup_unchecked, unchecked)]
        {
            let (answer, group) = calls::netgroup(call, &candidate, has_map, &map);
            prop_assert_eq!(answer, first(&[form, of_map]));
            prop_assert_eq!(answer != 0, group == BEFORE64);
        }
        let (answer, group) = calls::prefix_group(&candidate);
        prop_assert_eq!((answer, answer != 0), (form, group == BEFORE64));
        Ok(())
    });
}

/// What may be wrong with a pick beside its map and its candidates' form.
#[derive(Clone, Copy, Debug)]
struct Faults {
    ragged: usize,
    many_candidates: bool,
    many_occupied: bool,
    short: [usize; 2],
}

fn faults() -> impl Strategy<Value = Faults> {
    let seldom = || prop::bool::weighted(0.1);
    let ragged = prop_oneof![6 => Just(0), 1 => 1..20usize];
    let short = || prop_oneof![4 => Just(0), 1 => Just(1usize)];
    (ragged, seldom(), seldom(), short(), short()).prop_map(|(ragged, many_candidates, many_occupied, picks, groups)| Faults {
        ragged,
        many_candidates,
        many_occupied,
        short: [picks, groups],
    })
}

#[test]
fn a_pick_asks_for_length_numbers_forms_map_and_rooms() {
    let max = prop_oneof![0..8usize, Just(usize::MAX)];
    let ranked = prop::collection::vec(candidates(), 0..6);
    holds(2_500, (any_maps(), ranked, faults(), max, any::<u8>()), |(map, mut ranked, faults, max, has_map)| {
        if faults.many_candidates {
            ranked.resize(MAX_CANDIDATES + 1, vec![6; 20]);
        }
        let forms = fault(!ranked.iter().all(|candidate| well_formed(candidate)), 13);
        let needed = max.min(ranked.len());
        let rooms = faults.short.map(|short| needed.saturating_sub(short));
        let mut candidates = ranked.concat();
        candidates.extend(vec![0; faults.ragged]);
        let occupied = vec![1; if faults.many_occupied { MAX_CANDIDATES + 1 } else { 2 }];
        let asked = Asked { candidates: &candidates, occupied: &occupied, max, has_map, map: &map, rooms };
        let before = [fault(faults.ragged != 0, 13), fault(faults.many_candidates || faults.many_occupied, 12), forms];
        let room = fault(rooms.iter().any(|&room| room < needed), 14);
        let (checked, unchecked) = if has_map == 0 { (0, 0) } else { refusals_of(&map) };
        let picks = [
            (calls::select_diverse(sys::corbastrigo_select_diverse, &asked), checked),
            (calls::select_diverse(sys::corbastrigo_select_diverse_unchecked, &asked), unchecked),
            (calls::old_prefix_pick(&asked), 0),
        ];
        // The old pick walks no map, and says so.
        prop_assert!(picks[2].0.answer != 0 || picks[2].0.totals[3] == 0);
        for (left, of_map) in picks {
            prop_assert_eq!(left.answer, first(&[first(&before), of_map, room]));
            // Behind the picks, or where it was refused everywhere, stands what stood there.
            let (total, first) = if left.answer == 0 { (left.totals[0] as usize, left.totals[1] as usize) } else { (0, 0) };
            prop_assert!(left.picks[total..].iter().all(|&pick| pick == BEFORE16));
            prop_assert!(left.groups[first..].iter().all(|&group| group == BEFORE64));
            prop_assert_eq!(left.answer != 0, left.totals == [BEFORE64; 4]);
        }
        Ok(())
    });
}

#[test]
fn the_filters_ask_for_the_length() {
    let lengths = prop_oneof![Just(4usize), Just(10), Just(16), Just(32), 0..40usize, Just(512), Just(513)];
    holds(1_000, (prop_oneof![0..8u8, any::<u8>()], lengths, any::<u8>(), any::<u16>()), |(id, length, fill, port)| {
        let address = vec![fill; length];
        let (answer, unroutable) = calls::clearnet_unroutable(&address);
        prop_assert_eq!((answer, unroutable == BEFORE), (fault(length != 16, 11), length != 16));
        let known = match id {
            1 => length == 4,
            2 | 6 => length == 16,
            3 => length == 10,
            4 | 5 => length == 32,
            _ => length <= 512,
        };
        let (answer, skips) = calls::addrv2_skip_relay(id, &address, port);
        prop_assert_eq!((answer, skips == BEFORE), (fault(!known, 17), !known));
        Ok(())
    });
}
