//! The page of a candidate list, worked through here as document 02 says it (CR 4), by a map and by both numberings of prefixes, and the
//! order of its refusals.
use crate::calls::{self, BEFORE, BEFORE_SIZE};
use crate::holds;
use crate::numberings::By;
use crate::order::{any_maps, candidates, fault, first, refusals_of, well_formed};
use crate::programs::walked_programs;
use corbastrigo::{old_prefix_page, page, MAX_CANDIDATES};
use corbastrigo_sys as sys;
use proptest::prelude::*;
use std::collections::{BTreeMap, BTreeSet};
use std::net::{IpAddr, Ipv4Addr, Ipv6Addr, SocketAddr};

/// Groups in their order, each with its candidates and its tenths of a per cent: the nearest whole number to 1,000 times the candidates over
/// all, of two that are as near the greater.
fn counted(list: &[SocketAddr], by: &By) -> Vec<(u64, usize, u32)> {
    let mut counts = BTreeMap::new();
    for &peer in list {
        *counts.entry(by.group(peer)).or_insert(0) += 1;
    }
    let tenths = |candidates| {
        let (whole, rest) = (1_000 * candidates / list.len(), 1_000 * candidates % list.len());
        whole as u32 + u32::from(2 * rest >= list.len())
    };
    counts.into_iter().map(|(group, candidates)| (group, candidates, tenths(candidates))).collect()
}

fn lines(counted: &[(u64, usize, u32)]) -> String {
    let line = |&(group, candidates, tenths)| {
        let per_cent = format!("{}.{}", tenths / 10, tenths % 10);
        format!("{group:>10} {candidates:>6} {per_cent:>6}\n")
    };
    counted.iter().map(line).collect()
}

/// The page is what was counted, and its shares are what is printed.
fn agrees(list: &[SocketAddr], by: &By) -> Result<(), TestCaseError> {
    let page = match by {
        By::Old => old_prefix_page(list),
        By::New | By::Map(_) => page(list, by.map()),
    };
    let page = page.map_err(|refusal| TestCaseError::fail(refusal.to_string()))?;
    let expected = counted(list, by);
    prop_assert_eq!(page.as_str(), lines(&expected));
    let shares: Vec<(u64, usize, u32)> = page.shares().map(|share| (share.group, share.candidates, share.tenths)).collect();
    prop_assert!(shares.windows(2).all(|pair| pair[0].0 < pair[1].0));
    prop_assert_eq!(shares.iter().map(|share| share.1).sum::<usize>(), list.len());
    prop_assert_eq!(shares, expected);
    Ok(())
}

#[test]
fn a_page_is_the_count_of_each_group_by_a_map_and_without() {
    let places = prop::collection::vec(any::<prop::sample::Index>(), 0..60);
    holds(3_000, (walked_programs(), 0..4u8, places), |((program, addresses), by, places)| {
        let mut pool: Vec<IpAddr> = addresses.iter().map(|&address| Ipv6Addr::from(address).into()).collect();
        pool.extend(addresses.iter().map(|address| IpAddr::from(Ipv4Addr::new(address[0] % 3, address[1] % 2, 1, 2))));
        pool.extend(addresses.iter().map(|address| IpAddr::from(Ipv4Addr::new(address[2] % 3, 0, 3, 4).to_ipv6_mapped())));
        pool.extend(
            addresses.iter().map(|address| IpAddr::from(Ipv6Addr::new(0, u16::from(address[0] % 3) << 8, 0, 0, 0, 0, 0, 1))),
        );
        let list: Vec<SocketAddr> = places.iter().map(|place| SocketAddr::new(pool[place.index(pool.len())], 8333)).collect();
        agrees(&list, &By::drawn(by, program.map())?)
    });
}

#[test]
fn a_page_of_many_candidates_is_the_count_of_each_group() {
    // From one group on to more than there are candidates, so that shares of every size are there.
    let list = (1..=5_000u32, prop_oneof![0..200usize, 3_000..=MAX_CANDIDATES])
        .prop_flat_map(|(groups, length)| prop::collection::vec(0..groups, length));
    holds(200, list, |groups| {
        let list: Vec<SocketAddr> = groups.iter().map(|group| SocketAddr::from((Ipv4Addr::from(group << 16), 8333))).collect();
        agrees(&list, &By::New)?;
        agrees(&list, &By::Old)
    });
}

#[test]
fn every_share_of_a_list_of_two_groups_is_the_nearest_tenth() {
    let lists = (1..=MAX_CANDIDATES, any::<prop::sample::Index>());
    // Lengths of which some shares are exact halves.
    let halves = (prop::sample::select(vec![16, 32, 48, 80, 160, 400, 2_000, 4_000]), any::<prop::sample::Index>());
    holds(500, prop_oneof![lists, halves], |(all, some)| {
        let some = some.index(all + 1);
        let peer = |place| SocketAddr::from((Ipv4Addr::new(u8::from(place < some), 2, 3, 4), 8333));
        agrees(&(0..all).map(peer).collect::<Vec<_>>(), &By::New)
    });
}

/// How many groups candidates have.
fn groups_of(list: &[Vec<u8>], group: impl Fn(&[u8]) -> u64) -> usize {
    list.iter().map(|candidate| group(candidate)).collect::<BTreeSet<u64>>().len()
}

/// What a page left of its outputs, with so many bytes of lines: behind them, or where it was refused everywhere, stands what stood there; no
/// line has such a byte.
fn left_alone((answer, written, out): &calls::Bytes, needed: usize) -> bool {
    let end = if *answer == 0 { needed } else { 0 };
    let number = if *answer == 0 { needed } else { BEFORE_SIZE };
    *written == number && out.iter().enumerate().all(|(place, &byte)| (byte == BEFORE) == (place >= end))
}

#[test]
fn a_page_asks_for_length_number_forms_map_and_room() {
    let list = prop::collection::vec(candidates(), 0..6);
    let ragged = prop_oneof![6 => Just(0), 1 => 1..20usize];
    // Bytes that the room has more than it needs, or fewer.
    let spare = prop_oneof![-26..60isize, Just(-1), Just(0)];
    let inputs = (any_maps(), list, ragged, prop::bool::weighted(0.1), spare, any::<u8>());
    holds(2_500, inputs, |(map, mut list, ragged, many, spare, has_map)| {
        if many {
            list.resize(MAX_CANDIDATES + 1, vec![6; 20]);
        }
        let forms = fault(!list.iter().all(|candidate| well_formed(candidate)), 13);
        let before = first(&[fault(ragged != 0, 13), fault(many, 12), forms]);
        // By a map as it is, whether it would be accepted or not.
        let by_call = |candidate: &[u8]| calls::netgroup(sys::corbastrigo_netgroup_unchecked, candidate, has_map, &map).1;
        let lines = |groups: usize| if before == 0 { sys::PAGE_LINE_BYTES * groups } else { 0 };
        let (needed, of_old) =
            (lines(groups_of(&list, by_call)), lines(groups_of(&list, |candidate| calls::prefix_group(candidate).1)));
        let room = needed.saturating_add_signed(spare);
        let mut bytes = list.concat();
        bytes.extend(vec![0; ragged]);
        let (checked, unchecked) = if has_map == 0 { (0, 0) } else { refusals_of(&map) };
        for (call, of_map) in [(sys::corbastrigo_page as sys::Page, checked), (sys::corbastrigo_page_unchecked, unchecked)] {
            let left = calls::page(call, &bytes, has_map, &map, room);
            prop_assert_eq!(left.0, first(&[before, of_map, fault(room < needed, 14)]));
            prop_assert!(left_alone(&left, needed));
        }
        let room = of_old.saturating_add_signed(spare);
        let left = calls::old_prefix_page(&bytes, room);
        prop_assert_eq!(left.0, first(&[before, fault(room < of_old, 14)]));
        prop_assert!(left_alone(&left, of_old));
        Ok(())
    });
}
