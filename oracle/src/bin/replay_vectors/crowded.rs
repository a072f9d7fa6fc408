//! Picks among groups that are the same modulo 4,096. A pick need not scan the occupied and the taken groups for each candidate: it may keep
//! marks by a part of the number, and follow those that share one for some way before it scans. Here they share it, so that each way of
//! finding a group is taken, and one that lost a group, or took another for it, would show.
use crate::list::{List, Picking};
use oracle::asmap::TWO_PREFIX_ASMAP;
use oracle::picks::{By, IPV4_GROUPS};

/// The group at place k among those that are 7 modulo 4,096.
fn alike(k: u32) -> u64 {
    u64::from(7 + 4096 * k)
}

/// The same 16 apart, which the list has shorter words for.
fn apart(k: u32) -> u64 {
    alike(16 * k)
}

/// A candidate of family 6 that has this group by its prefix.
pub fn peer(group: u64, port: u16) -> Vec<u8> {
    let first = u32::try_from(group).expect("four bytes").to_be_bytes();
    [&[6, 0][..], &first, &[0; 12], &port.to_be_bytes()].concat()
}

/// The candidate a.2.0.0 with a port.
fn v4(a: u8, port: u8) -> Vec<u8> {
    [&[4, 0][..], &[0; 10], &[255, 255, a, 2, 0, 0, 0, port]].concat()
}

fn peers(groups: &[u64], port: u16) -> Vec<u8> {
    groups.iter().flat_map(|&group| peer(group, port)).collect()
}

/// A pick by prefixes, of either numbering, with room for so many.
fn pick_by(list: &mut List, by: By, candidates: &[u8], occupied: &[u64], max: usize) {
    let room = max.min(candidates.len() / 20);
    let inputs = Picking { list: candidates, occupied, max, by, map: &[], rooms: [room, room] };
    list.pick(&inputs).expect("nothing that is refused");
}

fn pick(list: &mut List, candidates: &[u8], occupied: &[u64], max: usize) {
    pick_by(list, By::OldPrefixes, candidates, occupied, max);
}

/// What stands behind a heading that both numberings have.
fn named(by: By) -> &'static str {
    if matches!(by, By::Prefixes) {
        ", by the new numbering"
    } else {
        ""
    }
}

/// So many occupied groups of one mark; asked for are one that is free, twice, and the first and the last of the occupied.
fn each_length(list: &mut List, by: By) {
    list.heading(&format!("picks: 0 to 20 and 31 to 34 occupied groups, all the same modulo 4,096{}", named(by)));
    for count in (0..=20).chain(31..=34) {
        let occupied: Vec<u64> = (1..=count).map(alike).collect();
        let asked = [alike(count + 1), alike(1), alike(count.max(1)), alike(0)];
        pick_by(list, by, &[peers(&asked, 1), peer(alike(count + 1), 2)].concat(), &occupied, 5);
    }
}

/// Forty-three groups of one mark are occupied, and as many are free; of each there are two candidates.
fn both_ways(list: &mut List, by: By) {
    let [taken, free] = [0, 43].map(|from| (from..from + 43).map(alike).collect::<Vec<u64>>());
    let candidates = [peers(&taken, 1), peers(&free, 1), peers(&free, 2), peers(&taken, 2)].concat();
    let backwards: Vec<u64> = taken.iter().rev().copied().collect();
    let thrice: Vec<u64> = taken.iter().flat_map(|&group| [group; 3]).collect();
    list.heading(&format!(
        "picks: 43 occupied groups and 43 free ones, all the same modulo 4,096, every max around the free ones{}",
        named(by)
    ));
    for max in [42, 43, 44, usize::MAX] {
        pick_by(list, by, &candidates, &taken, max);
    }
    list.heading(&format!(
        "picks: the same groups occupied in other orders, backwards, each three times, and all of them twice{}",
        named(by)
    ));
    for occupied in [&backwards, &thrice, &[&taken[..], &backwards].concat()] {
        pick_by(list, by, &candidates, occupied, usize::MAX);
    }
}

/// Every other group of one mark is occupied, so that occupied and taken ones lie among each other.
fn by_turns(list: &mut List, by: By) {
    list.heading(&format!("picks: every other group occupied, all the same modulo 4,096{}", named(by)));
    let all: Vec<u64> = (0..80).map(alike).collect();
    let occupied: Vec<u64> = all.iter().copied().step_by(2).collect();
    let backwards: Vec<u64> = all.iter().rev().copied().collect();
    pick_by(list, by, &[peers(&all, 1), peers(&backwards, 2)].concat(), &occupied, usize::MAX);
    list.heading(&format!("picks: occupied groups that only the bits from the 33rd on tell from the candidates'{}", named(by)));
    let high: Vec<u64> = all.iter().map(|group| group | 1 << 32).collect();
    for count in [8, 80] {
        pick_by(list, by, &[peers(&all[..20], 1), peers(&all[..20], 2)].concat(), &high[..count], usize::MAX);
    }
}

/// An IPv4 candidate and one of IPv6 that have the same group by the old numbering, occupied at each end of the list and between.
fn each_end(list: &mut List, by: By) {
    let asked = "picks: 258 at the first place, between and at the last, among 40 that are the same modulo 4,096";
    list.heading(&format!("{asked}{}", named(by)));
    for place in [0, 20, 40] {
        let mut occupied: Vec<u64> = (1..=40).map(|k| 258 + 4096 * k).collect();
        occupied.insert(place, 258);
        pick_by(list, by, &[peer(258, 1), v4(1, 1), peer(258 + 41 * 4096, 1)].concat(), &occupied, 1);
    }
}

/// As many as there may be. The candidates of a pair have one group, and stand behind each other or far apart.
fn longest(list: &mut List) {
    let groups: Vec<u64> = (0..4096).map(apart).collect();
    let all = peers(&groups, 1);
    let others: Vec<u64> = groups.iter().map(|group| group | 1 << 40).collect();
    list.heading("picks: 4,096 free candidates and 4,096 occupied groups, all the same modulo 4,096");
    pick(list, &all, &others, 4096);
    list.heading("picks: 2,048 groups, each of two candidates, and 4,096 occupied groups, all the same modulo 4,096");
    pick(list, &[peers(&groups[..2048], 1), peers(&groups[..2048], 2)].concat(), &others, usize::MAX);
    list.heading("picks: 4,096 occupied groups, all the same modulo 4,096; free candidates, then those of its ends and its middle");
    let free: Vec<u64> = groups.iter().take(20).map(|group| group + 4096).collect();
    let met = [0, 1, 7, 8, 2048, 4088, 4094, 4095].map(|place| groups[place]);
    pick(list, &[peers(&met, 1), peers(&free, 1), peers(&met, 2)].concat(), &groups, 21);
    list.heading("picks: 4,096 candidates, all the same modulo 4,096, the last like the first, and like the one before it");
    for again in [groups[0], groups[4094]] {
        pick(list, &[&all[..20 * 4095], &peer(again, 2)].concat(), &[], 4096);
    }
    list.heading("picks: 4,096 occupied groups that share nothing, and as many candidates: none free, all free, half of them");
    let [low, high] = [0, 4096].map(|from| (from..from + 4096).collect::<Vec<u64>>());
    for (groups, max) in [(&low, 9), (&high, 4096), (&(2048..6144).collect(), 2048)] {
        pick(list, &peers(groups, 1), &low, max);
    }
}

/// The map's numbers are 0, 1 and 2. One of them stands before all groups that are the same modulo 4,096, or behind them.
fn by_a_map(list: &mut List) {
    list.heading("picks by a map: occupied groups that are the same modulo 4,096 as its numbers, and these among them");
    let candidates = [v4(1, 1), v4(1, 2), v4(3, 1), v4(3, 2), v4(8, 1), v4(8, 2)].concat();
    let others: Vec<u64> = (0..3).flat_map(|number| (1..=20).map(move |k| number + 4096 * k)).collect();
    let (by, map) = (By::Unchecked(TWO_PREFIX_ASMAP), TWO_PREFIX_ASMAP);
    for number in [None, Some(0), Some(1), Some(2)] {
        let number: Vec<u64> = number.into_iter().collect();
        for occupied in [[&number[..], &others].concat(), [&others[..], &number].concat()] {
            let inputs = Picking { list: &candidates, occupied: &occupied, max: 6, by, map, rooms: [6, 6] };
            list.pick_unchecked(&inputs).expect("a map that is accepted");
        }
    }
}

/// The IPv4 candidate at place k, of family 4 or mapped, has 256 × (k mod 256) + k / 256 for the first two bytes of its address.
fn of_ipv4(places: std::ops::Range<u16>, family: u8) -> Vec<u8> {
    let candidate = |k: u16| [&[family, 0][..], &[0; 10], &[255, 255], &k.to_le_bytes(), &[0, 0, 0, 1]].concat();
    places.flat_map(candidate).collect()
}

/// The numbers that these two bytes are, on top of a number.
fn two_bytes(places: std::ops::Range<u16>, from: u64) -> Vec<u64> {
    places.map(|k| from + u64::from(k.swap_bytes())).collect()
}

/// IPv4 groups and those that only the 33rd bit tells from them, which candidates of IPv6 have.
fn both_ranges(list: &mut List) {
    let by = By::Prefixes;
    list.heading(
        "picks by the new numbering: 40 prefixes of IPv4 in both forms, and IPv6 that has the same numbers but for the 33rd bit",
    );
    let low = two_bytes(0..40, 0);
    let all = [of_ipv4(0..40, 4), peers(&low, 1), of_ipv4(0..40, 6)].concat();
    for from in [0, IPV4_GROUPS, 2 * IPV4_GROUPS] {
        pick_by(list, by, &all, &two_bytes(0..20, from), usize::MAX);
        pick_by(list, by, &all, &two_bytes(0..40, from), 40);
    }
    list.heading(
        "picks by the new numbering: 4,096 prefixes of IPv4, each occupied by its old number, by its new one, and half of them",
    );
    let most = of_ipv4(0..4096, 4);
    for (occupied, max) in [
        (two_bytes(0..4096, 0), 4096),
        (two_bytes(0..4096, IPV4_GROUPS), 9),
        ([two_bytes(0..2048, IPV4_GROUPS), two_bytes(2048..4096, 0)].concat(), 2049),
    ] {
        pick_by(list, by, &most, &occupied, max);
    }
    list.heading(
        "picks by the new numbering: 2,048 prefixes of IPv4, each of a candidate of family 4 and, behind all these, a mapped one",
    );
    pick_by(list, by, &[of_ipv4(0..2048, 4), of_ipv4(0..2048, 6)].concat(), &[], 2049);
}

pub fn cases(list: &mut List) {
    each_length(list, By::OldPrefixes);
    both_ways(list, By::OldPrefixes);
    by_turns(list, By::OldPrefixes);
    each_end(list, By::OldPrefixes);
    longest(list);
    by_a_map(list);
    each_length(list, By::Prefixes);
    both_ways(list, By::Prefixes);
    by_turns(list, By::Prefixes);
    each_end(list, By::Prefixes);
    both_ranges(list);
}
