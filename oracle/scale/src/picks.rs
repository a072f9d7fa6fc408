//! Groups and picks over random lists, with few and with many groups, with a map and without, by both numberings.
use crate::calls::{self, Asked, Left, BEFORE16, BEFORE64};
use crate::programs::{followed, number};
use crate::tally::Tally;
use crate::Form;
use corbastrigo_sys as sys;
use maps::{shapes, Random};
use oracle::picks::{self, By, Groups};

/// A candidate whose address comes from `address`: of family 4, 6, 6 with the mapped form, or with a bit of that form turned over.
fn candidate(random: &mut Random, address: [u8; 16]) -> Vec<u8> {
    let mut bytes = vec![6, 0];
    bytes.extend(address);
    bytes.extend([0x20, 0x8d - random.below(2) as u8]);
    if random.percent(50) {
        bytes[2..14].copy_from_slice(&[0, 0, 0, 0, 0, 0, 0, 0, 0, 0, 255, 255]);
        match random.below(20) {
            0 => bytes[2 + random.below(12) as usize] ^= 1 << random.below(8),
            1..=5 => {}
            _ => bytes[0] = 4,
        }
    }
    bytes
}

/// A byte of a list changed, which makes most candidates wrong that it meets.
pub fn spoiled(random: &mut Random, list: &mut Vec<u8>) {
    match random.below(4) {
        0 => list.push(0),
        1 => list.truncate(list.len() - 1),
        2 => {
            let place = random.below(list.len() as u64 / 20) as usize;
            list[20 * place + random.below(2) as usize] = random.next() as u8;
        }
        _ => {
            let place = random.below(list.len() as u64) as usize;
            list[place] = random.next() as u8;
        }
    }
}

/// A list of candidates: few addresses, many times, or many.
pub fn list(random: &mut Random, map: &[u8], count: usize) -> Vec<u8> {
    let few = random.percent(50);
    let pool: Vec<[u8; 16]> = (0..if few { 1 + random.below(6) as usize } else { count })
        .map(|_| if random.percent(50) { followed(map, random) } else { random.address() })
        .collect();
    let mut bytes = Vec::new();
    for _ in 0..count {
        let mut address = pool[random.below(pool.len() as u64) as usize];
        if few && random.percent(30) {
            address[15] = random.next() as u8;
        }
        // Small first bytes make prefixes meet.
        if random.percent(30) {
            address[..4].copy_from_slice(&[0, 0, 0, random.below(4) as u8]);
            address[12..14].copy_from_slice(&[random.below(2) as u8, random.below(3) as u8]);
        }
        bytes.extend(candidate(random, address));
    }
    bytes
}

fn left(made: Result<picks::Pick, u32>, rooms: [usize; 2]) -> Left {
    let (mut picks, mut groups) = (vec![BEFORE16; rooms[0]], vec![BEFORE64; rooms[1]]);
    match made {
        Err(reason) => Left { answer: number(reason), picks, groups, totals: [BEFORE64; 4] },
        Ok(pick) => {
            let (total, first) = (pick.places.len(), pick.groups.len());
            pick.places.iter().zip(&mut picks).for_each(|(&place, out)| *out = place as u16);
            groups[..first].copy_from_slice(&pick.groups);
            Left { answer: 0, picks, groups, totals: [total as u64, first as u64, pick.examined as u64, pick.instructions] }
        }
    }
}

/// A pick by prefixes, of the new numbering through both calls and of the old one, with the map checked, and with the map as it is.
pub fn all_ways(tally: &mut Tally, candidates: &[u8], occupied: &[u64], max: usize, map: &[u8], rooms: [usize; 2]) {
    let asked = |has_map| Asked { candidates, occupied, max, has_map, map, rooms };
    let (checked, unchecked) = (sys::corbastrigo_select_diverse, sys::corbastrigo_select_diverse_unchecked);
    let ways: [(&str, By, Vec<Left>); 4] = [
        ("pick", By::Prefixes, vec![calls::select_diverse(checked, &asked(0)), calls::select_diverse(unchecked, &asked(0))]),
        ("old pick", By::OldPrefixes, vec![calls::old_prefix_pick(&asked(0))]),
        ("pick", By::Map(map), vec![calls::select_diverse(checked, &asked(1))]),
        ("pick", By::Unchecked(map), vec![calls::select_diverse(unchecked, &asked(255))]),
    ];
    for (call, by, made) in ways {
        let expected = left(picks::pick(candidates, occupied, max, &Groups::new(by), rooms), rooms);
        for made in made {
            tally.same(call, &(candidates, occupied, max, by, rooms), &made, &expected);
        }
    }
}

/// A group by prefixes through each call that has one, by both numberings.
pub fn prefix_groups(tally: &mut Tally, candidate: &[u8], map: &[u8]) {
    let (new, old) = (group(By::Prefixes, candidate), group(By::OldPrefixes, candidate));
    tally.same("prefix group", &candidate, calls::prefix_group(candidate), old);
    tally.same("group", &candidate, calls::netgroup(sys::corbastrigo_netgroup, candidate, 0, map), new);
    tally.same("group", &candidate, calls::netgroup(sys::corbastrigo_netgroup_unchecked, candidate, 0, map), new);
}

fn group(by: By, candidate: &[u8]) -> (u8, u64) {
    match Groups::new(by).group(candidate) {
        Ok(group) => (0, group),
        Err(reason) => (number(reason), BEFORE64),
    }
}

fn groups(tally: &mut Tally, candidate: &[u8], map: &[u8]) {
    let (checked, unchecked) = (sys::corbastrigo_netgroup, sys::corbastrigo_netgroup_unchecked);
    prefix_groups(tally, candidate, map);
    tally.same("group", &(candidate, map), calls::netgroup(checked, candidate, 1, map), group(By::Map(map), candidate));
    tally.same("group", &(candidate, map), calls::netgroup(unchecked, candidate, 2, map), group(By::Unchecked(map), candidate));
}

fn occupied(random: &mut Random, found: &[u64]) -> Vec<u64> {
    let count = random.below(8) as usize;
    let met = |random: &mut Random| match found.is_empty() || random.percent(40) {
        true => random.below(4),
        false => found[random.below(found.len() as u64) as usize],
    };
    (0..count).map(|_| met(random)).collect()
}

pub fn run(tally: &mut Tally, random: &mut Random, form: Form) {
    for _ in 0..form.choose(4_000, 60_000) {
        let mut map = shapes::random(random, 30, 128);
        if random.percent(15) {
            let place = random.below(map.len() as u64) as usize;
            map[place] ^= 1 << random.below(8);
        }
        let most = if random.percent(5) { 200 } else { 24 };
        let count = random.below(most) as usize;
        let mut candidates = list(random, &map, count);
        let found: Vec<u64> = [By::Unchecked(&map), By::Prefixes, By::OldPrefixes]
            .map(Groups::new)
            .iter()
            .flat_map(|by| candidates.chunks(20).filter_map(|candidate| by.group(candidate).ok()))
            .collect();
        let taken = occupied(random, &found);
        if random.percent(15) && count > 0 {
            spoiled(random, &mut candidates);
        }
        let max = if random.percent(10) { usize::MAX } else { random.below(count as u64 + 3) as usize };
        let need = max.min(count);
        let rooms = match random.below(10) {
            0 => [need.saturating_sub(1), need],
            1 => [need, need.saturating_sub(1)],
            2 => [need + 3, need + 1],
            _ => [need, need],
        };
        all_ways(tally, &candidates, &taken, max, &map, rooms);
        let one = random.below(count as u64 + 1) as usize * 20;
        groups(tally, &candidates[one.min(candidates.len())..(one + 20).min(candidates.len())], &map);
    }
}
