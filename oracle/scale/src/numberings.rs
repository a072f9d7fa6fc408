//! Groups, picks and pages without a map, by both numberings (document 02, CR 7): every prefix of IPv4 alone and mapped beside IPv6 with the
//! numbers that these had, and addresses that are not quite mapped.
use crate::calls;
use crate::pages;
use crate::picks::{all_ways, prefix_groups, spoiled};
use crate::tally::Tally;
use crate::Form;
use corbastrigo_sys as sys;
use maps::Random;
use oracle::picks::IPV4_GROUPS;

/// A candidate with an address as a number.
fn candidate(family: u8, address: u128, port: u8) -> [u8; 20] {
    let mut bytes = [family; 20];
    bytes[1..2].fill(0);
    bytes[2..18].copy_from_slice(&address.to_be_bytes());
    bytes[18..].copy_from_slice(&[0x20, port]);
    bytes
}

/// An IPv4 address in its mapped form, by its first two bytes and its last two.
fn mapped(prefix: u16, rest: u16) -> u128 {
    0xffff_0000_0000 + (u128::from(prefix) << 16) + u128::from(rest)
}

/// An address of IPv6 with four bytes in front.
fn beginning(first: u32, rest: u64) -> u128 {
    (u128::from(first) << 96) + u128::from(rest)
}

/// The group by the new numbering, as the library has it.
fn group(candidate: &[u8]) -> u64 {
    calls::netgroup(sys::corbastrigo_netgroup_unchecked, candidate, 0, &[]).1
}

/// Every two bytes, in both forms and with drawn bytes behind them: 65,536 groups, and none of them that of an IPv6 address, neither of one
/// with the number that the prefix had nor of a drawn one.
fn every_prefix(tally: &mut Tally, random: &mut Random, form: Form) {
    let mut met = vec![false; 65_536];
    for prefix in 0..=u16::MAX {
        let drawn = random.next();
        let alone = candidate(4, mapped(prefix, drawn as u16), 1);
        let dual = candidate(6, mapped(prefix, (drawn >> 16) as u16), 2);
        let beside = candidate(6, beginning(prefix.into(), drawn >> 32), 1);
        let other = candidate(6, beginning((drawn >> 32) as u32, random.next()), 1);
        for candidate in [&alone, &dual, &beside, &other].into_iter().take(form.choose(3, 4)) {
            prefix_groups(tally, candidate, &[]);
        }
        tally.same("two forms", &prefix, group(&alone), group(&dual));
        let place = group(&alone).wrapping_sub(IPV4_GROUPS) as usize;
        let new = met.get_mut(place).is_some_and(|met| !std::mem::replace(met, true));
        tally.same(
            "a group to itself",
            &prefix,
            (new, group(&beside) < IPV4_GROUPS, group(&other) < IPV4_GROUPS),
            (true, true, true),
        );
    }
}

/// Mapped addresses with one bit of the front turned over, with one byte of it drawn, and the addresses before the first and behind the last.
/// Family 4 with such a front is refused.
fn fronts(tally: &mut Tally, random: &mut Random) {
    for bit in 0..96 {
        let [prefix, rest, byte] = [0; 3].map(|_| random.next() as u16);
        let whole = mapped(prefix, rest);
        let shift = 32 + 8 * (bit / 8);
        let drawn = whole & !(0xff << shift) | u128::from(byte as u8) << shift;
        for address in [whole, whole ^ 1 << (32 + bit), drawn] {
            for family in [4, 5, 6] {
                prefix_groups(tally, &candidate(family, address, 1), &[]);
            }
        }
    }
    for address in [mapped(0, 0), mapped(u16::MAX, u16::MAX)] {
        for near in [address - 1, address, address + 1] {
            prefix_groups(tally, &candidate(6, near, 1), &[]);
            prefix_groups(tally, &candidate(4, near, 1), &[]);
        }
    }
}

/// A candidate of a few prefixes, in each form: alone, mapped, of IPv6 with the same number, and not quite mapped.
fn drawn(random: &mut Random, prefixes: &[u16]) -> [u8; 20] {
    let prefix = prefixes[random.below(prefixes.len() as u64) as usize];
    let (rest, port) = (random.below(3) as u16, 1 + random.below(2) as u8);
    match random.below(8) {
        0..=2 => candidate(4, mapped(prefix, rest), port),
        3 | 4 => candidate(6, mapped(prefix, rest), port),
        5 => candidate(6, mapped(prefix, rest) ^ 1 << (32 + random.below(96)), port),
        _ => candidate(6, beginning(prefix.into(), rest.into()), port),
    }
}

/// A list of few prefixes, damaged now and then, of which some are occupied by their number in either numbering, or by one a power of
/// two above it.
fn list(tally: &mut Tally, random: &mut Random) {
    let prefixes: Vec<u16> = (0..1 + random.below(12)).map(|_| random.next() as u16 >> random.below(16)).collect();
    let most = if random.percent(5) { 120 } else { 20 };
    let count = random.below(most);
    let mut candidates = (0..count).map(|_| drawn(random, &prefixes)).collect::<Vec<[u8; 20]>>().concat();
    if random.percent(10) && count > 0 {
        spoiled(random, &mut candidates);
    }
    let taken = (0..random.below(8)).map(|_| {
        let prefix = u64::from(prefixes[random.below(prefixes.len() as u64) as usize]);
        match random.below(8) {
            0..=3 => IPV4_GROUPS + prefix,
            4..=6 => prefix,
            _ => prefix + (1 << random.below(64)),
        }
    });
    let occupied: Vec<u64> = taken.collect();
    let max = if random.percent(10) { usize::MAX } else { random.below(count + 3) as usize };
    let need = max.min(count as usize);
    let rooms = match random.below(10) {
        0 => [need.saturating_sub(1), need],
        1 => [need, need.saturating_sub(1)],
        _ => [need, need + 1],
    };
    all_ways(tally, &candidates, &occupied, max, &[0; 3], rooms);
    pages::by_prefixes(tally, &candidates, &[]);
}

/// As many prefixes as there can be candidates, half of them mapped, each occupied by its new number, by its old one, and not at all.
fn most(tally: &mut Tally, random: &mut Random) {
    let (odd, add) = (random.next() as u16 | 1, random.next() as u16);
    let prefixes: Vec<u16> = (0..4_096).map(|k: u16| k.wrapping_mul(odd).wrapping_add(add)).collect();
    let of = |(k, &prefix): (usize, &u16)| candidate(4 + 2 * (k % 2) as u8, mapped(prefix, k as u16), 1);
    let candidates: Vec<[u8; 20]> = prefixes.iter().enumerate().map(of).collect();
    for above in [IPV4_GROUPS, 0, 1 << 40] {
        let occupied: Vec<u64> = prefixes.iter().map(|&prefix| above + u64::from(prefix)).collect();
        all_ways(tally, candidates.as_flattened(), &occupied, 4_096, &[0; 3], [4_096, 4_096]);
        all_ways(tally, candidates.as_flattened(), &occupied[..2_048], 2_049, &[0; 3], [2_049, 2_049]);
    }
    pages::by_prefixes(tally, candidates.as_flattened(), &[]);
}

pub fn run(tally: &mut Tally, random: &mut Random, form: Form) {
    for _ in 0..form.choose(1, 20) {
        every_prefix(tally, random, form);
        most(tally, random);
    }
    for _ in 0..form.choose(20, 400) {
        fronts(tally, random);
    }
    for _ in 0..form.choose(6_000, 120_000) {
        list(tally, random);
    }
}
