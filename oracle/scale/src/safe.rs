//! The safe crate, asked as a node asks, against the original asked with the same text; and what it answers without a map, by both numberings.
use crate::programs::{followed, number};
use crate::tally::Tally;
use crate::Form;
use corbastrigo::{CompareError, End, Page, Refusal};
use maps::{shapes, Random};
use oracle::asmap::AsMap;
use oracle::building::{WRONG_NUMBER, WRONG_PREFIX};
use oracle::document::{self, Verdict, CUT_OPCODE, CUT_OPERAND};
use oracle::loads::NO_LOAD;
use std::collections::{BTreeMap, HashSet};
use std::net::{IpAddr, Ipv6Addr, SocketAddr};

mod original {
    use oracle::asmap::{ip16_for_lookup, AsMap};
    use oracle::netaddr::clearnet_unroutable;
    use oracle::netgroup::{netgroup, prefix_group};

    include!("node.rs");
}

mod ours {
    use corbastrigo::{clearnet_unroutable, ip16_for_lookup, netgroup, prefix_group, AsMap};

    include!("node.rs");
}

fn ips(random: &mut Random, map: &[u8]) -> Vec<IpAddr> {
    (0..20)
        .map(|i| match i % 4 {
            0 => IpAddr::from((random.next() as u32).to_be_bytes()),
            1 => IpAddr::from(random.address()),
            2 => IpAddr::from(followed(map, random)),
            _ => Ipv6Addr::from(followed(map, random)).to_canonical(),
        })
        .collect()
}

/// What the original picks by these groups.
fn original_picks(ranked: &[SocketAddr], max: usize, occupied: &HashSet<u64>, group_of: fn(SocketAddr) -> u64) -> Vec<SocketAddr> {
    oracle::netgroup::select_diverse(ranked, max, occupied, group_of)
}

/// A list drawn from some addresses, the groups that some of them have by each way of grouping, and a max.
fn drawn(random: &mut Random, ips: &[IpAddr], map: Option<&AsMap>) -> (Vec<SocketAddr>, HashSet<u64>, usize) {
    let any = |random: &mut Random| ips[random.below(ips.len() as u64) as usize];
    let ranked = (0..random.below(40)).map(|_| SocketAddr::new(any(random), 8333 + random.below(2) as u16)).collect();
    let occupied = (0..random.below(6)).map(|_| {
        let peer = SocketAddr::new(any(random), 1);
        match random.below(4) {
            0 => old_group(peer),
            1 => oracle::picks::prefix_group(peer),
            _ => oracle::netgroup::netgroup(peer, map),
        }
    });
    (ranked, occupied.collect(), random.below(12) as usize)
}

fn old_group(peer: SocketAddr) -> u64 {
    oracle::netgroup::netgroup(peer, None)
}

/// By the map where it is one; without it by the new numbering and by the old, which is the original's.
fn picked(tally: &mut Tally, random: &mut Random, map: &[u8], ips: &[IpAddr]) {
    let (ours, theirs) = (corbastrigo::AsMap::from_bytes(map.to_vec()), AsMap::from_bytes(map.to_vec()));
    let (ranked, occupied, max) = &drawn(random, ips, theirs.as_ref());
    let input = (map, ranked, max, occupied);
    if theirs.is_some() {
        let expected =
            oracle::netgroup::select_diverse(ranked, *max, occupied, |peer| oracle::netgroup::netgroup(peer, theirs.as_ref()));
        tally.same("safe pick", &input, corbastrigo::select_diverse(ranked, *max, occupied, ours.as_ref()), Ok(expected));
    }
    let new = original_picks(ranked, *max, occupied, oracle::picks::prefix_group);
    tally.same("safe pick", &input, corbastrigo::select_diverse(ranked, *max, occupied, None), Ok(new));
    let old = corbastrigo::old_prefix_pick(ranked, *max, occupied);
    let old = old.map(|pick| pick.places.iter().map(|&place| ranked[usize::from(place)]).collect());
    tally.same("safe old pick", &input, old, Ok(original_picks(ranked, *max, occupied, old_group)));
    pages(tally, ranked);
}

/// The pages without a map by both numberings, held to the groups of each candidate: which there are, and how many candidates each has.
fn pages(tally: &mut Tally, peers: &[SocketAddr]) {
    let counted = |group_of: fn(SocketAddr) -> u64| {
        let mut counts = BTreeMap::new();
        peers.iter().for_each(|&peer| *counts.entry(group_of(peer)).or_insert(0) += 1);
        counts.into_iter().collect::<Vec<(u64, usize)>>()
    };
    let shares = |page: Page| page.shares().map(|share| (share.group, share.candidates)).collect();
    tally.same("safe page", &peers, corbastrigo::page(peers, None).map(shares), Ok(counted(oracle::picks::prefix_group)));
    tally.same("safe old page", &peers, corbastrigo::old_prefix_page(peers).map(shares), Ok(counted(old_group)));
}

/// Without a map the safe crate's group goes by the new numbering, and not as the original's does.
fn grouped(tally: &mut Tally, ips: &[IpAddr]) {
    for &ip in ips {
        let peer = SocketAddr::new(ip, 8333);
        tally.same("safe group", &peer, corbastrigo::netgroup(peer, None), oracle::picks::prefix_group(peer));
    }
}

fn from_file(tally: &mut Tally, map: &[u8]) {
    let path = std::env::temp_dir().join(format!("corbastrigo-scale-{}", std::process::id()));
    std::fs::write(&path, map).expect("a file can be written");
    let (made, expected) = (ours::length_at(&path), original::length_at(&path));
    tally.same("safe file", &map, made.expect("readable"), expected.expect("readable"));
    std::fs::remove_file(&path).expect("the file is there");
}

/// The safe crate's name for a refusal.
pub fn named(reason: document::Refusal) -> Refusal {
    match reason {
        CUT_OPCODE => Refusal::CutOpcode,
        CUT_OPERAND => Refusal::CutOperand,
        NO_LOAD => Refusal::Load,
        WRONG_PREFIX => Refusal::Prefix,
        WRONG_NUMBER => Refusal::Number,
        _ => Refusal::from_number(number(reason)).expect("0 is no refusal"),
    }
}

fn end_of(end: document::End) -> End {
    match end {
        document::End::Returned => End::Returned,
        document::End::Differed => End::Differed,
        document::End::TooFewBits => End::TooFewBits,
        document::End::CutOpcode => End::CutOpcode,
        document::End::CutOperand => End::CutOperand,
    }
}

/// The names that the safe crate has for why the check refuses a map, alone and as the new one of two, and for how a walk of it ends.
pub fn reasons(tally: &mut Tally, map: &[u8], address: &[u8; 16]) {
    let (verdict, place) = document::check_stop(map);
    let reason = match verdict {
        Verdict::Accepted { .. } => None,
        Verdict::Refused(reason) => Some(named(reason)),
    };
    let stop = corbastrigo::sanity_check_stop(map).map(|stop| (stop.reason, stop.place));
    tally.same("safe reason", &map, stop, Ok((reason, place)));
    tally.same("safe map", &map, corbastrigo::AsMap::checked(map.to_vec()).err(), reason);
    tally.same("safe compare", &map, corbastrigo::compare_bytes(&[0; 3], map).err(), reason.map(CompareError::New));
    let walk = document::walk(map, address);
    let ours = corbastrigo::interpret(map, address).map(|walk| (walk.end, walk.end.is_abort(), walk.number, walk.count, walk.bits));
    let theirs = (end_of(walk.end), walk.end.aborts(), walk.number, walk.count, walk.bits as u8);
    tally.same("safe walk", &(map, address), ours, Ok(theirs));
}

pub fn run(tally: &mut Tally, random: &mut Random, form: Form) {
    for round in 0..form.choose(4_000, 60_000) {
        let mut map = shapes::random(random, 30, 128);
        if random.percent(20) {
            let place = random.below(map.len() as u64) as usize;
            map[place] ^= 1 << random.below(8);
        }
        let ips = ips(random, &map);
        let (made, expected) = (ours::answers(map.clone(), &ips), original::answers(map.clone(), &ips));
        tally.same("safe answers", &(&map, &ips), made, expected);
        grouped(tally, &ips);
        picked(tally, random, &map, &ips);
        if round % 100 == 0 {
            from_file(tally, &map);
        }
    }
}
