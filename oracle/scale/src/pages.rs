//! Pages of the spread: drawn lists of few and of many groups, shares at exact halves and around them, and lists as long as they may be.
use crate::calls::{self, BEFORE};
use crate::picks::{list, spoiled};
use crate::programs::left;
use crate::tally::Tally;
use crate::Form;
use corbastrigo_sys as sys;
use maps::{shapes, Node, Random, Tree};
use oracle::page::{self, LINE};
use oracle::picks::{By, Groups};
use std::collections::BTreeSet;

/// Totals of which some shares are exact halves. The least of these is one of 2,000.
const HALVES: [usize; 8] = [16, 32, 80, 400, 1_600, 2_000, 4_000, 4_096];

/// A page by the same groups through some calls, into outputs just long enough, a byte and a line shorter, none, and longer. What stands
/// behind an output is compared too.
fn made(tally: &mut Tally, candidates: &[u8], by: By, calls: &[&dyn Fn(usize) -> calls::Bytes]) {
    let page = page::page(candidates, &Groups::new(by)).map(String::into_bytes);
    let needed = page.as_ref().map_or(LINE, Vec::len);
    let rooms = [needed, needed.saturating_sub(1), needed.saturating_sub(LINE), 0, needed + 7];
    for room in BTreeSet::from(rooms) {
        let (answer, written, out) = left(&page, room);
        let expected = (answer, written, [&out[..], &[BEFORE; LINE]].concat());
        for call in calls {
            tally.same("page", &(candidates, by, room), &call(room), &expected);
        }
    }
}

/// By the new numbering through both calls, and by the old one.
pub fn by_prefixes(tally: &mut Tally, candidates: &[u8], map: &[u8]) {
    let page = |call: sys::Page| move |room| calls::page(call, candidates, 0, map, room);
    let both = [page(sys::corbastrigo_page), page(sys::corbastrigo_page_unchecked)];
    made(tally, candidates, By::Prefixes, &[&both[0], &both[1]]);
    made(tally, candidates, By::OldPrefixes, &[&|room| calls::old_prefix_page(candidates, room)]);
}

/// With prefixes, with the map checked, and with the map as it is.
pub fn all_ways(tally: &mut Tally, candidates: &[u8], map: &[u8]) {
    by_prefixes(tally, candidates, map);
    let (checked, unchecked) = (sys::corbastrigo_page, sys::corbastrigo_page_unchecked);
    made(tally, candidates, By::Map(map), &[&|room| calls::page(checked, candidates, 1, map, room)]);
    made(tally, candidates, By::Unchecked(map), &[&|room| calls::page(unchecked, candidates, 255, map, room)]);
}

/// A drawn list by a drawn map, either of them damaged now and then.
fn drawn(tally: &mut Tally, random: &mut Random) {
    let mut map = shapes::random(random, 30, 128);
    if random.percent(15) {
        let place = random.below(map.len() as u64) as usize;
        map[place] ^= 1 << random.below(8);
    }
    let most = if random.percent(3) { 400 } else { 24 };
    let count = random.below(most) as usize;
    let mut candidates = list(random, &map, count);
    if random.percent(15) && count > 0 {
        spoiled(random, &mut candidates);
    }
    all_ways(tally, &candidates, &map);
}

fn shuffle<T>(random: &mut Random, list: &mut [T]) {
    for place in (1..list.len()).rev() {
        list.swap(place, random.below(place as u64 + 1) as usize);
    }
}

/// A candidate of family 6 whose address begins with four given bytes, by which it has its group.
fn peer(first: u32, port: u16) -> [u8; 20] {
    let mut bytes = [0; 20];
    bytes[0] = 6;
    bytes[2..6].copy_from_slice(&first.to_be_bytes());
    bytes[18..].copy_from_slice(&port.to_be_bytes());
    bytes
}

/// Groups with so many candidates each, in any order of the candidates. Numbers of every length up to ten digits are drawn.
fn shares(tally: &mut Tally, random: &mut Random, counts: &[usize]) {
    let first = random.next() as u32 >> random.below(32);
    let peers = (0u32..).zip(counts).flat_map(|(i, &count)| vec![peer(first.wrapping_add(i * 4_099), 1); count]);
    let mut candidates: Vec<[u8; 20]> = peers.collect();
    shuffle(random, &mut candidates);
    by_prefixes(tally, candidates.as_flattened(), &[]);
}

/// A total with halves, cut into up to twelve shares at drawn places.
fn halves(tally: &mut Tally, random: &mut Random) {
    let all = HALVES[random.below(8) as usize] as u64;
    let cuts: BTreeSet<u64> = (0..random.below(12)).map(|_| random.below(all)).chain([0, all]).collect();
    let cuts: Vec<u64> = cuts.into_iter().collect();
    let counts: Vec<usize> = cuts.windows(2).map(|cut| (cut[1] - cut[0]) as usize).collect();
    shares(tally, random, &counts);
}

/// A map that tells the first twelve bits of an address apart, by 4,096 numbers in any order.
fn map_of_most(random: &mut Random) -> Vec<u8> {
    let (odd, add) = (random.next() | 1, random.next());
    let number = |k: u64| 1 + (k.wrapping_mul(odd).wrapping_add(add) % (1 << 24)) as u32;
    let mut tree = Tree::default();
    let mut nodes: Vec<usize> = (0..4_096).map(|k| tree.push(Node::Return(number(k)))).collect();
    while nodes.len() > 1 {
        nodes = nodes.chunks(2).map(|halves| tree.push(Node::Jump(halves[0], halves[1]))).collect();
    }
    tree.bytes(nodes[0])
}

/// 4,096 candidates in 4,096 groups and in one, by the map and by prefixes; rising, falling and in any order.
fn most(tally: &mut Tally, random: &mut Random) {
    let map = map_of_most(random);
    let leaf = random.next() as u32 >> 20 << 20;
    let mut each: Vec<[u8; 20]> = (0..4_096).map(|k| peer(k << 20, 1)).collect();
    all_ways(tally, each.as_flattened(), &map);
    each.reverse();
    all_ways(tally, each.as_flattened(), &map);
    let one_by_map = (0..4_096).map(|k| peer(leaf | k, 1)).collect();
    let one = (0..4_096).map(|k| peer(leaf, k)).collect();
    let alike = vec![peer(leaf, 1); 4_096];
    for mut peers in [each, one_by_map, one, alike] {
        shuffle(random, &mut peers);
        all_ways(tally, peers.as_flattened(), &map);
    }
}

pub fn run(tally: &mut Tally, random: &mut Random, form: Form) {
    for _ in 0..form.choose(6_000, 120_000) {
        drawn(tally, random);
    }
    for all in 1..=form.choose(100, 400) {
        (1..=all).for_each(|count| shares(tally, random, &[count, all - count]));
    }
    for all in HALVES {
        (1..=form.choose(16, 400).min(all)).for_each(|count| shares(tally, random, &[count, all - count]));
    }
    for _ in 0..form.choose(300, 6_000) {
        halves(tally, random);
    }
    for _ in 0..form.choose(1, 20) {
        most(tally, random);
    }
}
