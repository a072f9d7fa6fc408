//! Scans of the occupied groups: lists of few different numbers, so that there are hits, and numbers that hardly differ.
use crate::calls::{self, BEFORE, BEFORE_SIZE};
use crate::programs::number;
use crate::tally::Tally;
use crate::Form;
use maps::Random;
use oracle::scan::{self, Scan};

fn scanned(tally: &mut Tally, group: u64, occupied: &[u64]) {
    let expected = match scan::scan(group, occupied) {
        Err(reason) => (number(reason), BEFORE, BEFORE_SIZE, BEFORE_SIZE),
        Ok(Scan { hit, read }) => (0, u8::from(hit.is_some()), hit.unwrap_or(0), read),
    };
    tally.same("occupied scan", &(group, occupied), calls::scan_occupied(group, occupied), expected);
}

/// Groups to draw from: small numbers, any numbers, one number and those that differ from it in a bit, and numbers that are the same modulo
/// 4,096.
fn pool(random: &mut Random) -> Vec<u64> {
    let (kind, first) = (random.below(4), random.next());
    let group = |random: &mut Random| match kind {
        0 => random.below(24),
        1 => random.next(),
        2 => first ^ 1u64.checked_shl(random.below(80) as u32).unwrap_or(0),
        _ => first % 4096 + 4096 * random.below(64),
    };
    (0..1 + random.below(24)).map(|_| group(random)).collect()
}

fn drawn(random: &mut Random, pool: &[u64]) -> u64 {
    pool[random.below(pool.len() as u64) as usize]
}

/// A list of a pool's groups, asked for groups of that pool and for others; a hit may be at any place, or far behind.
fn list(tally: &mut Tally, random: &mut Random) {
    let (pool, others) = (pool(random), pool(random));
    let most = if random.percent(3) { 4_100 } else { 48 };
    let mut occupied: Vec<u64> = (0..random.below(most)).map(|_| drawn(random, &pool)).collect();
    for _ in 0..4 {
        scanned(tally, drawn(random, &pool), &occupied);
        scanned(tally, drawn(random, &others), &occupied);
    }
    let rare = random.next();
    scanned(tally, rare, &occupied);
    if !occupied.is_empty() {
        let place = random.below(occupied.len() as u64) as usize;
        occupied[place] = rare;
        scanned(tally, rare, &occupied);
    }
}

/// Around the limit, with a hit at either end, next to it, between and nowhere.
fn limits(tally: &mut Tally, random: &mut Random) {
    for length in [4_095, 4_096, 4_097, 4_104, 65_536] {
        let first = random.next();
        let occupied: Vec<u64> = (0..length).map(|i| first.wrapping_add(i)).collect();
        for place in [0, 1, 7, 8, 9, length / 2, length - 9, length - 2, length - 1, length] {
            scanned(tally, first.wrapping_add(place), &occupied);
        }
    }
}

pub fn run(tally: &mut Tally, random: &mut Random, form: Form) {
    for _ in 0..form.choose(60_000, 1_200_000) {
        list(tally, random);
    }
    limits(tally, random);
}
