//! Draws and loads (document 02, CR 6) by both crates: draws after any numbers and in long rows, and loads of every number of pairs, from seeds at
//! both ends and drawn ones, into outputs of each length. Every load is then the map that it is: checked and walked by the library and by the
//! original.
use crate::calls::{self, BEFORE, BEFORE64};
use crate::programs::{checked, known, left, number};
use crate::safe::named;
use crate::tally::Tally;
use crate::{listing, Form};
use corbastrigo::Generator;
use corbastrigo_sys as sys;
use maps::Random;
use oracle::document::{Refusal, Verdict};
use oracle::loads::{self, other_at, Load, DEFAULT_SEED, MAX_PAIRS, NO_LOAD};
use oracle::width::W32;
use std::collections::BTreeSet;

/// Seeds at both ends, of one bit, and of all bits but one.
const SEEDS: [u64; 10] = [0, DEFAULT_SEED, 2, 3, 1 << 31, 1 << 32, 1 << 63, u64::MAX - 1, u64::MAX, 0x5555_5555_5555_5555];

/// A draw, after any number; and by a generator that starts there.
fn drawn(tally: &mut Tally, s: u64) {
    let draw = loads::next_draw(s);
    let expected = draw.map_or_else(|reason| (number(reason), BEFORE64), |draw| (0, draw));
    tally.same("draw", &s, calls::next_draw(s), expected);
    let seeded = Generator::seeded(s);
    tally.same("safe seed", &s, seeded.map(Generator::draw), draw.map(|_| s).map_err(named));
    tally.same("safe draw", &s, seeded.map(|start| start.next().draw()), draw.map_err(named));
}

/// So many draws in a row, each after the one that was handed out before.
fn in_a_row(tally: &mut Tally, seed: u64, count: usize) {
    let (mut ours, mut safe) = (seed, Generator::seeded(seed).ok());
    for draw in loads::draws(seed, count).expect("a seed") {
        let (answer, next) = calls::next_draw(ours);
        (ours, safe) = (next, safe.map(Generator::next));
        tally.same("draw in a row", &(seed, draw), (answer, next, safe.map(Generator::draw)), (0, draw, Some(draw)));
    }
}

/// Numbers of few bits and of many, each bit alone, and any.
fn draws(tally: &mut Tally, random: &mut Random, form: Form) {
    let alone = (0..64).map(|bit| 1u64 << bit);
    alone.clone().chain(alone.map(|power| !power)).chain(SEEDS).for_each(|s| drawn(tally, s));
    for _ in 0..form.choose(100_000, 2_000_000) {
        let s = random.next() >> random.below(64);
        drawn(tally, s);
        drawn(tally, s << random.below(64));
    }
    for seed in [DEFAULT_SEED, u64::MAX, random.next().max(1)] {
        in_a_row(tally, seed, form.choose(200_000, 4_000_000));
    }
}

/// A load into an output of so many bytes. What stands behind the output is compared too.
fn into(tally: &mut Tally, seed: u64, pairs: usize, made: &Result<Vec<u8>, Refusal>, room: usize) {
    let (answer, written, out) = left(made, room);
    let behind = [&out[..], &[BEFORE; sys::LOAD_BYTES]].concat();
    tally.same("load", &(seed, pairs, room), calls::load(seed, pairs, room), (answer, written, behind.clone()));
    let mut lent = vec![BEFORE; room + sys::LOAD_BYTES];
    let told = corbastrigo::load_into(seed, pairs, &mut lent[..room]);
    let expected = if answer == 0 { Ok(written) } else { Err(named(answer.into())) };
    tally.same("safe load into", &(seed, pairs, room), (told, lent), (expected, behind));
}

/// Outputs just long enough, a byte shorter, longer, none, and with room for every load.
fn made(tally: &mut Tally, seed: u64, pairs: u64) -> Result<Load, Refusal> {
    let load = loads::load(seed, pairs);
    let bytes = load.as_ref().map(Load::bytes).map_err(|&reason| reason);
    let (needed, count) = (bytes.as_ref().map_or(3, Vec::len), pairs as usize);
    for room in BTreeSet::from([needed, needed - 1, needed + 7, 0, sys::LOAD_BYTES]) {
        into(tally, seed, count, &bytes, room);
    }
    let input = (seed, pairs);
    let safe = corbastrigo::AsMap::load(seed, count).map(|map| map.as_bytes().to_vec());
    tally.same("safe map of a load", &input, safe, bytes.clone().map_err(named));
    tally.same("safe load", &input, corbastrigo::load(seed, count), bytes.map_err(named));
    let own = load.as_ref().map(|load| load.address([0; 16])).map_err(|&reason| named(reason));
    tally.same("safe load's own address", &input, corbastrigo::load_address(seed, count), own);
    load
}

/// Accepted at 128 and, of up to 32 pairs, at 32; walked by an address that has the bits asked for, by some that differ at one pair, and by
/// drawn ones.
fn as_map(tally: &mut Tally, random: &mut Random, load: &Load) {
    let (map, pairs) = (load.bytes(), load.pairs());
    let known = known(tally, &map);
    let accepted = Verdict::Accepted { count: 2 * pairs as u32 + 1, depth: 0 };
    assert_eq!(known.verdict, accepted, "{load:?}");
    let (verdict, check, stop) = checked(tally, &map, W32);
    assert_eq!(verdict == accepted, pairs <= 32, "{load:?} at 32");
    tally.same("check of a load at 32", &map, calls::sanity_check_bits(&map, 32), check);
    tally.same("where it stops at 32", &map, calls::sanity_check_stop_bits(&map, 32), stop);
    let own = load.address(random.address());
    let differs = |random: &mut Random| if pairs == 0 { own } else { other_at(own, random.below(pairs as u64) as usize) };
    let last = other_at(own, pairs.saturating_sub(1));
    for address in [own, last, differs(random), differs(random), random.address()] {
        let (end, number, count, bits) = load.walked(&address);
        let shape = (0, end.number(), number, count, bits as u8);
        tally.same("walk of a load", &(&map, address), calls::interpret(&map, &address), shape);
        known.walk(tally, &address);
    }
    assert_eq!(calls::interpret(&map, &own).3, 2 * pairs as u32 + 1, "the load's own address by {load:?}");
    if random.percent(10) {
        known.unpack(tally);
        listing::list(tally, &known);
    }
}

/// From seeds whose first draw is known: the first number at each end of the two sizes that it can have.
fn edges(tally: &mut Tally, random: &mut Random) {
    for low in [0, 32_766, 32_767, 32_768, 65_535] {
        for pairs in [0, 1, 128] {
            let seed = loads::seed_of(random.next() << 16 | 1 << 63 | low);
            let load = made(tally, seed, pairs).expect("a seed, and not too many pairs");
            as_map(tally, random, &load);
        }
    }
}

/// Every number of pairs from a seed, and two that are too many.
fn every_load(tally: &mut Tally, random: &mut Random, seed: u64) {
    for pairs in 0..=MAX_PAIRS + 2 {
        match made(tally, seed, pairs) {
            Ok(load) => as_map(tally, random, &load),
            Err(reason) => assert!(reason == NO_LOAD && (seed == 0 || pairs > MAX_PAIRS), "{pairs} pairs from {seed}"),
        }
    }
}

pub fn run(tally: &mut Tally, random: &mut Random, form: Form) {
    draws(tally, random, form);
    for seed in SEEDS {
        every_load(tally, random, seed);
    }
    for _ in 0..form.choose(40, 800) {
        let seed = random.next() >> random.below(64);
        every_load(tally, random, seed);
    }
    (0..form.choose(10, 200)).for_each(|_| edges(tally, random));
    // Numbers of pairs that are far too many, and those that would not be if they were cut.
    for _ in 0..form.choose(20_000, 300_000) {
        let (seed, pairs) = (random.next() >> random.below(64), random.next() >> random.below(64));
        let _ = made(tally, seed, pairs);
        let _ = made(tally, seed, pairs << 32 | random.below(160));
    }
}
