//! Loads, which everyone can make again from a seed: as inputs of check and walk, beside the original on the same bytes; and what a draw
//! and a load take. The original has no generator and no loads: the same in plain Rust stands beside ours, and beside a load the pack of its
//! records, which writes the same bytes.
use crate::asmap::{self, AsMap};
use crate::inputs;
use crate::measure::{best, both, in_turn, ratios, row, timed};
use crate::parts::{keep, ours_check, ours_walk};
use corbastrigo::Generator;
use corbastrigo_sys as sys;
use maps::{BitWriter, Random, DEFAULT, MATCH, RETURN};
use std::hint::black_box;

/// How many pairs, and from how many seeds: one load, run over and over, has branches that the processor foresees.
const SHAPES: [(usize, u64); 3] = [(32, 1), (sys::MAX_PAIRS, 1), (sys::MAX_PAIRS, 64)];

fn name(pairs: usize, seeds: u64) -> String {
    match seeds {
        1 => format!("load of {pairs} pairs from seed 1"),
        _ => format!("{seeds} loads of {pairs} pairs from seeds 1 to {seeds}"),
    }
}

/// Rows of the check's table.
pub fn checks() {
    for (pairs, seeds) in SHAPES {
        let maps: Vec<Vec<u8>> = inputs::loads(pairs, seeds).into_iter().map(|(map, _)| map).collect();
        assert!(maps.iter().all(|map| asmap::sanity_check(map)), "the original accepts loads");
        let (bytes, count) = (maps.iter().map(Vec::len).sum::<usize>(), maps.iter().map(|map| ours_check(map)).sum::<u32>());
        assert_eq!(count as usize, maps.len() * (2 * pairs + 1));
        let times = both(
            || maps.iter().for_each(|map| keep(ours_check(black_box(map)))),
            || maps.iter().for_each(|map| keep(asmap::sanity_check(black_box(map)))),
        );
        row(&format!("{}, {bytes} bytes, {count} instructions", name(pairs, seeds)), f64::from(count), &times);
    }
}

/// A row of the walk's table: maps with an address each.
fn walked(name: &str, walks: &[(&Vec<u8>, &AsMap, [u8; 16])]) {
    let counts: u32 = walks.iter().map(|(map, _, address)| ours_walk(map, address).1).sum();
    for (map, original, address) in walks {
        assert_eq!(ours_walk(map, address).0, original.interpret_ip16(address));
    }
    let times = both(
        || walks.iter().for_each(|(map, _, address)| keep(ours_walk(black_box(map), address))),
        || walks.iter().for_each(|(_, original, address)| keep(original.interpret_ip16(black_box(address)))),
    );
    let mean = f64::from(counts) / walks.len() as f64;
    row(&format!("{name}, {mean:.1} instructions a walk"), walks.len() as f64, &times);
}

/// Rows of the walk's table: by the address that reads a load to its end, then by some that part from it at any pair.
pub fn walks() {
    for (pairs, seeds) in SHAPES {
        let loads = inputs::loads(pairs, seeds);
        let originals: Vec<AsMap> =
            loads.iter().map(|(map, _)| AsMap::from_bytes(map.clone()).expect("the original accepts loads")).collect();
        let own: Vec<(&Vec<u8>, &AsMap, [u8; 16])> =
            loads.iter().zip(&originals).map(|((map, address), original)| (map, original, *address)).collect();
        let whose = if seeds == 1 { "its own address" } else { "each by its own address" };
        walked(&format!("{}; {whose}", name(pairs, seeds)), &own);
        let random = &mut Random(8);
        let others: Vec<(&Vec<u8>, &AsMap, [u8; 16])> = (0..4_096)
            .map(|turn| {
                let (map, original, address) = own[turn % own.len()];
                let differs = 1u128 << (127 - random.below(pairs as u64));
                (map, original, (u128::from_be_bytes(address) ^ differs).to_be_bytes())
            })
            .collect();
        walked(&format!("{}; 4,096 addresses that differ at one pair", name(pairs, seeds)), &others);
    }
}

fn ours_draw(s: u64) -> u64 {
    let mut draw = 0;
    let answer = unsafe { sys::corbastrigo_next_draw(s, &mut draw) };
    assert_eq!(answer, 0, "no draw is 0");
    draw
}

/// A call of its own, as ours is.
#[inline(never)]
fn plain_draw(s: u64) -> Option<u64> {
    if s == 0 {
        return None;
    }
    let s = s ^ s << 13;
    let s = s ^ s >> 7;
    Some(s ^ s << 17)
}

fn ours_load(seed: u64, pairs: usize, out: &mut [u8]) -> usize {
    let mut written = 0;
    let answer = unsafe { sys::corbastrigo_load(seed, pairs, out.as_mut_ptr(), out.len(), &mut written) };
    assert_eq!(answer, 0, "a seed, with room");
    written
}

/// Bit by bit, into bytes of its own.
fn plain_load(seed: u64, pairs: usize) -> Option<Vec<u8>> {
    if pairs > sys::MAX_PAIRS {
        return None;
    }
    let mut s = plain_draw(seed)?;
    let mut out = BitWriter { bytes: Vec::with_capacity(sys::LOAD_BYTES), len: 0 };
    for _ in 0..pairs {
        out.instruction(DEFAULT, 1 + s % 65_536);
        s = plain_draw(s)?;
        out.instruction(MATCH, 2 + s % 2);
        s = plain_draw(s)?;
    }
    out.instruction(RETURN, 1 + s % 65_536);
    Some(out.bytes)
}

/// A row: ours, plain Rust, and, where there is one, a pack.
fn made(name: &str, per: f64, times: &[Vec<f64>]) {
    let time = |call: usize| best(&times[call]) / per;
    let [ratio, median, ..] = ratios(&times[0], &times[1]);
    let packed = match times.get(2) {
        None => "| | |".into(),
        Some(pack) => {
            let [ratio, median, ..] = ratios(&times[0], pack);
            format!("| {:.2} | {ratio:.2} | {median:.2}", time(2))
        }
    };
    println!("| {name} | {:.2} | {:.2} | {ratio:.2} | {median:.2} {packed} |", time(0), time(1));
}

pub fn part() {
    println!("\n### Draws and loads, beside the same in plain Rust and the pack of the same records (the original has no loads)\n");
    println!(
        "| input | ours, ns | plain Rust, ns | ours / that, of best | median | pack, ns | load / pack, of best | median \
         |\n|---|---|---|---|---|---|---|---|"
    );
    let seed = Generator::DEFAULT_SEED;
    let ours = || (0..1_000).fold(black_box(seed), |s, _| ours_draw(s));
    let plain = || (0..1_000).try_fold(black_box(seed), |s, _| plain_draw(s));
    assert_eq!(Some(ours()), plain());
    made("a draw, of 1,000 in a row", 1e3, &in_turn(&mut [&mut timed(|| keep(ours())), &mut timed(|| keep(plain()))]));
    for pairs in [0, 8, 32, sys::MAX_PAIRS] {
        let (mut out, mut packed) = ([1; sys::LOAD_BYTES], [1; sys::LOAD_BYTES]);
        let written = ours_load(seed, pairs, &mut out);
        assert_eq!(Some(out[..written].to_vec()), plain_load(seed, pairs), "both loads are the same");
        let records = corbastrigo::unpack(&out[..written]).expect("a load is accepted");
        assert_eq!(corbastrigo::pack_into(&records, &mut packed), Ok(written));
        assert_eq!(out, packed, "the pack of its records is the load");
        let times = in_turn(&mut [
            &mut timed(|| keep(ours_load(black_box(seed), pairs, &mut out))),
            &mut timed(|| keep(plain_load(black_box(seed), pairs))),
            &mut timed(|| keep(corbastrigo::pack_into(black_box(&records), &mut packed))),
        ]);
        let count = if pairs == 0 { "no".into() } else { pairs.to_string() };
        made(&format!("load of {count} pairs, {written} bytes"), 1.0, &times);
    }
}
