//! Two maps compared. The original has no such call; the checks of both maps, which a comparison runs first, stand beside it.
use crate::asmap::AsMap;
use crate::inputs;
use crate::measure::{alone, best, in_turn, ratios, timed};
use crate::parts::{keep, ours_check, ours_list_bytes};
use corbastrigo_sys as sys;
use std::hint::black_box;

const RECORD: usize = 28;

fn ours_compare([old, new]: [&[u8]; 2], out: &mut [u8]) -> usize {
    let mut written = 0;
    let answer = unsafe {
        let (at, len) = (out.as_mut_ptr(), out.len());
        sys::corbastrigo_compare(old.as_ptr(), old.len(), new.as_ptr(), new.len(), at, len, &mut written)
    };
    assert_eq!(answer, 0, "accepted, with room");
    written
}

fn ours_compare_bytes([old, new]: [&[u8]; 2]) -> usize {
    let (mut first, mut bytes) = ([0; 16], 0);
    let answer = unsafe {
        let (at, len) = (first.as_mut_ptr(), first.len());
        sys::corbastrigo_compare_bytes(old.as_ptr(), old.len(), new.as_ptr(), new.len(), at, len, &mut bytes)
    };
    assert_eq!(answer, 0, "the shapes are accepted");
    bytes
}

/// How many prefixes both maps have.
fn prefixes(maps: [&[u8]; 2]) -> usize {
    maps.map(|map| ours_list_bytes(map) / 24).iter().sum()
}

/// Outputs as long as could be needed, and as long as is needed. Ones, since pages of zeros are only made when they are written to.
fn outputs(maps: [&[u8]; 2]) -> [Vec<u8>; 2] {
    [RECORD * prefixes(maps), ours_compare_bytes(maps)].map(|bytes| vec![1; bytes])
}

/// Before times are taken: both outputs hold the same, and records, a thousand at most, say of their first address what the original's walks
/// say.
fn held(maps: [&[u8]; 2], [all, exact]: &mut [Vec<u8>; 2]) {
    let written = ours_compare(maps, all);
    assert_eq!((written, ours_compare(maps, exact)), (exact.len(), exact.len()));
    assert!(all[..written] == exact[..], "the same with more room");
    let original = maps.map(|map| AsMap::from_bytes(map.to_vec()).expect("the shapes are accepted"));
    for record in exact.chunks(RECORD).step_by(1 + exact.len() / (1_000 * RECORD)) {
        let address: [u8; 16] = record[..16].try_into().expect("16 bytes");
        let [old, new] = [0, 1].map(|map| original[map].interpret_ip16(&address));
        assert!(old != new && record[20..] == [old.to_le_bytes(), new.to_le_bytes()].concat());
    }
}

/// A row: each call by the checks of both maps, and the time of a prefix where the output has room for all.
fn row(name: &str, maps: [&[u8]; 2]) {
    let mut outputs = outputs(maps);
    held(maps, &mut outputs);
    let (count, records) = (prefixes(maps) as f64, outputs[1].len() / RECORD);
    let [all, exact] = &mut outputs;
    let times = in_turn(&mut [
        &mut timed(|| maps.iter().for_each(|map| keep(ours_check(black_box(map))))),
        &mut timed(|| keep(ours_compare(black_box(maps), all))),
        &mut timed(|| keep(ours_compare(black_box(maps), exact))),
        &mut timed(|| keep(ours_compare_bytes(black_box(maps)))),
    ]);
    let [all, exact, bytes] = [1, 2, 3].map(|call| ratios(&times[call], &times[0]));
    println!(
        "| {name}, {records} records | {:.2} | {:.2} | {:.2} | {:.2} | {:.2} | {:.2} | {:.2} |",
        best(&times[1]) / count,
        all[0],
        all[1],
        exact[0],
        exact[1],
        bytes[0],
        bytes[1]
    );
}

pub fn part() {
    println!("\n### Two maps compared, beside the checks of both (the original has no such call)\n");
    println!(
        "| input | room for all, ns a prefix of both | room for all / checks, of best | median | exact room / checks, of best | median \
         | bytes needed / checks, of best | median |\n|---|---|---|---|---|---|---|---|"
    );
    for (name, map, others) in inputs::compared() {
        for (with, other) in &others {
            row(&format!("{name}; {with}"), [&map, other]);
        }
    }
}

/// The time of a prefix of both maps over a range of sizes, where nearly nothing differs and where nearly all does.
pub fn growth() {
    for bytes in [16_000, 64_000, 256_000, 1_000_000, 4_000_000, 16_000_000] {
        let map = inputs::real(bytes);
        for (with, other) in
            [("one number changed", inputs::renumbered(&map, usize::MAX)), ("unrelated", inputs::other_real(bytes))]
        {
            let maps = [&map[..], &other];
            let [mut all, _] = outputs(maps);
            let count = prefixes(maps) as f64;
            let time = best(&alone(|| keep(ours_compare(black_box(maps), &mut all))));
            println!(
                "| compare, {with} | {count} prefixes, {} bytes | {:.0} us | {:.2} ns a prefix |",
                map.len() + other.len(),
                time / 1e3,
                time / count
            );
        }
    }
}

/// One comparison with an unrelated map, for counts of instructions.
pub fn count(map: &[u8], bytes: usize) {
    let other = inputs::other_real(bytes);
    let mut out = vec![1; RECORD * prefixes([map, &other])];
    println!("compare: {} records", ours_compare([map, &other], &mut out) / RECORD);
}
