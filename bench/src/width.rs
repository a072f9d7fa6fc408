//! Check and walk at width 32, over maps of 32 address bits. The original's check takes a width too. It has no walk at 32; but a walk of
//! such a map ends before it asks for a bit behind the first 32, so walks at 128 by the same four bytes and twelve zeros, ours and the
//! original's, read the same instructions, and stand beside it.
use crate::asmap::{self, AsMap};
use crate::inputs;
use crate::measure::{best, both, head, in_turn, ratios, row, timed};
use crate::parts::{keep, ours_walk};
use corbastrigo_sys as sys;
use std::hint::black_box;

const WIDTH: u32 = 32;

fn ours_check(map: &[u8]) -> u32 {
    let (mut count, mut depth) = (0, 0);
    let answer = unsafe { sys::corbastrigo_sanity_check_bits(map.as_ptr(), map.len(), WIDTH, &mut count, &mut depth) };
    assert_eq!(answer, 0, "the shapes are accepted");
    count
}

/// By the first four bytes: number, and instructions read.
fn ours_narrow_walk(map: &[u8], address: &[u8; 16]) -> (u32, u32) {
    let (mut kind, mut number, mut count, mut bits) = (0, 0, 0, 0);
    unsafe {
        let (at, len) = (address.as_ptr(), 4);
        sys::corbastrigo_interpret_bits(map.as_ptr(), map.len(), at, len, WIDTH, &mut kind, &mut number, &mut count, &mut bits)
    };
    (number, count)
}

fn check(maps: &[(String, Vec<u8>)]) {
    head("Check at width 32, beside the original's at 32", "ns an instruction");
    for (name, map) in maps {
        let count = ours_check(map);
        assert!(asmap::sanity_check_bits(map, WIDTH as i32), "the original accepts the shapes");
        let theirs = || asmap::sanity_check_bits(black_box(map), black_box(WIDTH as i32));
        let times = both(|| keep(ours_check(black_box(map))), || keep(theirs()));
        row(&format!("{name}, {count} instructions"), f64::from(count), &times);
    }
}

fn walk(maps: &[(String, Vec<u8>)]) {
    println!("\n### Walk at width 32, beside walks at 128 by the same bits, ours and the original's (which has none at 32)\n");
    println!(
        "| input | ours at 32, ns a walk | ours at 128 | original at 128 | 32 / ours at 128, of best | median | 32 / original, of best \
         | median |\n|---|---|---|---|---|---|---|---|"
    );
    let addresses = inputs::narrow_addresses(4_096);
    for (name, map) in maps {
        let original = AsMap::from_bytes(map.clone()).expect("accepted at 128 too");
        for address in &addresses {
            assert_eq!(ours_narrow_walk(map, address), ours_walk(map, address));
            assert_eq!(ours_narrow_walk(map, address).0, original.interpret_ip16(address));
        }
        let counts: u32 = addresses.iter().map(|address| ours_narrow_walk(map, address).1).sum();
        let times = in_turn(&mut [
            &mut timed(|| addresses.iter().for_each(|address| keep(ours_narrow_walk(black_box(map), address)))),
            &mut timed(|| addresses.iter().for_each(|address| keep(ours_walk(black_box(map), address)))),
            &mut timed(|| addresses.iter().for_each(|address| keep(original.interpret_ip16(black_box(address))))),
        ]);
        let [narrow, wide, theirs] = [0, 1, 2].map(|call| best(&times[call]) / addresses.len() as f64);
        let [by_ours, by_theirs] = [1, 2].map(|call| ratios(&times[0], &times[call]));
        println!(
            "| {name}, {:.1} instructions a walk | {narrow:.2} | {wide:.2} | {theirs:.2} | {:.2} | {:.2} | {:.2} | {:.2} |",
            f64::from(counts) / addresses.len() as f64,
            by_ours[0],
            by_ours[1],
            by_theirs[0],
            by_theirs[1]
        );
    }
}

pub fn part() {
    let maps = inputs::narrow();
    check(&maps);
    walk(&maps);
}
