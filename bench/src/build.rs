//! Maps built from prefixes. The original has no builder: one in plain Rust stands beside ours, which makes a tree and writes it, and the
//! original's check of the map that is built, which reads every instruction that ours writes.
use crate::asmap::sanity_check_bits;
use crate::inputs;
use crate::measure::{best, in_turn, ratios, timed};
use crate::parts::keep;
use corbastrigo_sys as sys;
use maps::lists::RECORD;
use maps::{Node, Tree};
use std::hint::black_box;

/// The number of all addresses that no record has.
const GIVEN: u32 = 64_512;

fn ours_build(records: &[u8], width: u32, out: &mut [u8]) -> usize {
    let mut written = 0;
    let (from, len) = (records.as_ptr(), records.len());
    let answer = unsafe { sys::corbastrigo_build(from, len, GIVEN, width, out.as_mut_ptr(), out.len(), &mut written) };
    assert_eq!(answer, 0, "a list as it has to be, with room");
    written
}

/// A record as the plain builder has it: first address, length, number.
type Record = (u128, u32, u32);

/// The subtree of a prefix, and its number where it has one.
fn plant(tree: &mut Tree, first: u128, length: u32, records: &[Record]) -> (usize, Option<u32>) {
    let number = match records {
        [] => Some(GIVEN),
        [(_, of, number)] if *of <= length => Some(*number),
        _ => None,
    };
    if let Some(number) = number {
        return (tree.push(Node::Return(number)), Some(number));
    }
    let middle = first | 1 << (127 - length);
    let (zero, one) = records.split_at(records.partition_point(|record| record.0 < middle));
    let (zero, one) = (plant(tree, first, length + 1, zero), plant(tree, middle, length + 1, one));
    match zero.1.is_some() && zero.1 == one.1 {
        true => zero,
        false => (tree.push(Node::Jump(zero.0, one.0)), None),
    }
}

/// Without a look at what is wrong with the records.
fn plain_build(records: &[u8]) -> Vec<u8> {
    let of_bytes = |bytes: &[u8]| {
        let first = u128::from_be_bytes(bytes[..16].try_into().expect("16 bytes"));
        (first, u32::from(bytes[16]), u32::from_le_bytes(bytes[20..].try_into().expect("4 bytes")))
    };
    let records: Vec<Record> = records.chunks_exact(RECORD).map(of_bytes).collect();
    let mut tree = Tree::default();
    let (root, _) = plant(&mut tree, 0, 0, &records);
    tree.bytes(root)
}

fn instructions(map: &[u8], width: u32) -> u32 {
    let (mut count, mut depth) = (0, 0);
    let answer = unsafe { sys::corbastrigo_sanity_check_bits(map.as_ptr(), map.len(), width, &mut count, &mut depth) };
    assert_eq!(answer, 0, "what is built is accepted");
    count
}

fn counted(count: usize, what: &str) -> String {
    match count {
        0 => format!("no {what}s"),
        1 => format!("one {what}"),
        _ => format!("{count} {what}s"),
    }
}

/// One list: built by ours and by the plain one, and checked by the original, in turn.
fn row(name: &str, width: u32, records: &[u8]) {
    let mut out = vec![1; corbastrigo::MAX_MAP_BYTES];
    let written = ours_build(records, width, &mut out);
    out.truncate(written);
    let map = out.clone();
    assert!(plain_build(records) == map, "both maps are the same");
    assert!(sanity_check_bits(&map, width as i32), "the original accepts what is built");
    let times = in_turn(&mut [
        &mut timed(|| keep(ours_build(black_box(records), width, &mut out))),
        &mut timed(|| keep(plain_build(black_box(records)))),
        &mut timed(|| keep(sanity_check_bits(black_box(&map), black_box(width as i32)))),
    ]);
    let [ours, plain, check] = [0, 1, 2].map(|call| best(&times[call]));
    let [by_plain, by_check] = [1, 2].map(|call| ratios(&times[0], &times[call]));
    let (count, prefixes) = (instructions(&map, width), records.len() / RECORD);
    let a_record = if prefixes == 0 { String::new() } else { format!("{:.1}", ours / prefixes as f64) };
    println!(
        "| {name}: {}, {} bytes, {} | {:.2} | {a_record} | {:.2} | {:.2} | {:.2} | {:.2} | {:.2} | {:.2} | {:.2} | {:.2} |",
        counted(prefixes, "record"),
        map.len(),
        counted(count as usize, "instruction"),
        ours / 1e3,
        ours / f64::from(count),
        plain / 1e3,
        by_plain[0],
        by_plain[1],
        check / 1e3,
        check / f64::from(count),
        by_check[0],
        by_check[1]
    );
}

pub fn part() {
    println!("\n### Build, beside the same in plain Rust and the original's check of the map that is built (the original has no builder)\n");
    println!(
        "| list | build, us | ns a record | ns an instruction | plain Rust, us | build / that, of best | median | original's check, us \
         | ns an instruction | build / check, of best | median |\n|---|---|---|---|---|---|---|---|---|---|---|"
    );
    for (name, width, records) in inputs::lists() {
        row(&name, width, &records);
    }
}
