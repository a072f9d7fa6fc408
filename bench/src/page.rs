//! The spread on a printed page, beside what it cannot do without: the groups of the same candidates one by one, and their walks. The
//! original has no page; one over its groups, as a program in Rust would write it, stands beside ours.
use crate::asmap::AsMap;
use crate::measure::{alone, best, in_turn, ratios, timed};
use crate::parts::{keep, ours_walk, By};
use crate::{inputs, netgroup};
use corbastrigo_sys as sys;
use std::collections::BTreeMap;
use std::fmt::Write;
use std::hint::black_box;
use std::net::SocketAddr;

/// Of a map that was checked once, or of none. Hands back how many bytes were written.
fn ours_page(candidates: &[u8], by: By, out: &mut [u8]) -> usize {
    let (has_map, bytes) = (u8::from(by.map().is_some()), by.map().unwrap_or(&[]));
    let (at, len, to, room) = (candidates.as_ptr(), candidates.len(), out.as_mut_ptr(), out.len());
    let mut written = 0;
    let answer = unsafe {
        match by {
            By::OldPrefixes => sys::corbastrigo_old_prefix_page(at, len, to, room, &mut written),
            _ => sys::corbastrigo_page_unchecked(at, len, has_map, bytes.as_ptr(), bytes.len(), to, room, &mut written),
        }
    };
    assert_eq!(answer, 0, "25 bytes a candidate are enough");
    written
}

/// The same over the original's groups, or over the new numbering's in plain Rust, counted in a tree, which has them in rising order.
fn plain_page(peers: &[SocketAddr], by: By) -> String {
    match by {
        By::Prefixes => plain_page_by(peers, inputs::new_group),
        By::OldPrefixes => plain_page_by(peers, |peer| netgroup::netgroup(peer, None)),
        By::Map(_, map) => plain_page_by(peers, |peer| netgroup::netgroup(peer, Some(map))),
    }
}

fn plain_page_by(peers: &[SocketAddr], group_of: impl Fn(SocketAddr) -> u64) -> String {
    let mut counts = BTreeMap::new();
    for &peer in peers {
        *counts.entry(group_of(peer)).or_insert(0) += 1;
    }
    let mut page = String::with_capacity(sys::PAGE_LINE_BYTES * counts.len());
    for (group, count) in counts {
        let tenths = (2_000 * count + peers.len()) / (2 * peers.len());
        writeln!(page, "{group:>10} {count:>6} {:>4}.{}", tenths / 10, tenths % 10).expect("a string takes what is written");
    }
    page
}

/// As many groups as candidates, one, and what any candidates have.
fn lists(group_of: impl Fn(SocketAddr) -> u64) -> [Vec<SocketAddr>; 5] {
    let [most, many, few] = [4_096, 1_000, 16].map(|count| inputs::of_each_group(count, &group_of));
    [most, many, few, inputs::of_one_group(4_096), inputs::candidates(1_000)]
}

/// One list: the page, the groups, the walks where there is a map, and the page over the original's groups, in turn.
fn row(name: &str, peers: &[SocketAddr], by: By) {
    let candidates = inputs::packed(peers);
    let mut out = vec![1; sys::PAGE_LINE_BYTES * peers.len()];
    let written = ours_page(&candidates, by, &mut out);
    assert!(out[..written] == *plain_page(peers, by).as_bytes(), "both pages are the same");
    let addresses: Vec<[u8; 16]> = peers.iter().map(|peer| corbastrigo::ip16_for_lookup(peer.ip())).collect();
    let walks = || addresses.iter().for_each(|address| keep(by.map().map(|map| ours_walk(black_box(map), address))));
    let times = in_turn(&mut [
        &mut timed(|| keep(ours_page(black_box(&candidates), by, &mut out))),
        &mut timed(|| candidates.chunks(20).for_each(|candidate| keep(by.ours_group(black_box(candidate))))),
        &mut timed(walks),
        &mut timed(|| keep(plain_page(black_box(peers), by))),
    ]);
    let [page, groups, walked, plain] = [0, 1, 2, 3].map(|call| best(&times[call]) / 1e3);
    let [by_groups, by_walks, by_plain] = [1, 2, 3].map(|call| ratios(&times[0], &times[call]));
    let walked = by.map().map_or("| | |".into(), |_| format!("| {walked:.2} | {:.2} | {:.2}", by_walks[0], by_walks[1]));
    println!(
        "| {name}, {} candidates in {} | {page:.2} | {groups:.2} | {:.2} | {:.2} {walked} | {plain:.2} | {:.2} | {:.2} |",
        peers.len(),
        match written / sys::PAGE_LINE_BYTES {
            1 => "one group".into(),
            groups => format!("{groups} groups"),
        },
        by_groups[0],
        by_groups[1],
        by_plain[0],
        by_plain[1]
    );
}

pub fn part() {
    println!("\n### Page, of a map that was checked once, beside groups and walks one by one (the original has no page)\n");
    println!(
        "| input | page, us | groups, us | page / groups, of best | median | walks, us | page / walks, of best | median \
         | over the original's groups, us | page / that, of best | median |\n|---|---|---|---|---|---|---|---|---|---|---|"
    );
    let bytes = inputs::real(1_500_000);
    let map = AsMap::from_bytes(bytes.clone()).expect("accepted");
    for by in By::all(&bytes, &map) {
        for peers in lists(|peer| by.group_of(peer)) {
            row(by.name(), &peers, by);
        }
    }
    row("prefixes, new numbering, IPv4 mapped", &inputs::dual_stack(inputs::candidates(1_000)), By::Prefixes);
    shortest_walks();
}

/// Where sorting weighs most beside the walks, the candidates in any order and by rising addresses, whose jumps the processor foresees; then
/// by rising groups, so that nothing is left to sort.
fn shortest_walks() {
    let (bytes, mut peers) = inputs::of_each_leaf();
    let map = AsMap::from_bytes(bytes.clone()).expect("accepted");
    let by = By::Map(&bytes, &map);
    row("12 jumps deep, any order", &peers, by);
    peers.sort_by_key(|peer| peer.ip());
    row("12 jumps deep, addresses rise", &peers, by);
    peers.sort_by_key(|&peer| by.group_of(peer));
    row("12 jumps deep, groups rise", &peers, by);
}

/// By prefixes, each candidate in a group of its own: the groups rise already, fall, and stand in any order, which is the same by both
/// numberings.
pub fn growth() {
    for count in [512, 1_024, 2_048, 4_096] {
        let drawn = inputs::of_each_group(count, inputs::new_group);
        let mut rising = drawn.clone();
        rising.sort_by_key(|&peer| inputs::new_group(peer));
        let falling = rising.iter().rev().copied().collect();
        for (order, peers) in [("rise", rising), ("fall", falling), ("stand in any order", drawn)] {
            let candidates = inputs::packed(&peers);
            let mut out = vec![1; sys::PAGE_LINE_BYTES * count];
            for (name, by) in [("page", By::OldPrefixes), ("page, new numbering", By::Prefixes)] {
                let time = best(&alone(|| keep(ours_page(black_box(&candidates), by, &mut out))));
                println!("| {name} | {count} groups that {order} | {:.0} us | {:.1} ns a group |", time / 1e3, time / count as f64);
            }
        }
    }
}
