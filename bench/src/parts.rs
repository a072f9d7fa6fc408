//! The parts of the benchmark.
use crate::asmap::{self, AsMap};
use crate::measure::{alone, best, both, head, row};
use crate::{compare, inputs, load, netaddr, netgroup, occupied, page};
use corbastrigo_sys as sys;
use maps::Random;
use std::collections::HashSet;
use std::hint::black_box;
use std::net::{IpAddr, SocketAddr};

/// A result that the compiler may not leave out.
pub fn keep<T>(result: T) {
    black_box(result);
}

pub fn ours_check(map: &[u8]) -> u32 {
    let (mut count, mut depth) = (0, 0);
    unsafe { sys::corbastrigo_sanity_check(map.as_ptr(), map.len(), &mut count, &mut depth) };
    count
}

pub fn ours_walk(map: &[u8], address: &[u8; 16]) -> (u32, u32) {
    let (mut kind, mut number, mut count, mut bits) = (0, 0, 0, 0);
    unsafe {
        sys::corbastrigo_interpret(
            map.as_ptr(),
            map.len(),
            address.as_ptr(),
            address.len(),
            &mut kind,
            &mut number,
            &mut count,
            &mut bits,
        )
    };
    (number, count)
}

pub fn check() {
    head("Check", "ns an instruction");
    let mut rates = Vec::new();
    for (name, map) in inputs::maps() {
        let count = corbastrigo::sanity_check(&map).expect("the shapes are accepted").count;
        assert!(asmap::sanity_check(&map), "the original accepts the shapes");
        let times = both(|| keep(ours_check(black_box(&map))), || keep(asmap::sanity_check(black_box(&map))));
        row(&format!("{name}, {count} instructions"), f64::from(count), &times);
        rates.push((name, map.len() as f64 / best(&times.ours) * 1e3, map.len() as f64 / best(&times.original) * 1e3));
    }
    load::checks();
    println!("\n| input | ours, MB a second | original, MB a second |\n|---|---|---|");
    for (name, ours, original) in rates {
        println!("| {name} | {ours:.0} | {original:.0} |");
    }
}

pub fn walk() {
    head("Walk", "ns a walk");
    for (name, map) in inputs::maps() {
        let original = AsMap::from_bytes(map.clone()).expect("the shapes are accepted");
        for (kind, v6) in [("IPv4", 0), ("IPv6", 100), ("one in five IPv6", 20)] {
            let addresses = inputs::addresses(v6, 4_096);
            let counts: u32 = addresses.iter().map(|address| ours_walk(&map, address).1).sum();
            for address in &addresses {
                assert_eq!(ours_walk(&map, address).0, original.interpret_ip16(address));
            }
            let times = both(
                || addresses.iter().for_each(|address| keep(ours_walk(black_box(&map), address))),
                || addresses.iter().for_each(|address| keep(original.interpret_ip16(black_box(address)))),
            );
            let mean = f64::from(counts) / addresses.len() as f64;
            row(&format!("{name}; {kind}, {mean:.1} instructions a walk"), addresses.len() as f64, &times);
        }
    }
    load::walks();
}

fn unpacked(map: &[u8], out: &mut [u8]) -> usize {
    corbastrigo::unpack_into(map, out).expect("accepted, with room")
}

/// The original has neither call; the check, which unpack runs first, stands beside them.
pub fn records() {
    println!("\n### Unpack and pack, beside the check (the original has neither)\n");
    println!("| input | unpack, ns an instruction | pack | check | unpack, MB of map a second | pack |\n|---|---|---|---|---|---|");
    for (name, map) in inputs::maps() {
        let count = ours_check(&map);
        let mut records = vec![0; 16 * count as usize];
        let mut out = vec![0; map.len()];
        unpacked(&map, &mut records);
        let unpack = best(&alone(|| keep(unpacked(black_box(&map), &mut records))));
        let pack = best(&alone(|| keep(corbastrigo::pack_into(black_box(&records), &mut out))));
        assert!(out == map, "unpack then pack gives the map");
        let check = best(&alone(|| keep(ours_check(black_box(&map)))));
        let per = f64::from(count);
        let rate = |time: f64| map.len() as f64 / time * 1e3;
        let (fast, slow) = (rate(unpack), rate(pack));
        println!("| {name} | {:.2} | {:.2} | {:.2} | {fast:.0} | {slow:.0} |", unpack / per, pack / per, check / per);
    }
}

pub fn ours_list_bytes(map: &[u8]) -> usize {
    let mut bytes = 0;
    let answer = unsafe { sys::corbastrigo_list_bytes(map.as_ptr(), map.len(), &mut bytes) };
    assert_eq!(answer, 0, "the shapes are accepted");
    bytes
}

fn ours_list(map: &[u8], out: &mut [u8]) -> usize {
    let mut written = 0;
    let answer = unsafe { sys::corbastrigo_list(map.as_ptr(), map.len(), out.as_mut_ptr(), out.len(), &mut written) };
    assert_eq!(answer, 0, "accepted, with room");
    written
}

/// Before times are taken: records, one in a thousand at most, say of their first address what the original's walk says.
fn held(map: &[u8], out: &[u8]) {
    let original = AsMap::from_bytes(map.to_vec()).expect("the shapes are accepted");
    for record in out.chunks(24).step_by(1 + out.len() / 24_000) {
        let address: [u8; 16] = record[..16].try_into().expect("16 bytes");
        assert_eq!(record[20..], original.interpret_ip16(&address).to_le_bytes());
    }
}

/// The original has neither call; the check, which both run first, stands beside them and is timed in turn with each.
pub fn list() {
    println!("\n### List of prefixes and its bytes, beside the check (the original has neither)\n");
    println!(
        "| input | list, ns a record | list / check, of best | median | list, MB of map a second | bytes needed, ns a record \
         | bytes needed / check, of best | median |\n|---|---|---|---|---|---|---|---|"
    );
    for (name, map) in inputs::maps().into_iter().chain(inputs::listed()) {
        // Ones, since pages of zeros are only made when they are written to, which would be while times are taken.
        let mut out = vec![1; ours_list_bytes(&map)];
        ours_list(&map, &mut out);
        held(&map, &out);
        let count = out.len() as f64 / 24.0;
        let list = both(|| keep(ours_list(black_box(&map), &mut out)), || keep(ours_check(black_box(&map))));
        let needed = both(|| keep(ours_list_bytes(black_box(&map))), || keep(ours_check(black_box(&map))));
        let (time, rate) = (best(&list.ours), map.len() as f64 / best(&list.ours) * 1e3);
        let ([ratio, median, ..], [fewer, middle, ..]) = (list.ratios(), needed.ratios());
        println!(
            "| {name}, {count} records | {:.2} | {ratio:.2} | {median:.2} | {rate:.0} | {:.2} | {fewer:.2} | {middle:.2} |",
            time / count,
            best(&needed.ours) / count
        );
    }
}

/// Every code of a map, read one by one. The original's writers do not exist in a release build.
pub fn codes() {
    head("Reading codes, one call each", "ns a code");
    let map = inputs::real(100_000);
    let random = &mut Random(5);
    let places: Vec<usize> = (0..4_096).map(|_| random.below(8 * map.len() as u64) as usize).collect();
    type Original = fn(&mut usize, &[u8]) -> u32;
    let rows: [(&str, sys::Decode, Original); 4] = [
        ("opcode", sys::corbastrigo_decode_type, asmap::decode_type),
        ("AS number", sys::corbastrigo_decode_asn, asmap::decode_asn),
        ("MATCH operand", sys::corbastrigo_decode_match, asmap::decode_match),
        ("JUMP operand", sys::corbastrigo_decode_jump, asmap::decode_jump),
    ];
    for (name, ours, original) in rows {
        let times = both(
            || {
                for &place in &places {
                    let (mut value, mut next) = (0, 0);
                    unsafe { ours(map.as_ptr(), map.len(), place, &mut value, &mut next) };
                    black_box((value, next));
                }
            },
            || {
                for &place in &places {
                    let mut pos = place;
                    black_box((original(&mut pos, &map), pos));
                }
            },
        );
        row(name, places.len() as f64, &times);
    }
}

/// What groups go by: prefixes, by document 02's numbering or by the old one, or a map that was checked once, as both take it.
#[derive(Clone, Copy)]
pub enum By<'a> {
    Prefixes,
    OldPrefixes,
    Map(&'a [u8], &'a AsMap),
}

impl<'a> By<'a> {
    pub const PREFIXES: [By<'static>; 2] = [By::OldPrefixes, By::Prefixes];

    /// Every way, with a map.
    pub fn all(bytes: &'a [u8], map: &'a AsMap) -> [By<'a>; 3] {
        [By::OldPrefixes, By::Prefixes, By::Map(bytes, map)]
    }

    pub fn name(self) -> &'static str {
        match self {
            By::Prefixes => "prefixes, new numbering",
            By::OldPrefixes => "prefixes, old numbering",
            By::Map(..) => "map of 1.5 MB",
        }
    }

    pub fn map(self) -> Option<&'a [u8]> {
        match self {
            By::Map(bytes, _) => Some(bytes),
            _ => None,
        }
    }

    /// The original's group; by the new numbering, which it has not, one in plain Rust.
    pub fn group_of(self, peer: SocketAddr) -> u64 {
        match self {
            By::Prefixes => inputs::new_group(peer),
            By::OldPrefixes => netgroup::netgroup(peer, None),
            By::Map(_, map) => netgroup::netgroup(peer, Some(map)),
        }
    }

    /// The original's pick, by these groups.
    pub fn original_pick(self, ranked: &[SocketAddr], max: usize, occupied: &HashSet<u64>) -> Vec<SocketAddr> {
        match self {
            By::Prefixes => netgroup::select_diverse(ranked, max, occupied, inputs::new_group),
            By::OldPrefixes => original_pick(ranked, max, occupied, None),
            By::Map(_, map) => original_pick(ranked, max, occupied, Some(map)),
        }
    }

    /// Ours of a candidate.
    pub fn ours_group(self, candidate: &[u8]) -> u64 {
        match self {
            By::OldPrefixes => ours_old_group(candidate),
            by => ours_group(candidate, by.map()),
        }
    }
}

fn ours_group(candidate: &[u8], map: Option<&[u8]>) -> u64 {
    let bytes = map.unwrap_or(&[]);
    let mut group = 0;
    let has_map = u8::from(map.is_some());
    unsafe {
        let (at, len) = (candidate.as_ptr(), candidate.len());
        sys::corbastrigo_netgroup_unchecked(at, len, has_map, bytes.as_ptr(), bytes.len(), &mut group)
    };
    group
}

fn ours_old_group(candidate: &[u8]) -> u64 {
    let mut group = 0;
    unsafe { sys::corbastrigo_prefix_group(candidate.as_ptr(), candidate.len(), &mut group) };
    group
}

/// One row of groups. The original has no new numbering: beside ours by that one stands its own group of the same candidates.
fn group_row(name: &str, peers: &[SocketAddr], ours: impl Fn(&[u8]) -> u64, original: Option<&AsMap>) {
    let packed = inputs::packed(peers);
    let times = both(
        || packed.chunks(20).for_each(|candidate| keep(ours(black_box(candidate)))),
        || peers.iter().for_each(|&peer| keep(netgroup::netgroup(black_box(peer), original))),
    );
    row(name, peers.len() as f64, &times);
}

pub fn group() {
    head("Group, of a map that was checked once, and without one by both numberings", "ns a group");
    let bytes = inputs::real(1_500_000);
    let map = AsMap::from_bytes(bytes.clone()).expect("accepted");
    let any = inputs::candidates(4_096);
    for (kind, peers) in [("one in five IPv6", any.clone())].into_iter().chain(inputs::of_each_kind(4_096)) {
        for by in By::PREFIXES {
            let held = inputs::packed(&peers)
                .chunks(20)
                .map(|candidate| by.ours_group(candidate))
                .eq(peers.iter().map(|&peer| by.group_of(peer)));
            assert!(held, "{}, {kind}", by.name());
        }
        group_row(&format!("{}, {kind}", By::OldPrefixes.name()), &peers, ours_old_group, None);
        group_row(&format!("{}, {kind}", By::Prefixes.name()), &peers, |candidate| ours_group(candidate, None), None);
    }
    group_row("real, 1.5 MB", &any, |candidate| ours_group(candidate, Some(&bytes)), Some(&map));
}

/// The lists of a pick as the library takes them.
pub struct Lists {
    candidates: Vec<u8>,
    occupied: Vec<u64>,
    picks: Vec<u16>,
    groups: Vec<u64>,
}

impl Lists {
    pub fn new(ranked: &[SocketAddr], occupied: impl IntoIterator<Item = u64>, max: usize) -> Lists {
        let room = max.min(ranked.len());
        Lists {
            candidates: inputs::packed(ranked),
            occupied: occupied.into_iter().collect(),
            picks: vec![0; room],
            groups: vec![0; room],
        }
    }

    /// A pick by a map that was checked once, or by prefixes.
    pub fn pick(&mut self, max: usize, by: By) -> usize {
        match by {
            By::OldPrefixes => self.old_pick(max),
            by => self.pick_by(sys::corbastrigo_select_diverse_unchecked, max, by.map()),
        }
    }

    fn old_pick(&mut self, max: usize) -> usize {
        let (mut total, mut first, mut examined, mut instructions) = (0, 0, 0, 0);
        let answer = unsafe {
            sys::corbastrigo_old_prefix_pick(
                self.candidates.as_ptr(),
                self.candidates.len(),
                self.occupied.as_ptr(),
                self.occupied.len(),
                max,
                self.picks.as_mut_ptr(),
                self.picks.len(),
                self.groups.as_mut_ptr(),
                self.groups.len(),
                &mut total,
                &mut first,
                &mut examined,
                &mut instructions,
            )
        };
        assert_eq!(answer, 0);
        total
    }

    fn pick_by(&mut self, call: sys::SelectDiverse, max: usize, map: Option<&[u8]>) -> usize {
        let bytes = map.unwrap_or(&[]);
        let (mut total, mut first, mut examined, mut instructions) = (0, 0, 0, 0);
        let answer = unsafe {
            call(
                self.candidates.as_ptr(),
                self.candidates.len(),
                self.occupied.as_ptr(),
                self.occupied.len(),
                max,
                u8::from(map.is_some()),
                bytes.as_ptr(),
                bytes.len(),
                self.picks.as_mut_ptr(),
                self.picks.len(),
                self.groups.as_mut_ptr(),
                self.groups.len(),
                &mut total,
                &mut first,
                &mut examined,
                &mut instructions,
            )
        };
        assert_eq!(answer, 0);
        total
    }
}

fn original_pick(ranked: &[SocketAddr], max: usize, occupied: &HashSet<u64>, map: Option<&AsMap>) -> Vec<SocketAddr> {
    netgroup::select_diverse(ranked, max, occupied, |addr| netgroup::netgroup(addr, map))
}

pub fn picked(ranked: &[SocketAddr], lists: &Lists, total: usize) -> Vec<SocketAddr> {
    lists.picks[..total].iter().map(|&place| ranked[usize::from(place)]).collect()
}

/// One row of picks by a map that was checked once, or by prefixes.
fn pick_row(by: By, name: &str, ranked: &[SocketAddr], taken: usize, max: usize) {
    let occupied = inputs::occupied(taken, |peer| by.group_of(peer));
    let mut lists = Lists::new(ranked, occupied.iter().copied(), max);
    let total = lists.pick(max, by);
    assert_eq!(picked(ranked, &lists, total), by.original_pick(ranked, max, &occupied));
    let times = both(|| keep(lists.pick(max, by)), || keep(by.original_pick(ranked, max, &occupied)));
    row(&format!("{}, {name}, {taken} occupied, max {max}", by.name()), 1e3, &times);
}

pub fn pick() {
    let bytes = inputs::real(1_500_000);
    let map = AsMap::from_bytes(bytes.clone()).expect("accepted");
    head("Pick, of a map that was checked once, and without one by both numberings", "us a pick");
    for by in By::all(&bytes, &map) {
        for count in [1_000, 4_096] {
            for taken in [0, 300, 4_096] {
                for max in [8, 125] {
                    pick_row(by, &format!("{count} candidates"), &inputs::candidates(count), taken, max);
                }
            }
        }
    }
    for by in By::PREFIXES {
        pick_row(by, "1000 candidates, IPv4 mapped", &inputs::dual_stack(inputs::candidates(1_000)), 300, 125);
    }
    occupied::picks(&bytes, &map);
    checked_picks(&bytes, &map);
    safe_picks(&bytes, &map);
}

fn checked_picks(bytes: &[u8], map: &AsMap) {
    head("Pick that checks its map on every call, beside the original's check and pick", "us a pick");
    for max in [8, 125] {
        let ranked = inputs::candidates(1_000);
        let occupied = inputs::occupied(300, |addr| netgroup::netgroup(addr, Some(map)));
        let mut lists = Lists::new(&ranked, occupied.iter().copied(), max);
        let times = both(
            || keep(lists.pick_by(sys::corbastrigo_select_diverse, max, Some(bytes))),
            || {
                assert!(asmap::sanity_check(black_box(bytes)));
                keep(original_pick(&ranked, max, &occupied, Some(map)));
            },
        );
        row(&format!("map of 1.5 MB, 1000 candidates, 300 occupied, max {max}"), 1e3, &times);
    }
}

/// The old numbering's pick answers places, which are made addresses here, as the original answers.
fn safe_old_pick(ranked: &[SocketAddr], max: usize, occupied: &HashSet<u64>) -> Vec<SocketAddr> {
    let pick = corbastrigo::old_prefix_pick(ranked, max, occupied).expect("nothing that is refused");
    pick.places.iter().map(|&place| ranked[usize::from(place)]).collect()
}

fn safe_picks(bytes: &[u8], map: &AsMap) {
    head("Pick through the safe crate, lists made anew in each call", "us a pick");
    let safe = corbastrigo::AsMap::from_bytes(bytes.to_vec()).expect("accepted");
    for by in By::all(bytes, map) {
        let ranked = inputs::candidates(1_000);
        let occupied = inputs::occupied(300, |peer| by.group_of(peer));
        let ours = by.map().map(|_| &safe);
        let picks = || match by {
            By::OldPrefixes => safe_old_pick(&ranked, 125, &occupied),
            _ => corbastrigo::select_diverse(&ranked, 125, &occupied, ours).expect("nothing that is refused"),
        };
        assert_eq!(picks(), by.original_pick(&ranked, 125, &occupied));
        let times = both(|| keep(picks()), || keep(by.original_pick(&ranked, 125, &occupied)));
        row(&format!("{}, 1000 candidates, 300 occupied, max 125", by.name()), 1e3, &times);
    }
}

pub fn filters() {
    head("Unroutable", "ns an address");
    let random = &mut Random(7);
    let ips: Vec<IpAddr> = (0..4_096)
        .map(|i| if i % 2 == 0 { IpAddr::from(inputs::ipv4(random)) } else { IpAddr::from(inputs::ipv6(random)) })
        .collect();
    let addresses: Vec<[u8; 16]> = ips.iter().map(|&ip| corbastrigo::ip16_for_lookup(ip)).collect();
    let ours = |address: &[u8; 16]| {
        let mut unroutable = 0;
        unsafe { sys::corbastrigo_clearnet_unroutable(address.as_ptr(), 16, &mut unroutable) };
        unroutable
    };
    let times = both(
        || addresses.iter().for_each(|address| keep(ours(black_box(address)))),
        || ips.iter().for_each(|&ip| keep(netaddr::clearnet_unroutable(black_box(ip)))),
    );
    row("half IPv4, half 2000::/3", ips.len() as f64, &times);
}

/// Whether the cost grows with the size and no faster: the time of one unit over a range of sizes.
pub fn growth() {
    println!("\n### Growth\n\n| call | size | time | for a unit |\n|---|---|---|---|");
    for bytes in [16_000, 64_000, 256_000, 1_000_000, 4_000_000, 16_000_000] {
        let map = inputs::real(bytes);
        let time = best(&alone(|| keep(ours_check(black_box(&map)))));
        println!("| check | {} bytes | {:.0} us | {:.2} ns a byte |", map.len(), time / 1e3, time / map.len() as f64);
    }
    for bytes in [16_000, 64_000, 256_000, 1_000_000, 4_000_000, 16_000_000] {
        let map = inputs::real(bytes);
        let mut out = vec![1; ours_list_bytes(&map)];
        let count = out.len() as f64 / 24.0;
        let time = best(&alone(|| keep(ours_list(black_box(&map), &mut out))));
        println!("| list | {count} records, {} bytes | {:.0} us | {:.2} ns a record |", map.len(), time / 1e3, time / count);
    }
    compare::growth();
    pick_growth();
    page::growth();
}

/// The most that a pick can cost by its groups: all are the same modulo 4,096, so that marks and links do not tell them apart, and none is met
/// twice. So each candidate's is compared with every occupied one and with those that were taken before.
fn pick_growth() {
    for count in [512, 1_024, 2_048, 4_096] {
        let ranked = inputs::alike(count);
        let occupied = (0..count as u64).map(|i| (1 << 40) + 4_096 * i);
        let mut lists = Lists::new(&ranked, occupied, count);
        let time = best(&alone(|| keep(lists.pick(count, By::Prefixes))));
        assert!(lists.groups.iter().copied().eq((0..count as u64).map(|i| 4_096 * i)), "every group is taken");
        let compared = count as f64 * (count as f64 + (count as f64 - 1.0) / 2.0);
        println!(
            "| pick, groups that share a mark | {count} candidates, {count} occupied, max {count} | {:.0} us | {:.3} ns a group compared |",
            time / 1e3,
            time / compared
        );
    }
}

/// One call alone, for counts of instructions.
pub fn count(call: &str, bytes: usize) {
    let map = inputs::real(bytes);
    let instructions = ours_check(&map);
    let mut records = vec![0; 16 * instructions as usize];
    let mut out = vec![0; map.len()];
    unpacked(&map, &mut records);
    println!("{call}: {} bytes, {instructions} instructions", map.len());
    match call {
        "check" => keep(ours_check(&map)),
        "unpack" => keep(unpacked(&map, &mut records)),
        "pack" => keep(corbastrigo::pack_into(&records, &mut out)),
        "list" => {
            let mut prefixes = vec![1; ours_list_bytes(&map)];
            println!("list: {} records", ours_list(&map, &mut prefixes) / 24);
        }
        "compare" => compare::count(&map, bytes),
        "walk" => {
            let addresses = inputs::addresses(0, 4_096);
            let counts: u32 = addresses.iter().map(|address| ours_walk(&map, address).1).sum();
            println!("walk: {} addresses, {counts} instructions", addresses.len());
        }
        other => panic!("no call is named {other}"),
    }
}
