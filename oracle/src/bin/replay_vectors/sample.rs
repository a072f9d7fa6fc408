//! Calls over maps made at random and damaged, and addresses around some ranges. The seed is fixed: the list is always the same.
use crate::list::{List, Picking};
use crate::peers;
use maps::rewrite::Program;
use maps::{shapes, Random};
use oracle::picks::By;
use oracle::{bytes, records, EXAMPLES, MAPS};
use std::net::Ipv6Addr;

const SEED: u64 = 20_261_115;

fn map(list: &mut List, random: &mut Random, map: &[u8]) {
    let _ = list.check(map);
    let _ = list.walk(map, &[0; 16]);
    let _ = list.walk(map, &random.address());
    let records = records::unpack(map).unwrap_or_default();
    list.unpack(map, records.len() + 3);
    if !records.is_empty() {
        list.pack(&records, map.len() + 3);
    }
    let _ = list.list(map, |bytes| vec![bytes + 3]);
}

fn damaged_records(list: &mut List, random: &mut Random, map: &[u8]) {
    let mut records = records::unpack(map).expect("a map that is accepted");
    let place = random.below(records.len() as u64) as usize;
    records[place] ^= 1 << random.below(8);
    list.pack(&records, map.len() + 3);
    list.pack(&records[1..], map.len() + 3);
}

/// A map with a bit flipped, cut, or with a byte more.
fn damaged(random: &mut Random, map: &[u8]) -> Vec<u8> {
    let place = random.below(map.len() as u64) as usize;
    let mut copy = map.to_vec();
    match random.below(4) {
        0 => copy.truncate(place),
        1 => copy.push(random.next() as u8),
        _ => copy[place] ^= 1 << random.below(8),
    }
    copy
}

fn candidate(random: &mut Random) -> Vec<u8> {
    let mut bytes = vec![6, 0];
    bytes.extend(random.address());
    bytes.extend([0x20, 0x8d]);
    if random.percent(60) {
        bytes[..14].copy_from_slice(&[4, 0, 0, 0, 0, 0, 0, 0, 0, 0, 0, 0, 255, 255]);
        bytes[14] = random.below(3) as u8;
        bytes[15..18].fill(0);
    }
    bytes
}

fn programs(list: &mut List, random: &mut Random) {
    list.heading("maps made at random, and damaged");
    for round in 0..36 {
        let left = if round % 4 == 0 { 128 } else { 1 + random.below(40) as u32 };
        let whole = shapes::random(random, 5, left);
        map(list, random, &whole);
        damaged_records(list, random, &whole);
        for _ in 0..3 {
            let copy = damaged(random, &whole);
            map(list, random, &copy);
        }
        let candidates: Vec<u8> = (0..random.below(6)).flat_map(|_| candidate(random)).collect();
        let occupied: Vec<u64> = (0..random.below(3)).map(|_| random.below(3)).collect();
        let max = random.below(6) as usize;
        let inputs = Picking { list: &candidates, occupied: &occupied, max, by: By::OldPrefixes, map: &whole, rooms: [7, 8] };
        let _ = list.pick(&inputs);
        let _ = list.pick_unchecked(&inputs);
        let _ = list.pick(&Picking { by: By::Prefixes, ..inputs });
        let _ = list.pick_unchecked(&Picking { by: By::Prefixes, ..inputs });
        let _ = list.pick(&Picking { by: By::Map(&whole), ..inputs });
        let _ = list.pick_unchecked(&Picking { by: By::Unchecked(&whole), ..inputs });
        peers::group(list, &candidate(random), &whole);
        let copy = damaged(random, &whole);
        peers::group(list, &candidate(random), &copy);
        peers::group(list, &random.bytes(20), &whole);
    }
}

/// A map with one part of it in the place of another, which is a RETURN.
fn with_a_return(random: &mut Random, map: &[u8]) -> Vec<u8> {
    let mut program = records::program(map);
    let mut number = random.below(program.count() as u64) as usize;
    let (node, _) = program.at(&mut number, 128).expect("an instruction of the program");
    *node = Program::Return(1 + random.below(9) as u32);
    program.bytes()
}

fn comparisons(list: &mut List, random: &mut Random) {
    list.heading("maps made at random, compared with others, in other words, with another part, and damaged");
    for round in 0..36 {
        let left = if round % 9 == 0 { 128 } else { 1 + random.below(24) as u32 };
        let [old, other] = [0; 2].map(|_| shapes::random(random, 6, left));
        let words = records::program(&old).late().spelt(random).halved(128, random).bytes();
        let (changed, copy) = (with_a_return(random, &old), damaged(random, &old));
        for maps in [[&old, &other], [&old, &words], [&words, &changed], [&old, &copy], [&copy, &other]] {
            let _ = list.compare(maps.map(|map| &map[..]), |bytes| vec![bytes + 3]);
        }
    }
}

fn filters(list: &mut List, random: &mut Random) {
    list.heading("addresses around ranges");
    for start in
        ["::ffff:10.0.0.0", "::ffff:100.64.0.0", "::ffff:198.18.0.0", "64:ff9b::", "2002::", "2001:20::", "fc00::", "fe80::", "::"]
    {
        let first = u128::from(start.parse::<Ipv6Addr>().expect("an address"));
        for number in
            [first.wrapping_sub(1), first, first + 1, first | random.next() as u128, first | (random.next() as u128) << 40]
        {
            let _ = list.filter(&number.to_be_bytes());
            let _ = list.relay(2, random.below(2) as u16, &number.to_be_bytes());
            let _ = list.relay(1, 8333, &number.to_be_bytes()[12..]);
        }
    }
    list.heading("relay skip of random bytes");
    for id in 0..9 {
        for length in [4, 10, 16, 32, random.below(40) as usize] {
            let bytes = random.bytes(length);
            let _ = list.relay(id, random.below(2) as u16, &bytes);
        }
    }
}

pub fn cases(list: &mut List) {
    let random = &mut Random(SEED);
    list.heading("the maps above by an address made at random");
    for map in MAPS.iter().map(|(_, map)| map.to_vec()).chain(EXAMPLES.map(bytes)) {
        let _ = list.walk(&map, &random.address());
    }
    programs(list, random);
    filters(list, random);
    comparisons(list, &mut Random(SEED + 1));
}
