//! Maps: the check, walks, unpack, pack and listings. Those that are no constant of the original are built with its writers.
use crate::list::List;
use crate::tables::{runs, Tables};
use oracle::asmap::{self, pack_le, DEFAULT, JUMP, LONE_RETURN_ASMAP, LOOPBACK_ASMAP, MATCH, RETURN, TWO_PREFIX_ASMAP};
use oracle::codes::operand_row;
use oracle::document::{Refusal, Verdict, Walk};
use oracle::records::{self, record};
use oracle::{bytes, instruction, EXAMPLES, MAPS};

/// One for each place where two of the check's tests could speak, and others that are short.
const SHORT: [&str; 12] = [
    "00 00 00",
    "00 00 02",
    "01 00",
    "e1 63 00",
    "01 e3 00 00",
    "07 00 38",
    "63",
    "11 01",
    "91 01",
    "81 fb 03 00",
    "c1 fb 03 00",
    // Core's Interpret stops at this JUMP, for it reaches the end; the defined walk does not (docs/DIFFERENCES.md).
    "e1 00 00 00",
];

/// Maps as text.
const TEXTS: [(&str, &str); 23] = [
    ("128 pairs of DEFAULT and MATCH", "x128 D1,M2 R1"),
    ("129 pairs of DEFAULT and MATCH", "x129 D1,M2 R1"),
    ("two jumps, one after the other", "J17 R1 J17 R2 R3"),
    ("two jumps, one in the other", "J42 J17 R1 R2 R3"),
    ("short, full, short", "M2 M256 M2 R1"),
    ("short, full, short, short", "M2 M256 M2 M128 R1"),
    ("short, DEFAULT, short", "M2 D1 M2 R1"),
    ("short, JUMP, short", "M2 J22 M2 R1 R1"),
    ("short, RETURN, short", "J22 M2 R1 M2 R1"),
    ("DEFAULT, RETURN", "D1 R1"),
    ("DEFAULT, MATCH, DEFAULT, MATCH, RETURN", "D1 M2 D2 M2 R1"),
    ("no padding", "M4 R1"),
    ("eight bits of padding", "M4 R1 x8 b0"),
    ("RETURN short of the target", "J18 R1 R1"),
    ("past the target, opcode cut", "J17 D98305 b1"),
    ("no bit left, RETURN", "x16 M256 R1"),
    ("no bit left, JUMP", "x16 M256 J17 R1 R1"),
    ("no bit left, JUMP cut", "x16 M256 b1 b0 b1"),
    ("one bit left, short after short and too long", "x15 M256 M128 M4 R1"),
    ("one bit left, short and too long", "x15 M256 M128 D1 M4 R1"),
    ("no bit left, JUMP past the target", "J400 x15 M256 M128 J1000"),
    ("one bit left, JUMP past the target", "J400 x15 M256 M64 J1000"),
    ("bits saved by a jump and used up again", "J304 x15 M256 M128 R1 x15 M256 M128 R2"),
];

fn one(text: &str) -> Vec<bool> {
    let number: u32 = text[1..].parse().expect("a number");
    match &text[..1] {
        "R" => instruction(RETURN, number),
        "J" => instruction(JUMP, number),
        "M" => instruction(MATCH, number),
        "D" => instruction(DEFAULT, number),
        _ => vec![number == 1],
    }
}

/// `R1`, `J17`, `M2`, `D1` are instructions, `b1` is a lone bit, and `x16` says that the next word stands 16 times.
pub fn bits(text: &str) -> Vec<bool> {
    let (mut out, mut times) = (vec![], 1);
    for word in text.split_whitespace() {
        match word.strip_prefix('x') {
            Some(number) => times = number.parse().expect("a number"),
            None => {
                out.extend(word.split(',').flat_map(one).collect::<Vec<bool>>().repeat(times));
                times = 1;
            }
        }
    }
    out
}

/// So many jumps, each in the first half of the one before.
pub fn nested(n: usize) -> Vec<u8> {
    pack_le(&(0..n).fold(bits("R1"), |inner, _| [instruction(JUMP, inner.len() as u32), inner, bits("R1")].concat()))
}

fn said(walk: &Walk) -> String {
    format!("{} {} {} {}", walk.end.name(), walk.number, walk.count, walk.bits)
}

/// How a walk ended, or why there was none.
pub fn walked(walk: Result<Walk, Refusal>) -> String {
    walk.map_or_else(|reason| format!("refused {reason}"), |walk| said(&walk))
}

/// The verdict on a map, or the refusal of the width.
pub fn verdict(checked: Result<(Verdict, usize), Refusal>) -> String {
    match checked {
        Err(reason) => format!("refused {reason}"),
        Ok((Verdict::Accepted { count, depth }, _)) => format!("accepted, {count} instructions, depth {depth}"),
        Ok((Verdict::Refused(reason), place)) => format!("refused {reason} at bit {place}"),
    }
}

fn walk(list: &mut List, tables: &mut Tables, name: &str, map: &[u8], to: &str, address: &[u8]) {
    tables.row("walk", format!("{name}, {to}: {}", walked(list.walk(map, address))));
}

/// Unpacked into outputs just long enough, one byte longer and one shorter, and packed again in the same way.
fn both_ways(list: &mut List, map: &[u8]) {
    let Ok(records) = records::unpack(map) else {
        list.unpack(map, 16);
        return;
    };
    for room in [records.len(), records.len() + 1, records.len() - 1] {
        list.unpack(map, room);
    }
    for room in [map.len(), map.len() + 1, map.len() - 1] {
        list.pack(&records, room);
    }
}

/// A map by a name: all calls.
fn map(list: &mut List, tables: &mut Tables, name: &str, text: &str, map: &[u8]) {
    list.heading(name);
    let verdict = verdict(list.check(map));
    let text = if text.is_empty() { String::new() } else { format!(" ({text})") };
    tables.row("check", format!("{name}{text}: {} bytes, {verdict}", map.len()));
    for (to, address) in [("zeros", [0; 16]), ("ones", [255; 16])] {
        walk(list, tables, name, map, to, &address);
    }
    both_ways(list, map);
    let _ = list.list(map, |bytes| vec![bytes, bytes - 1]);
}

fn maps(list: &mut List, tables: &mut Tables) {
    for (name, constant) in MAPS {
        map(list, tables, name, "", constant);
    }
    for hex in EXAMPLES.into_iter().chain(SHORT) {
        map(list, tables, if hex.is_empty() { "no bytes" } else { hex }, "", &bytes(hex));
    }
    for (name, text) in TEXTS {
        map(list, tables, name, text, &pack_le(&bits(text)));
    }
    for n in [127, 128, 129] {
        map(list, tables, &format!("{n} nested jumps"), "", &nested(n));
    }
}

/// A map cut at each of its bits. A map has whole bytes, so the finest true cut is between two of them. A cut inside a byte keeps the byte
/// and clears its bits from the cut on, which the walk then reads as zeros. Cuts with one end are one row of the table.
fn walk_cuts(list: &mut List, tables: &mut Tables, name: &str, map: &[u8], address: &[u8]) {
    list.heading(&format!("{name}, cut at each bit"));
    let all = (1..=8 * map.len()).map(|bit| {
        let mut cut = map[..bit.div_ceil(8)].to_vec();
        if bit % 8 != 0 {
            cut[bit / 8] &= (1 << (bit % 8)) - 1;
        }
        (bit, said(&list.walk(&cut, address).expect("an address of 16 bytes")))
    });
    for (first, last, walked) in runs(all) {
        let bits = if first == last { format!("bit {first}") } else { format!("bits {first} to {last}") };
        tables.row("walk", format!("{name}, cut at {bits}: {walked}"));
    }
}

fn walks(list: &mut List, tables: &mut Tables) {
    list.heading("walks of IPv4 addresses");
    for (name, map, addresses) in [
        ("TWO_PREFIX_ASMAP", TWO_PREFIX_ASMAP, &["1.2.0.0", "3.4.0.0", "8.8.8.8"][..]),
        ("LOOPBACK_ASMAP", LOOPBACK_ASMAP, &["127.0.0.1", "127.0.0.2", "127.0.0.3", "127.0.0.0"]),
    ] {
        for address in addresses {
            let mapped = list.mapped(address.parse().expect("an address"));
            walk(list, tables, name, map, address, &mapped);
        }
    }
    list.heading("addresses that have not 16 bytes");
    for n in [0, 15, 17] {
        walk(list, tables, "LONE_RETURN_ASMAP", LONE_RETURN_ASMAP, &format!("{n} bytes"), &vec![0; n]);
    }
}

fn cuts(list: &mut List, tables: &mut Tables) {
    let ipv4 = |address: &str| asmap::ip16_for_lookup(address.parse().expect("an address"));
    walk_cuts(list, tables, "TWO_PREFIX_ASMAP, 3.4.0.0", TWO_PREFIX_ASMAP, &ipv4("3.4.0.0"));
    walk_cuts(list, tables, "LOOPBACK_ASMAP, 127.0.0.2", LOOPBACK_ASMAP, &ipv4("127.0.0.2"));
    walk_cuts(list, tables, "LONE_RETURN_ASMAP, zeros", LONE_RETURN_ASMAP, &[0; 16]);
}

fn records_of(instructions: &[(u32, u32)]) -> Vec<u8> {
    let mut place = 0;
    let records = instructions.iter().flat_map(|&(opcode, operand)| {
        let length = instruction(opcode, operand).len();
        place += length;
        record(opcode, operand, place - length, length)
    });
    records.collect()
}

/// Packs, and unpacks and lists what that made.
fn back_again(list: &mut List, instructions: &[(u32, u32)]) {
    let records = records_of(instructions);
    let map = records::pack(&records).expect("records of instructions in range");
    list.pack(&records, map.len() + 1);
    list.unpack(&map, records.len() + 1);
    let _ = list.list(&map, |bytes| vec![bytes + 1]);
}

/// An opcode with the least and the greatest operand of each size, and as few instructions after it as an accepted map has.
fn each_size(list: &mut List, opcode: u32, after: &[(u32, u32)]) {
    for operand in operand_row(opcode).edges().concat() {
        back_again(list, &[&[(opcode, operand)], after].concat());
    }
}

/// A JUMP over that many MATCHes of a byte and a RETURN, which end where it lands.
fn jump_over(list: &mut List, operand: u32, matches: usize, asn: u32) {
    let inner = [vec![(MATCH, 256); matches], vec![(RETURN, asn), (RETURN, 1)]].concat();
    back_again(list, &[vec![(JUMP, operand)], inner].concat());
}

fn records(list: &mut List) {
    list.heading("each opcode with both ends of each size, packed, unpacked again and listed");
    each_size(list, RETURN, &[]);
    each_size(list, JUMP, &[(RETURN, 1), (RETURN, 1)]);
    each_size(list, MATCH, &[(RETURN, 1)]);
    each_size(list, DEFAULT, &[(MATCH, 2), (RETURN, 1)]);
    list.heading("jumps over MATCHes");
    jump_over(list, 49, 1, 4161537);
    jump_over(list, 113, 5, 229377);
    jump_over(list, 241, 12, 491521);
    list.heading("records of which one bit is turned over, the lowest or the highest of a byte");
    let right = records_of(&[(JUMP, 17), (RETURN, 1), (RETURN, 1)]);
    for bit in [1, 128] {
        for i in 0..right.len() {
            let mut damaged = right.clone();
            damaged[i] ^= bit;
            list.pack(&damaged, 6);
        }
    }
    list.heading("records that end too early, or nothing");
    list.pack(&[], 3);
    for n in [47, 17, 1, 32] {
        list.pack(&right[..n], 6);
    }
}

pub fn cases(list: &mut List, tables: &mut Tables) {
    walks(list, tables);
    maps(list, tables);
    cuts(list, tables);
    records(list);
}
