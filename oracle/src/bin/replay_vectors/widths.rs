//! The calls that take a width: maps around the limit of 32 bits and the maps of the other cases, asked at both widths; addresses and
//! outputs of each length; widths that there are not.
use crate::list::List;
use crate::programs::{bits, nested, verdict, walked};
use crate::tables::Tables;
use maps::{shapes, Random};
use oracle::asmap::{ip16_for_lookup, pack_le, ASMAP_MATCH_PAST_END, LONE_RETURN_ASMAP, TWO_PREFIX_ASMAP};
use oracle::changes::NEW_MAP;
use oracle::listing::Prefix;
use oracle::{bytes, records, EXAMPLES, MAPS};
use std::net::Ipv4Addr;

const BOTH: [u32; 2] = [32, 128];

/// Neither 32 nor 128: around them, both at once, and what would be one of them, or both, if it were cut to a byte.
const NO_WIDTHS: [u32; 12] = [0, 1, 31, 33, 64, 127, 129, 160, 256 + 32, 256 + 128, u32::MAX - 95, u32::MAX];

/// A node's map without the mapped bits: TWO_PREFIX_ASMAP from its 97th address bit on.
const TWO_PREFIXES: &str = "M64 J17 R1 R2";

/// Maps as text, each with what it shows.
pub const TEXTS: [(&str, &str); 20] = [
    ("a lone RETURN", "R1"),
    ("IPv4 prefixes without the mapped bits", TWO_PREFIXES),
    ("four MATCHes of a byte: 32 bits", "x4 M256 R1"),
    ("four MATCHes of a byte and a bit more", "x4 M256 M2 R1"),
    ("four MATCHes of a byte, JUMP", "x4 M256 J17 R1 R1"),
    ("four MATCHes of a byte, JUMP cut", "x4 M256 b1 b0 b1"),
    ("31 bits, JUMP", "x3 M256 M128 J17 R1 R2"),
    ("31 bits, JUMP, JUMP", "x3 M256 M128 J42 J17 R1 R1 R1"),
    ("31 bits, DEFAULT, one bit", "x3 M256 M128 D7 M3 R1"),
    ("31 bits, DEFAULT, two bits", "x3 M256 M128 D7 M4 R1"),
    ("31 bits, short after short and too long", "x3 M256 M128 M4 R1"),
    ("no bit left, JUMP past the target", "J200 x3 M256 M128 J1000"),
    ("31 bits on both sides of a JUMP", "J88 x3 M256 M128 R1 x3 M256 M128 R2"),
    ("31 bits on one side of a JUMP, 32 on the other", "J88 x3 M256 M128 R1 x4 M256 R2"),
    ("16 pairs of DEFAULT and a MATCH of two bits", "x16 D1,M4 R1"),
    ("17 pairs of DEFAULT and a MATCH of two bits", "x17 D1,M4 R1"),
    ("32 pairs of DEFAULT and MATCH, the longest walk", "x32 D1,M2 R1"),
    ("33 pairs of DEFAULT and MATCH", "x33 D1,M2 R1"),
    ("32 jumps, each where the one before lands", "x32 J17,R1 R2"),
    ("33 jumps, each where the one before lands", "x33 J17,R1 R2"),
];

/// Every map that is shown is walked by these.
const ADDRESSES: [Ipv4Addr; 3] = [Ipv4Addr::UNSPECIFIED, Ipv4Addr::new(3, 4, 0, 0), Ipv4Addr::BROADCAST];

/// Two maps as text that are compared at both widths, each with what they show.
const COMPARED: [(&str, &str, &str); 8] = [
    ("one number changed", TWO_PREFIXES, "M64 J17 R1 R3"),
    ("a change of all addresses", "R1", "R2"),
    ("the same bytes, 32 bits deep", "x4 M256 R1", "x4 M256 R1"),
    ("one address changed, the first", "x4 M256 R1", "x4 M256 R2"),
    ("one address changed, the last", "D7 x4 M511 R1", "D7 x4 M511 R2"),
    ("MATCHes that ask for other bits", "x4 M256 R1", "x4 M511 R1"),
    ("32 jumps, DEFAULTs and MATCHes", "x32 J17,R1 R2", "x32 D1,M3 R3"),
    ("too deep at 32, the new map", "x4 M256 R1", "x4 M256 M2 R1"),
];

fn map_of(text: &str) -> Vec<u8> {
    pack_le(&bits(text))
}

/// Just long enough, one byte longer, one shorter, and none.
fn rooms(bytes: usize) -> Vec<usize> {
    vec![bytes, bytes + 1, bytes.saturating_sub(1), 0]
}

/// Unpacked and listed, into outputs as long as `rooms` says where so many bytes are needed, or, of a map refused at 128, a record's.
fn written(list: &mut List, map: &[u8], rooms: fn(usize) -> Vec<usize>) {
    let bytes = records::unpack(map).map_or(16, |records| records.len());
    rooms(bytes).into_iter().for_each(|room| list.unpack(map, room));
    let _ = list.list(map, rooms);
}

/// Check and walks at both widths side by side: at 32 by the address's four bytes, at 128 by its mapped form.
fn side_by_side(list: &mut List, tables: &mut Tables, name: &str, map: &[u8]) {
    list.heading(&format!("at both widths: {name}"));
    tables.row("width", format!("{name}: {} bytes", map.len()));
    let [narrow, wide] = BOTH.map(|width| list.at(width, |list| verdict(list.check(map))));
    tables.row("width", format!("  check: at 32 {narrow}; at 128 {wide}"));
    for address in ADDRESSES {
        let narrow = list.at(32, |list| walked(list.walk(map, &address.octets())));
        let wide = list.at(128, |list| walked(list.walk(map, &ip16_for_lookup(address.into()))));
        tables.row("width", format!("  {address}: at 32 {narrow}; at 128 {wide}"));
    }
}

/// A map that shows something: all calls that take one map.
fn shown(list: &mut List, tables: &mut Tables, name: &str, map: &[u8]) {
    side_by_side(list, tables, name, map);
    list.at(32, |list| written(list, map, |bytes| vec![bytes, bytes - 1]));
    list.at(128, |list| written(list, map, |bytes| vec![bytes]));
}

fn teaching(list: &mut List, tables: &mut Tables) {
    for (name, text) in TEXTS {
        shown(list, tables, &format!("{name} ({text})"), &map_of(text));
    }
    for n in [32, 33] {
        shown(list, tables, &format!("{n} nested jumps"), &nested(n));
    }
    side_by_side(list, tables, "TWO_PREFIX_ASMAP", TWO_PREFIX_ASMAP);
    let said = |prefix: &Prefix| format!("  {}/{} {}", Ipv4Addr::from((prefix.first >> 96) as u32), prefix.length, prefix.number);
    let listed = list.at(32, |list| list.list(&map_of(TWO_PREFIXES), rooms)).expect("accepted at 32");
    tables.row("width", format!("the prefixes of {TWO_PREFIXES}, listed at 32"));
    tables.ends("width", listed.iter().map(said).collect(), usize::MAX);
}

/// Every reason, on the same maps at both widths.
fn reasons(list: &mut List) {
    list.heading("the original's test maps and document 01's refused ones at both widths");
    let maps = MAPS.iter().map(|(_, map)| map.to_vec()).chain(EXAMPLES.map(bytes));
    for map in maps {
        for width in BOTH {
            let _ = list.at(width, |list| list.check(&map));
        }
        list.at(32, |list| {
            let _ = list.walk(&map, &[0; 4]);
            written(list, &map, |bytes| vec![bytes]);
        });
    }
}

/// Addresses of each length, by a map that needs none of it and by one that is no map.
fn lengths(list: &mut List, tables: &mut Tables) {
    list.heading("addresses of each length at both widths");
    for n in [0, 3, 4, 5, 16] {
        for map in [LONE_RETURN_ASMAP, &[]] {
            let [narrow, wide] = BOTH.map(|width| list.at(width, |list| walked(list.walk(map, &vec![0; n]))));
            if !map.is_empty() {
                tables.row("width", format!("a lone RETURN, an address of {n} bytes: at 32 {narrow}; at 128 {wide}"));
            }
        }
    }
}

/// Each call, with a map that is sane at 32 and at 128, and with inputs that are refused at both.
fn no_widths(list: &mut List, tables: &mut Tables) {
    list.heading("widths that there are not, with a map that is sane, and with all else wrong too");
    let sane = map_of(TWO_PREFIXES);
    for width in NO_WIDTHS {
        let said = list.at(width, |list| {
            let said = [verdict(list.check(&sane)), walked(list.walk(&sane, &[3, 4, 0, 0]))];
            let _ = list.check(&[]);
            let _ = list.walk(&[], &[0; 5]);
            list.unpack(&sane, 64);
            list.unpack(&[], 0);
            let _ = list.list(&sane, |_| vec![240]);
            let _ = list.list(&[1], |_| vec![0]);
            let _ = list.compare([&sane, LONE_RETURN_ASMAP], |_| vec![280]);
            let _ = list.compare_bytes([&[1], &[1]], 0);
            said
        });
        assert_eq!(said, ["refused 18", "refused 18"].map(String::from));
        tables.row("width", format!("width {width}: check and walk refused 18"));
    }
}

fn comparisons(list: &mut List) {
    list.heading("maps compared at both widths: outputs just long enough, longer, shorter, and none");
    for (_, old, new) in COMPARED {
        let maps = [map_of(old), map_of(new)];
        let maps = [&maps[0][..], &maps[1]];
        let _ = list.at(32, |list| list.compare(maps, rooms));
        let _ = list.at(128, |list| list.compare(maps, |bytes| vec![bytes]));
    }
    list.heading("one number changed, at 32: outputs of each length for the first address");
    let maps = [map_of(COMPARED[0].1), map_of(COMPARED[0].2)];
    for room in (0..=17).step_by(3).chain([14, 16, 17, 20]) {
        let _ = list.at(32, |list| list.compare_bytes([&maps[0], &maps[1]], room));
    }
}

/// Each reason as the old map's, as the new one's, and as both; a map of 128 bits is too deep for 32 in each place.
fn refused(list: &mut List) {
    list.heading("refused maps compared at 32 with one that is sane, and with each other");
    let all: Vec<Vec<u8>> =
        EXAMPLES.map(bytes).into_iter().chain([TWO_PREFIX_ASMAP, ASMAP_MATCH_PAST_END].map(<[u8]>::to_vec)).collect();
    for (map, other) in all.iter().zip(all.iter().cycle().skip(1)) {
        for maps in [[&map[..], LONE_RETURN_ASMAP], [LONE_RETURN_ASMAP, map], [map, other]] {
            let refused = list.at(32, |list| list.compare(maps, |record| vec![record]));
            let reason = refused.expect_err("a map that the check refuses");
            assert_eq!(reason > NEW_MAP, maps[0] == LONE_RETURN_ASMAP, "the old map comes first");
        }
    }
}

/// Maps made at random over at most 33 bits, whole and with a bit turned over.
fn sample(list: &mut List) {
    list.heading("maps made at random, and damaged, at 32");
    let random = &mut Random(20_261_118);
    for _ in 0..4 {
        let [left, less] = [0; 2].map(|_| 1 + random.below(33) as u32);
        let (whole, other) = (shapes::random(random, 5, left), shapes::random(random, 5, less));
        let mut damaged = whole.clone();
        damaged[random.below(whole.len() as u64) as usize] ^= 1 << random.below(8);
        list.at(32, |list| {
            for map in [&whole, &damaged] {
                let _ = list.check(map);
                let _ = list.walk(map, &random.address()[..4]);
                written(list, map, |bytes| vec![bytes + 3]);
                let _ = list.compare([map, &other], |bytes| vec![bytes + 3]);
            }
        });
    }
}

pub fn cases(list: &mut List, tables: &mut Tables) {
    teaching(list, tables);
    reasons(list);
    lengths(list, tables);
    no_widths(list, tables);
    comparisons(list);
    refused(list);
    sample(list);
}
