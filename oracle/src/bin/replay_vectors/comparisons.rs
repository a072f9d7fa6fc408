//! Two maps compared: small ones that show where pieces come from and what is no change, the original's test maps, and refused ones.
use crate::list::List;
use crate::programs::{bits, nested};
use crate::tables::{runs, Tables};
use oracle::asmap::{pack_le, ASMAP_MATCH_PAST_END, LONE_RETURN_ASMAP, LOOPBACK_ASMAP, TWO_PREFIX_ASMAP};
use oracle::changes::{Change, NEW_MAP, RECORD};
use oracle::document::Refusal;
use oracle::{bytes, EXAMPLES};
use std::net::Ipv6Addr;

/// Two maps as text, each with what they show.
const TEXTS: [(&str, &str, &str); 21] = [
    ("the same bytes", "J17 R1 R2", "J17 R1 R2"),
    ("one number changed", "J17 R1 R2", "J17 R1 R3"),
    ("the halves of a JUMP exchanged", "J17 R1 R2", "J17 R2 R1"),
    ("a change of all addresses", "R1", "R2"),
    ("the same change side by side is not joined", "J17 R1 R1", "R2"),
    ("a RETURN halved changes nothing", "R1", "J17 R1 R1"),
    ("the new map has the longer prefixes", "R1", "M26 R1"),
    ("the old map has the longer prefixes", "M26 R1", "R1"),
    ("each has longer ones than the other", "J42 J17 R1 R2 R3", "J17 R1 J17 R2 R3"),
    ("prefixes of a MATCH inside those of a JUMP", "M26 R1", "J17 R1 R2"),
    ("MATCHes that ask for other bits", "M26 R1", "M27 R1"),
    ("a JUMP against a MATCH that says the same", "J17 R1 R7", "D7 M2 R1"),
    ("two JUMPs against a MATCH of two bits that says the same", "J42 J17 R1 R7 R7", "D7 M4 R1"),
    ("a JUMP against a MATCH with no default", "J17 R1 R7", "M2 R1"),
    ("a DEFAULT moved into both sides of a JUMP", "D7 J22 M2 R1 M3 R2", "J41 D7 M2 R1 D7 M3 R2"),
    ("a DEFAULT moved into one side, which the other misses", "D7 J22 M2 R1 M3 R2", "J41 D7 M2 R1 M3 R2"),
    ("a DEFAULT left out that was set already", "D7 M256 D7 M3 R1", "D7 M256 M3 R1"),
    ("a DEFAULT left out that no MATCH asks for", "D7 J17 R1 R2", "J17 R1 R2"),
    ("a DEFAULT left out that counts", "D7 M26 R1", "M26 R1"),
    ("a DEFAULT of another number", "D7 M26 R1", "D8 M26 R1"),
    ("the greatest number", "M2 R1", "M2 R33521664"),
];

/// Refused: the old map, the new one, and both.
const REFUSED: [(&str, &str); 7] = [
    ("01", "00 00 00"),
    ("00 00 00", "01"),
    ("01 01", "00 00 00"),
    ("00 00 00", "01 01"),
    ("01", "01 01"),
    ("01 01", "01"),
    ("00 00 00 00", "00 00 00 00"),
];

/// Just long enough, one byte longer, one shorter, and none.
fn rooms(bytes: usize) -> Vec<usize> {
    vec![bytes, bytes + 1, bytes.saturating_sub(1), 0]
}

fn said(change: &Change) -> String {
    format!("  {}/{} {} {}", Ipv6Addr::from(change.first), change.length, change.old, change.new)
}

/// The rows of a comparison; of a long one, its ends.
fn rows(tables: &mut Tables, name: &str, compared: &Result<Vec<Change>, Refusal>) {
    let changes = match compared {
        Err(reason) if *reason > NEW_MAP => {
            return tables.row("compare", format!("{name}: refused {reason}, the new map's {}", reason - NEW_MAP))
        }
        Err(reason) => return tables.row("compare", format!("{name}: refused {reason}, the old map's")),
        Ok(changes) => changes,
    };
    let from = changes.first().map_or(String::new(), |change| format!(", from {} on", Ipv6Addr::from(change.first)));
    tables.row("compare", format!("{name}: {} bytes{from}", RECORD * changes.len()));
    tables.ends("compare", changes.iter().map(said).collect(), 8);
}

/// Each shows something: it stands in the table, and in the list with every output.
fn teaching(list: &mut List, tables: &mut Tables) {
    list.heading("small maps compared: outputs just long enough, longer, shorter, and none");
    for (name, old, new) in TEXTS {
        let maps = [old, new].map(|text| pack_le(&bits(text)));
        let maps = [&maps[0][..], &maps[1]];
        rows(tables, &format!("{name} ({old}, {new})"), &list.compare(maps, rooms));
    }
    list.heading("maps that are refused, compared");
    for (old, new) in REFUSED {
        let maps = [bytes(old), bytes(new)];
        let maps = [&maps[0][..], &maps[1]];
        rows(tables, &format!("{old}, {new}"), &list.compare(maps, |record| vec![record, 0]));
        assert!(list.compare_bytes(maps, 0).is_err_and(|reason| reason != 14), "the check comes first");
    }
}

/// As deep as addresses are, and the original's test maps, into outputs longer than needed.
fn deep(list: &mut List, tables: &mut Tables) {
    list.heading("maps compared that are 128 bits deep, and the original's");
    let (jumps, zeros) = (nested(128), pack_le(&bits("x16 M256 R1")));
    let ones = pack_le(&bits("x16 M511 R1"));
    for (name, maps) in [
        ("128 nested jumps, sixteen MATCHes of a byte of zeros (x16 M256 R1)", [&jumps[..], &zeros]),
        ("sixteen MATCHes of a byte of zeros (x16 M256 R1), of ones (x16 M511 R1)", [&zeros, &ones]),
        ("TWO_PREFIX_ASMAP, LONE_RETURN_ASMAP", [TWO_PREFIX_ASMAP, LONE_RETURN_ASMAP]),
        ("LONE_RETURN_ASMAP, TWO_PREFIX_ASMAP", [LONE_RETURN_ASMAP, TWO_PREFIX_ASMAP]),
        ("TWO_PREFIX_ASMAP, LOOPBACK_ASMAP", [TWO_PREFIX_ASMAP, LOOPBACK_ASMAP]),
        ("LOOPBACK_ASMAP, LOOPBACK_ASMAP", [LOOPBACK_ASMAP, LOOPBACK_ASMAP]),
    ] {
        rows(tables, name, &list.compare(maps, |bytes| vec![bytes + 1]));
    }
}

/// Document 01's refused maps and one that uses too many bits, which it has none of: as the old one, as the new one, and as both.
fn refused(list: &mut List) {
    list.heading("refused maps compared with one that is sane, and with each other");
    let all: Vec<Vec<u8>> = EXAMPLES.iter().map(|hex| bytes(hex)).chain([ASMAP_MATCH_PAST_END.to_vec()]).collect();
    for (map, other) in all.iter().zip(all.iter().cycle().skip(1)) {
        for maps in [[&map[..], LONE_RETURN_ASMAP], [LONE_RETURN_ASMAP, map], [map, other]] {
            let refused = list.compare(maps, |record| vec![record]);
            assert!(refused.is_err(), "a map that the check refuses");
        }
    }
}

/// A number of bytes, or a refusal.
fn answer(told: Result<usize, Refusal>) -> String {
    told.map_or_else(|reason| format!("refused {reason}"), |bytes| format!("{bytes} bytes"))
}

/// One number changed: outputs of each length, for the one record and for the first address.
fn each_room(list: &mut List, tables: &mut Tables) {
    list.heading("outputs of each length for one record, and for the first address");
    let (name, old, new) = TEXTS[1];
    let maps = [old, new].map(|text| pack_le(&bits(text)));
    let maps = [&maps[0][..], &maps[1]];
    for (first, last, told) in runs((0..=RECORD + 2).map(|room| (room, answer(list.compare_into(maps, room))))) {
        tables.row("compare", format!("{name} ({old}, {new}), an output of {first} to {last} bytes: {told}"));
    }
    for (first, last, told) in runs((0..=18).map(|room| (room, answer(list.compare_bytes(maps, room))))) {
        tables.row("compare", format!("{name} ({old}, {new}), {first} to {last} bytes for the first address: {told}"));
    }
}

pub fn cases(list: &mut List, tables: &mut Tables) {
    teaching(list, tables);
    deep(list, tables);
    refused(list);
    each_room(list, tables);
}
