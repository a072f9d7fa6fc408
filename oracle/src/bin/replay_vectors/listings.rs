//! Listings of prefixes: of small maps that show how records come about, of the check's maps, and of maps cut short.
use crate::list::List;
use crate::programs::{bits, nested};
use crate::tables::Tables;
use oracle::asmap::{pack_le, LOOPBACK_ASMAP, TWO_PREFIX_ASMAP};
use oracle::bytes;
use oracle::document::Refusal;
use oracle::listing::{Prefix, RECORD};
use std::net::Ipv6Addr;

/// Maps as text, each with what it shows.
pub const TEXTS: [(&str, &str); 14] = [
    ("a lone RETURN tells nothing apart", "R1"),
    ("a JUMP: the side of 0, then the side of 1", "J17 R1 R2"),
    ("records of one number are not joined", "J17 R1 R1"),
    ("a JUMP on the side of 0", "J42 J17 R1 R2 R3"),
    ("a JUMP on the side of 1", "J17 R1 J17 R2 R3"),
    ("a MATCH of a zero: the side that differs comes after what follows", "M2 R1"),
    ("a MATCH of a one: the side that differs comes before what follows", "M3 R1"),
    ("a MATCH of 1010: both, a record for each bit", "M26 R1"),
    ("a default: the sides that differ have it", "D7 M26 R1"),
    ("no default before the first is met", "M26 D7 M3 R1"),
    ("a default in the place of another", "D7 M2 D8 M3 R1"),
    ("a default that holds past a JUMP, on both sides", "D7 J22 M2 R1 M3 R2"),
    ("a default set on the side of 0, which the side of 1 does not know", "J41 D7 M2 R1 M2 R2"),
    ("the greatest numbers", "D33521664 M2 R33521664"),
];

/// Refused, before an output is looked at.
const REFUSED: [&str; 3] = ["01", "07 00 00", "00 00 00 00"];

/// Just long enough, one byte longer, one shorter, and none.
fn rooms(bytes: usize) -> Vec<usize> {
    vec![bytes, bytes + 1, bytes - 1, 0]
}

fn said(prefix: &Prefix) -> String {
    format!("  {}/{} {}", Ipv6Addr::from(prefix.first), prefix.length, prefix.number)
}

/// The rows of a listing; of one that is longer than `most`, its ends.
fn rows(tables: &mut Tables, name: &str, listed: &Result<Vec<Prefix>, Refusal>, most: usize) {
    let prefixes = match listed {
        Err(reason) => return tables.row("list", format!("{name}: refused {reason}")),
        Ok(prefixes) => prefixes,
    };
    tables.row("list", format!("{name}: {} bytes", RECORD * prefixes.len()));
    tables.ends("list", prefixes.iter().map(said).collect(), most);
}

/// Each shows something: it stands in the table, and in the list with every output.
fn teaching(list: &mut List, tables: &mut Tables) {
    list.heading("listings of small maps: outputs just long enough, longer, shorter, and none");
    for (name, text) in TEXTS {
        let listed = list.list(&pack_le(&bits(text)), rooms);
        rows(tables, &format!("{name} ({text})"), &listed, 8);
    }
    for hex in REFUSED {
        rows(tables, hex, &list.list(&bytes(hex), rooms), 8);
    }
    list.heading("listings that are 128 bits deep, into outputs longer than needed");
    let longer = |bytes| vec![bytes + 1];
    for (name, map) in [
        ("128 nested jumps, each on the side of 0 of the one before", nested(128)),
        ("sixteen MATCHes of a byte of zeros (x16 M256 R1)", pack_le(&bits("x16 M256 R1"))),
        ("sixteen MATCHes of a byte of ones (x16 M511 R1)", pack_le(&bits("x16 M511 R1"))),
        ("sixteen MATCHes of 10101010 with defaults (x16 D7,M426 R1)", pack_le(&bits("x16 D7,M426 R1"))),
    ] {
        rows(tables, name, &list.list(&map, longer), 8);
    }
    for (name, map) in [("TWO_PREFIX_ASMAP", TWO_PREFIX_ASMAP), ("LOOPBACK_ASMAP", LOOPBACK_ASMAP)] {
        rows(tables, name, &list.list(map, longer), usize::MAX);
    }
}

/// Cut at each byte: every reason that a lost page can have.
fn cuts(list: &mut List, name: &str, map: &[u8]) {
    list.heading(&format!("listings of {name}, cut at each byte"));
    for bytes in 0..map.len() {
        let listed = list.list(&map[..bytes], |record| vec![record]);
        assert!(listed.is_err(), "a cut map is refused");
    }
}

pub fn cases(list: &mut List, tables: &mut Tables) {
    teaching(list, tables);
    cuts(list, "TWO_PREFIX_ASMAP", TWO_PREFIX_ASMAP);
    cuts(list, "LOOPBACK_ASMAP", LOOPBACK_ASMAP);
}
