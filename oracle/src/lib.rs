//! The original, unchanged, from the folder of the papers beside this repository.
#[allow(dead_code)]
#[path = "../../../shared/docs/src/crates/rbitcoin-net/src/asmap.rs"]
pub mod asmap;
#[allow(dead_code)]
#[path = "../../../shared/docs/src/crates/rbitcoin-net/src/netaddr.rs"]
pub mod netaddr;
#[path = "../../../shared/docs/src/crates/rbitcoin-net/src/netgroup.rs"]
pub mod netgroup;

/// Stands in for the original's error.rs, which names further crates: the one error that netaddr.rs makes.
pub mod error {
    #[derive(Debug)]
    pub enum NetError {
        Encode(String),
    }
}

pub mod building;
pub mod changes;
pub mod codes;
pub mod cuts;
pub mod document;
pub mod filters;
pub mod listing;
pub mod loads;
pub mod page;
pub mod picks;
pub mod records;
pub mod scan;
pub mod width;

pub use codes::instruction;

/// The test maps, by name.
pub const MAPS: [(&str, &[u8]); 11] = [
    ("TWO_PREFIX_ASMAP", asmap::TWO_PREFIX_ASMAP),
    ("LOOPBACK_ASMAP", asmap::LOOPBACK_ASMAP),
    ("LONE_RETURN_ASMAP", asmap::LONE_RETURN_ASMAP),
    ("ASMAP_SECOND_DEFAULT", asmap::ASMAP_SECOND_DEFAULT),
    ("ASMAP_TRAILING_ONE", asmap::ASMAP_TRAILING_ONE),
    ("ASMAP_EIGHT_TRAILING_ZEROS", asmap::ASMAP_EIGHT_TRAILING_ZEROS),
    ("ASMAP_TWO_SHORT_MATCHES", asmap::ASMAP_TWO_SHORT_MATCHES),
    ("ASMAP_MATCH_PAST_END", asmap::ASMAP_MATCH_PAST_END),
    ("ASMAP_JUMP_PAST_FILE", asmap::ASMAP_JUMP_PAST_FILE),
    ("ASMAP_JUMP_SHORT_TAIL", asmap::ASMAP_JUMP_SHORT_TAIL),
    ("ASMAP_JUMP_OFF_END", asmap::ASMAP_JUMP_OFF_END),
];

/// Document 01's examples of what the check refuses, in hexadecimal.
pub const EXAMPLES: [&str; 9] =
    ["", "01", "01 fb 03 00", "fb", "07 00 00", "00 00 00 00", "fd 71 3a 00 00", "01 01", "63 00 00 00"];

/// A map cut in an opcode, which none of those is since document 02 (CR 5) tells it from `fb`: a MATCH of two zeros, and a one.
pub const CUT_IN_AN_OPCODE: &str = "8b";

/// The original's map of any bytes, past its check, so that its walk has a say on refused maps too: a struct of one field has the bytes
/// of that field.
pub fn past_its_check(map: &[u8]) -> asmap::AsMap {
    unsafe { std::mem::transmute::<Vec<u8>, asmap::AsMap>(map.to_vec()) }
}

/// Bytes written in hexadecimal, with spaces between them.
pub fn bytes(hex: &str) -> Vec<u8> {
    hex.split_whitespace().map(|byte| u8::from_str_radix(byte, 16).expect("two digits")).collect()
}
