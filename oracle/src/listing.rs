//! Document 02's listing (CR 1), worked through from its sentences on the original's decoders: down the tree by places, with the prefix
//! that leads there, in the order that is easiest to follow; what was found is put in order at the end. The original has no such call, but
//! its walk says what a record has to say: `hold` asks it. So it does at width 32 too: no walk of a map that is accepted there asks for a
//! bit behind the first 32, so the original's walk by these and any 96 more ends as the walk at 32 does.
use crate::asmap::{bit_width, AsMap, DEFAULT, JUMP, MATCH};
use crate::document::{check_bits, instruction_at, Refusal, Verdict};
use crate::width::{Width, W128};
use maps::Random;

/// The bytes of a record.
pub const RECORD: usize = 24;

/// The addresses that begin as `first` does, for `length` bits, and their number. On the way to a record the number is the default.
#[derive(Clone, Copy, Debug, PartialEq)]
pub struct Prefix {
    pub first: u128,
    pub length: u32,
    pub number: u32,
}

impl Prefix {
    /// The half of it whose next bit is this one.
    fn with(self, bit: u32) -> Prefix {
        assert!(self.length < 128, "an accepted map uses no more bits than there are");
        Prefix { first: self.first | u128::from(bit) << (127 - self.length), length: self.length + 1, ..self }
    }

    /// Its last address: all bits behind the prefix are ones.
    pub fn last(self) -> u128 {
        self.first | u128::MAX.checked_shr(self.length).unwrap_or(0)
    }

    /// Its first address, length, three zeros, number.
    pub fn record(self) -> [u8; RECORD] {
        let mut bytes = [0; RECORD];
        bytes[..16].copy_from_slice(&self.first.to_be_bytes());
        bytes[16] = self.length as u8;
        bytes[20..].copy_from_slice(&self.number.to_le_bytes());
        bytes
    }

    pub fn of_record(bytes: &[u8]) -> Prefix {
        let first = u128::from_be_bytes(bytes[..16].try_into().expect("16 bytes"));
        let number = u32::from_le_bytes(bytes[20..RECORD].try_into().expect("4 bytes"));
        Prefix { first, length: u32::from(bytes[16]), number }
    }
}

/// What the instructions from a place on tell apart under a prefix.
fn found_at(map: &[u8], place: usize, mut under: Prefix, found: &mut Vec<Prefix>) {
    let mut next = place;
    let (opcode, operand) = instruction_at(&mut next, map).expect("an accepted map's instruction");
    match opcode {
        JUMP => {
            found_at(map, next, under.with(0), found);
            found_at(map, next + operand as usize, under.with(1), found);
        }
        MATCH => {
            for k in (0..bit_width(operand) - 1).rev() {
                let asked = operand >> k & 1;
                found.push(under.with(1 - asked));
                under = under.with(asked);
            }
            found_at(map, next, under, found);
        }
        DEFAULT => found_at(map, next, Prefix { number: operand, ..under }, found),
        _ => found.push(Prefix { number: operand, ..under }),
    }
}

/// Every prefix that an accepted map tells apart, rising by address.
pub fn list_accepted(map: &[u8]) -> Vec<Prefix> {
    let mut found = vec![];
    found_at(map, 0, Prefix { first: 0, length: 0, number: 0 }, &mut found);
    found.sort_by_key(|prefix| prefix.first);
    found
}

/// The same of any map, or the check's refusal.
pub fn list(map: &[u8]) -> Result<Vec<Prefix>, Refusal> {
    list_bits(map, W128)
}

pub fn list_bits(map: &[u8], width: Width) -> Result<Vec<Prefix>, Refusal> {
    if let Verdict::Refused(reason) = check_bits(map, width) {
        return Err(reason);
    }
    let prefixes = list_accepted(map);
    assert!(prefixes.iter().all(|prefix| prefix.length <= width.bits()), "a prefix longer than addresses are: {map:02x?}");
    Ok(prefixes)
}

pub fn records(prefixes: &[Prefix]) -> Vec<u8> {
    let mut bytes = Vec::with_capacity(RECORD * prefixes.len());
    prefixes.iter().for_each(|prefix| bytes.extend_from_slice(&prefix.record()));
    bytes
}

/// The one of a listing that an address lies in: the last that does not begin behind it.
pub fn prefix_of(prefixes: &[Prefix], address: u128) -> Option<Prefix> {
    prefixes[..prefixes.partition_point(|prefix| prefix.first <= address)].last().copied()
}

/// Each begins where the one before it ends, the first at the first address, and the last ends at the last one.
pub fn assert_tiling(prefixes: &[Prefix]) {
    let mut next = Some(0);
    for prefix in prefixes {
        assert_eq!(next, Some(prefix.first), "begins elsewhere: {prefix:x?}");
        assert_eq!(prefix.first & (prefix.first ^ prefix.last()), 0, "a one past the prefix: {prefix:x?}");
        next = prefix.last().checked_add(1);
    }
    assert_eq!(next, None, "the last prefix does not end at the last address");
}

/// Holds a listing to the original's walk: of the first and the last address of each prefix, of one drawn in it, and of some drawn
/// anywhere.
pub fn hold(map: &[u8], prefixes: &[Prefix], random: &mut Random) {
    assert_tiling(prefixes);
    let original = AsMap::from_bytes(map.to_vec()).expect("a map that the check accepts");
    let walked = |address: u128| original.interpret_ip16(&address.to_be_bytes());
    for prefix in prefixes {
        let inside = prefix.first | u128::from_be_bytes(random.address()) & (prefix.first ^ prefix.last());
        for address in [prefix.first, prefix.last(), inside] {
            assert_eq!(walked(address), prefix.number, "the original's number for {address:x} by {map:02x?}");
        }
    }
    for _ in 0..16 {
        let address = u128::from_be_bytes(random.address());
        let number = prefix_of(prefixes, address).map(|prefix| prefix.number);
        assert_eq!(number, Some(walked(address)), "the original's number for {address:x} by {map:02x?}");
    }
}
