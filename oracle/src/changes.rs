//! Two maps compared for every address. No document has this call: what it says follows from two listings (document 02, CR 1), and is
//! worked through here down the tree of all addresses, which is halved, and both listings with it, until each says one thing of what is
//! left. The original has no such call either, but its walk decides: `hold` asks it of both maps, where records say that they differ and
//! between them.
use crate::asmap::AsMap;
use crate::document::Refusal;
use crate::listing::{list_bits, Prefix};
use crate::width::{Width, W128};
use maps::Random;

/// The bytes of a record.
pub const RECORD: usize = 28;

/// Added to the refusal of the new map.
pub const NEW_MAP: Refusal = 100;

/// The addresses that begin as `first` does, for `length` bits, and the numbers that both maps have for them.
#[derive(Clone, Copy, Debug, PartialEq)]
pub struct Change {
    pub first: u128,
    pub length: u32,
    pub old: u32,
    pub new: u32,
}

impl Change {
    pub fn last(self) -> u128 {
        Prefix { first: self.first, length: self.length, number: 0 }.last()
    }

    /// Its first address, length, three zeros, both numbers.
    pub fn record(self) -> [u8; RECORD] {
        let mut bytes = [0; RECORD];
        bytes[..16].copy_from_slice(&self.first.to_be_bytes());
        bytes[16] = self.length as u8;
        bytes[20..24].copy_from_slice(&self.old.to_le_bytes());
        bytes[24..].copy_from_slice(&self.new.to_le_bytes());
        bytes
    }

    pub fn of_record(bytes: &[u8]) -> Change {
        let first = u128::from_be_bytes(bytes[..16].try_into().expect("16 bytes"));
        let number = |at: usize| u32::from_le_bytes(bytes[at..at + 4].try_into().expect("4 bytes"));
        Change { first, length: u32::from(bytes[16]), old: number(20), new: number(24) }
    }
}

/// A prefix as it is halved: what each listing says under it. One prefix of a listing holds all of it, or more of them fill it.
#[derive(Clone, Copy)]
struct Under<'a> {
    first: u128,
    length: u32,
    old: &'a [Prefix],
    new: &'a [Prefix],
}

/// A listing's prefixes before an address and from it on. The one that is alone holds both sides.
fn parted(prefixes: &[Prefix], at: u128) -> (&[Prefix], &[Prefix]) {
    match prefixes {
        [_] => (prefixes, prefixes),
        _ => prefixes.split_at(prefixes.partition_point(|prefix| prefix.first < at)),
    }
}

impl Under<'_> {
    fn halves(&self) -> [Under<'_>; 2] {
        let middle = self.first | 1 << (127 - self.length);
        let (old, new) = (parted(self.old, middle), parted(self.new, middle));
        let length = self.length + 1;
        [Under { first: self.first, length, old: old.0, new: new.0 }, Under { first: middle, length, old: old.1, new: new.1 }]
    }

    fn find(&self, found: &mut Vec<Change>) {
        match (self.old, self.new) {
            ([old], [new]) if old.number == new.number => {}
            ([old], [new]) => found.push(Change { first: self.first, length: self.length, old: old.number, new: new.number }),
            _ => self.halves().iter().for_each(|half| half.find(found)),
        }
    }
}

/// What differs between two listings, rising by address.
pub fn compare_listings(old: &[Prefix], new: &[Prefix]) -> Vec<Change> {
    let mut found = vec![];
    Under { first: 0, length: 0, old, new }.find(&mut found);
    found
}

/// The same of any two maps, or the check's refusal of the old one, or else of the new one.
pub fn compare(old: &[u8], new: &[u8]) -> Result<Vec<Change>, Refusal> {
    compare_bits(old, new, W128)
}

pub fn compare_bits(old: &[u8], new: &[u8], width: Width) -> Result<Vec<Change>, Refusal> {
    let old = list_bits(old, width)?;
    let new = list_bits(new, width).map_err(|reason| NEW_MAP + reason)?;
    Ok(compare_listings(&old, &new))
}

pub fn records(changes: &[Change]) -> Vec<u8> {
    let mut bytes = Vec::with_capacity(RECORD * changes.len());
    changes.iter().for_each(|change| bytes.extend_from_slice(&change.record()));
    bytes
}

/// The first address that differs, and where none does the first of all.
pub fn first_of(changes: &[Change]) -> [u8; 16] {
    changes.first().map_or(0, |change| change.first).to_be_bytes()
}

/// Addresses from one to another, and the two numbers where they differ.
pub type Stretch = (u128, u128, Option<(u32, u32)>);

/// All addresses: each change, and between two of them, before the first and behind the last what lies there.
pub fn stretches(changes: &[Change]) -> Vec<Stretch> {
    let (mut all, mut next) = (vec![], Some(0));
    for change in changes {
        all.extend(next.filter(|&from| from < change.first).map(|from| (from, change.first - 1, None)));
        all.push((change.first, change.last(), Some((change.old, change.new))));
        next = change.last().checked_add(1);
    }
    all.extend(next.map(|from| (from, u128::MAX, None)));
    all
}

/// The stretch that an address lies in: the last that does not begin behind it.
pub fn stretch_of(stretches: &[Stretch], address: u128) -> Option<Stretch> {
    stretches[..stretches.partition_point(|&(first, ..)| first <= address)].last().copied()
}

/// Each begins behind the one before it, has no ones past its prefix, and is a change.
pub fn assert_changes(changes: &[Change]) {
    let mut next = Some(0);
    for change in changes {
        assert!(next.is_some_and(|next| next <= change.first), "begins too early: {change:x?}");
        assert_eq!(change.first & (change.first ^ change.last()), 0, "a one past the prefix: {change:x?}");
        assert_ne!(change.old, change.new, "no change: {change:x?}");
        next = change.last().checked_add(1);
    }
}

/// The numbers that the original walks to by two maps, where they differ.
pub fn walked([old, new]: [&AsMap; 2], address: u128) -> Option<(u32, u32)> {
    let [old, new] = [old, new].map(|map| map.interpret_ip16(&address.to_be_bytes()));
    (old != new).then_some((old, new))
}

/// Holds changes to the original's walk by both maps: of the first and the last address of each change and of what lies between two, of one
/// drawn there, and of some drawn anywhere.
pub fn hold(maps: [&[u8]; 2], changes: &[Change], random: &mut Random) {
    assert_changes(changes);
    let [old, new] = maps.map(|map| AsMap::from_bytes(map.to_vec()).expect("a map that the check accepts"));
    let held = |address: u128, told: Option<(u32, u32)>| {
        assert_eq!(told, walked([&old, &new], address), "the original's numbers for {address:x} by {maps:02x?}");
    };
    let stretches = stretches(changes);
    for &(first, last, told) in &stretches {
        let inside = first + u128::from_be_bytes(random.address()) % (last - first).saturating_add(1);
        [first, last, inside].into_iter().for_each(|address| held(address, told));
    }
    for _ in 0..16 {
        let address = u128::from_be_bytes(random.address());
        held(address, stretch_of(&stretches, address).expect("stretches have every address").2);
    }
}
