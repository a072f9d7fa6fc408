//! Lists of prefixes to build maps from (document 02, CR 8), as records of 24 bytes: rising by address, no two with an address in common.
use crate::Random;

/// The bytes of a record.
pub const RECORD: usize = 24;

/// The least and the greatest number that a record of such a list may have.
pub const NUMBERS: [u32; 2] = [1, 33_521_664];

/// Address bytes, prefix length, three zeros, number. An address of 32 bits stands in the highest bits of `first`.
pub fn record(first: u128, length: u32, number: u32) -> [u8; RECORD] {
    let mut bytes = [0; RECORD];
    bytes[..16].copy_from_slice(&first.to_be_bytes());
    bytes[16] = length as u8;
    bytes[20..].copy_from_slice(&number.to_le_bytes());
    bytes
}

/// The first of the addresses that share so many bits with one.
pub fn first_of(address: u128, length: u32) -> u128 {
    address & !u128::MAX.checked_shr(length).unwrap_or(0)
}

/// A number that a RETURN can have: few of them, so that neighbours often have the same, or any.
fn number(random: &mut Random, few: u64) -> u32 {
    match random.below(50) {
        0 => NUMBERS[random.below(2) as usize],
        1..=3 => 1 + random.below(u64::from(NUMBERS[1])) as u32,
        _ => 1 + random.below(few) as u32,
    }
}

/// What a list is drawn by: how many bits an address has, and from how many numbers most records have theirs.
#[derive(Clone, Copy)]
pub struct Drawn {
    pub width: u32,
    pub numbers: u64,
}

impl Drawn {
    /// About so many records under a prefix: they are shared out to its halves, and the last one takes the whole prefix or a part of it.
    fn grow(self, random: &mut Random, [first, length]: [u128; 2], records: u64, list: &mut Vec<u8>) {
        let bits = length as u32;
        if records == 0 {
            return;
        }
        if bits == self.width || records == 1 && random.percent(60) {
            return list.extend(record(first, bits, number(random, self.numbers)));
        }
        if records == 1 {
            let deeper = bits + 1 + random.below(u64::from(self.width - bits)) as u32;
            let inside = first | first_of(u128::from_be_bytes(random.address()), deeper) & u128::MAX.checked_shr(bits).unwrap_or(0);
            return self.grow(random, [inside, deeper.into()], 1, list);
        }
        let zero = if random.percent(20) { records * random.below(2) } else { records * (30 + random.below(41)) / 100 };
        self.grow(random, [first, length + 1], zero, list);
        self.grow(random, [first | 1 << (127 - bits), length + 1], records - zero, list);
    }

    /// At most so many records, in a few of which neighbours fill a prefix.
    pub fn tree(self, random: &mut Random, records: u64) -> Vec<u8> {
        let mut list = vec![];
        self.grow(random, [0, 0], records, &mut list);
        list
    }

    /// As a tree, in which all records lie near each other: they share some bits that were drawn.
    pub fn near(self, random: &mut Random, records: u64) -> Vec<u8> {
        let shared = random.below(u64::from(self.width)) as u32;
        let first = first_of(u128::from_be_bytes(random.address()), shared);
        let mut list = vec![];
        self.grow(random, [first, shared.into()], records, &mut list);
        list
    }

    /// Records anywhere, of lengths from one to another; of those that overlap the first by address stays.
    pub fn spread(self, random: &mut Random, records: usize, lengths: [u32; 2]) -> Vec<u8> {
        let draw = |_| {
            let length = lengths[0] + random.below(u64::from(lengths[1] - lengths[0] + 1)) as u32;
            (first_of(u128::from_be_bytes(random.address()), length), length, number(random, self.numbers))
        };
        apart((0..records).map(draw).collect())
    }
}

/// Prefixes as records, put in order. Of those that overlap, the one that begins first stays, and of two that begin together the shorter.
pub fn apart(mut prefixes: Vec<(u128, u32, u32)>) -> Vec<u8> {
    prefixes.sort_unstable();
    let (mut list, mut next) = (vec![], Some(0));
    for (first, length, number) in prefixes {
        if next.is_some_and(|next| next <= first) {
            list.extend(record(first, length, number));
            next = (first | u128::MAX.checked_shr(length).unwrap_or(0)).checked_add(1);
        }
    }
    list
}

/// A number at an edge of those that there are, or next to it.
pub fn number_at_an_edge(random: &mut Random) -> u32 {
    [0, NUMBERS[0], NUMBERS[1], NUMBERS[1] + 1, 1 << 31, u32::MAX][random.below(6) as usize]
}

/// A list with a change or two: a byte, a bit, a length, a number, two records exchanged, one twice, or its end lost. It may still be right.
pub fn damaged(random: &mut Random, list: &[u8]) -> Vec<u8> {
    let mut list = list.to_vec();
    for _ in 0..1 + random.below(2) {
        if list.is_empty() {
            return vec![0; random.below(30) as usize];
        }
        let place = random.below(list.len() as u64) as usize;
        let start = place - place % RECORD;
        let records = (list.len() - start) / RECORD;
        match random.below(8) {
            0 => list.truncate(place),
            1 => list[place] = random.next() as u8,
            2 if records > 1 => list[start..start + 2 * RECORD].rotate_left(RECORD),
            3 if records > 0 => list.extend_from_within(start..start + RECORD),
            4 if records > 0 => list[start + 16] = random.below(140) as u8,
            5 if records > 0 => list[start + 20..start + RECORD].copy_from_slice(&number_at_an_edge(random).to_le_bytes()),
            _ => list[place] ^= 1 << random.below(8),
        }
    }
    list
}
