//! Document 02's builder (CR 8), from its sentences: down the tree of all addresses, which is halved, and the records with it, until all
//! addresses that are left have one number; instructions by the original's writers. The original has no builder, but takes what is built
//! for a map: `hold` asks its check and its walk; and the listing of what was built has to say of every address what the records say.
use crate::asmap::{pack_le, sanity_check_bits, AsMap, JUMP, RETURN};
use crate::codes::instruction;
use crate::document::Refusal;
use crate::listing::{assert_tiling, list_bits, Prefix, RECORD};
use crate::width::Width;
use maps::Random;

/// "21 for record bytes no multiple of 24, and for records out of order, overlapping, longer than the width, with ones past the prefix or
/// wrong zeros."
pub const WRONG_PREFIX: Refusal = 21;

/// "22 for a number outside 1 to 33,521,664."
pub const WRONG_NUMBER: Refusal = 22;

/// The least and the greatest number.
pub const NUMBERS: [u32; 2] = [1, 33_521_664];

/// "1": a map has so many bytes at most.
pub const MOST_BYTES: usize = 16_777_216;
pub const TOO_LONG: Refusal = 1;

/// What is wrong with a record behind the one before it, where it is not its number.
fn wrong(bytes: &[u8], before: Option<Prefix>, width: Width) -> bool {
    let prefix = Prefix::of_record(bytes);
    let zeros = bytes[17..20] == [0; 3];
    let fits = prefix.length <= width.bits();
    let no_ones = prefix.first.checked_shl(prefix.length).unwrap_or(0) == 0;
    let behind = !before.is_some_and(|before| prefix.first <= before.last());
    !(zeros && fits && no_ones && behind)
}

fn in_range(number: u32) -> bool {
    (NUMBERS[0]..=NUMBERS[1]).contains(&number)
}

/// The prefixes that record bytes tell: "both after 18, the length first, 21 before 22 in each record, the given number after the records".
pub fn read(records: &[u8], given: u32, width: u32) -> Result<(Vec<Prefix>, Width), Refusal> {
    let width = Width::of(width)?;
    if records.len() % RECORD != 0 {
        return Err(WRONG_PREFIX);
    }
    let mut prefixes: Vec<Prefix> = Vec::with_capacity(records.len() / RECORD);
    for bytes in records.chunks(RECORD) {
        if wrong(bytes, prefixes.last().copied(), width) {
            return Err(WRONG_PREFIX);
        }
        let prefix = Prefix::of_record(bytes);
        if !in_range(prefix.number) {
            return Err(WRONG_NUMBER);
        }
        prefixes.push(prefix);
    }
    match in_range(given) {
        true => Ok((prefixes, width)),
        false => Err(WRONG_NUMBER),
    }
}

/// A subtree: the addresses that begin as `first` does, for `length` bits, the records that have some of them, and the number of those that
/// no record has.
struct Subtree<'a> {
    first: u128,
    length: u32,
    records: &'a [Prefix],
    given: u32,
}

impl Subtree<'_> {
    fn last(&self) -> u128 {
        Prefix { first: self.first, length: self.length, number: 0 }.last()
    }

    /// Whether every address lies in a record.
    fn is_filled(&self) -> bool {
        let mut next = self.first;
        for record in self.records {
            if next < record.first {
                return false;
            }
            if self.last() <= record.last() {
                return true;
            }
            next = record.last() + 1;
        }
        false
    }

    /// The number that all addresses have, "the given one between prefixes", where all have one.
    fn one_number(&self) -> Option<u32> {
        let number = self.records.first().map_or(self.given, |record| record.number);
        let of_records = self.records.iter().all(|record| record.number == number);
        (of_records && (number == self.given || self.is_filled())).then_some(number)
    }

    /// Where the next bit is 0, and where it is 1. A record that holds all of it is in both.
    fn halves(&self) -> [Subtree<'_>; 2] {
        let (middle, length) = (self.first | 1 << (127 - self.length), self.length + 1);
        let zero = &self.records[..self.records.partition_point(|record| record.first < middle)];
        let one = &self.records[self.records.partition_point(|record| record.last() < middle)..];
        [Subtree { records: zero, length, ..*self }, Subtree { first: middle, length, records: one, ..*self }]
    }

    /// "Where all addresses of a subtree have one number, the builder writes RETURN. Elsewhere it writes JUMP, the half with bit 0, the
    /// half with bit 1." Hands back the bits of what it wrote: those of its first half are a JUMP's operand.
    fn write(&self, out: &mut Vec<(u32, u32)>) -> Result<usize, Refusal> {
        if let Some(number) = self.one_number() {
            out.push((RETURN, number));
            return Ok(instruction(RETURN, number).len());
        }
        let place = out.len();
        out.push((JUMP, 0));
        let [zero, one] = self.halves();
        let over = zero.write(out)? as u32;
        out[place].1 = over;
        let bits = instruction(JUMP, over).len() + over as usize + one.write(out)?;
        // A part that is too long makes the whole too long, and might be longer than a JUMP can tell.
        if bits > 8 * MOST_BYTES {
            Err(TOO_LONG)
        } else {
            Ok(bits)
        }
    }
}

/// Instructions in the order written: opcode and operand.
#[derive(Clone, Debug, PartialEq)]
pub struct Built(pub Vec<(u32, u32)>);

impl Built {
    pub fn bytes(&self) -> Vec<u8> {
        pack_le(&self.0.iter().flat_map(|&(opcode, operand)| instruction(opcode, operand)).collect::<Vec<bool>>())
    }
}

/// The map of prefixes that are as they have to be, and of a number for all other addresses.
pub fn built(prefixes: &[Prefix], given: u32) -> Result<Built, Refusal> {
    let mut out = vec![];
    Subtree { first: 0, length: 0, records: prefixes, given }.write(&mut out)?;
    Ok(Built(out))
}

/// The bytes of the map, or the first refusal; the output's length is not asked for.
pub fn build(records: &[u8], given: u32, width: u32) -> Result<Vec<u8>, Refusal> {
    let (prefixes, _) = read(records, given, width)?;
    built(&prefixes, given).map(|built| built.bytes())
}

/// Addresses from one to another, and their number.
pub type Stretch = (u128, u128, u32);

/// All addresses: each prefix, and between two of them, before the first and behind the last what lies there, with the given number.
pub fn stretches(prefixes: &[Prefix], given: u32) -> Vec<Stretch> {
    let (mut all, mut next) = (vec![], Some(0));
    for prefix in prefixes {
        all.extend(next.filter(|&from| from < prefix.first).map(|from| (from, prefix.first - 1, given)));
        all.push((prefix.first, prefix.last(), prefix.number));
        next = prefix.last().checked_add(1);
    }
    all.extend(next.map(|from| (from, u128::MAX, given)));
    all
}

/// Neighbours of one number joined.
pub fn joined(stretches: &[Stretch]) -> Vec<Stretch> {
    let mut all: Vec<Stretch> = vec![];
    for &(first, last, number) in stretches {
        match all.last_mut() {
            Some(before) if before.2 == number => before.1 = last,
            _ => all.push((first, last, number)),
        }
    }
    all
}

/// The number of an address: that of the last stretch that does not begin behind it.
pub fn number_of(stretches: &[Stretch], address: u128) -> Option<u32> {
    stretches[..stretches.partition_point(|&(first, ..)| first <= address)].last().map(|&(.., number)| number)
}

/// Holds a map to the records that it is of. The original's check takes it, at its width and at 128; its walk has each record's number, and
/// the given one elsewhere, for the first and the last address of each stretch, one drawn in it, and some drawn anywhere. What the map
/// lists is what the records say, both joined by number.
pub fn hold(map: &[u8], prefixes: &[Prefix], given: u32, width: Width, random: &mut Random) {
    for bits in [width.bits(), 128] {
        assert!(sanity_check_bits(map, bits as i32), "the original refuses what is built at {bits}: {map:02x?}");
    }
    let stretches = stretches(prefixes, given);
    let listed = list_bits(map, width).expect("an accepted map");
    assert_tiling(&listed);
    assert_eq!(joined(&self::stretches(&listed, 0)), joined(&stretches), "{map:02x?}");
    let original = AsMap::from_bytes(map.to_vec()).expect("a map that the check accepts");
    let held = |address: u128, number: u32| {
        assert_eq!(original.interpret_ip16(&address.to_be_bytes()), number, "the original's number for {address:x} by {map:02x?}");
    };
    for &(first, last, number) in &stretches {
        let inside = first + u128::from_be_bytes(random.address()) % (last - first).saturating_add(1);
        [first, last, inside].into_iter().for_each(|address| held(address, number));
    }
    for _ in 0..16 {
        let address = u128::from_be_bytes(random.address());
        held(address, number_of(&stretches, address).expect("stretches have every address"));
    }
}
