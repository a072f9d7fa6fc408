//! Listings: every prefix that a map tells apart, and how many bytes that takes. What is written is compared with document 02 worked
//! through (`oracle::listing`), and then, as the library wrote it, with the walks of the original.
use crate::calls::{self, BEFORE_SIZE};
use crate::programs::{followed, left, number, Known};
use crate::tally::Tally;
use maps::Random;
use oracle::document::{Refusal, Verdict};
use oracle::listing::{self, Prefix, RECORD};

/// Document 02's records, or the check's refusal.
fn made(known: &Known) -> Result<Vec<u8>, Refusal> {
    if let Verdict::Refused(reason) = known.verdict {
        return Err(reason);
    }
    let prefixes = listing::list_accepted(known.map);
    listing::assert_tiling(&prefixes);
    Ok(listing::records(&prefixes))
}

/// Both calls, with outputs that fit, that are one byte short, that are longer, and that are none. Hands back the prefixes as the library
/// has them: none where it refuses the map.
pub fn list(tally: &mut Tally, known: &Known) -> Vec<Prefix> {
    let made = made(known);
    let bytes = made.as_ref().map_or(RECORD, Vec::len);
    let needed = made.as_ref().map_or_else(|&reason| (number(reason), BEFORE_SIZE), |made| (0, made.len()));
    tally.same("bytes of a list", &known.map, calls::list_bytes(known.map), needed);
    for room in [bytes - 1, bytes + 5, 0] {
        tally.same("list", &(known.map, room), calls::list(known.map, room), left(&made, room));
    }
    let fitting = calls::list(known.map, bytes);
    let records = if fitting.0 == 0 { &fitting.2[..] } else { &[] };
    let prefixes = records.chunks(RECORD).map(Prefix::of_record).collect();
    tally.same("list", &(known.map, bytes), fitting, left(&made, bytes));
    prefixes
}

/// The prefix that an address is found in holds it, and carries the number of the original's walk.
fn found(tally: &mut Tally, known: &Known, prefixes: &[Prefix], address: u128) {
    let prefix = listing::prefix_of(prefixes, address);
    let holds = prefix.is_some_and(|prefix| (prefix.first..=prefix.last()).contains(&address));
    let walked = known.original.interpret_ip16(&address.to_be_bytes());
    let number = prefix.map(|prefix| prefix.number);
    tally.same("prefix of an address", &(known.map, address), (holds, number), (true, Some(walked)));
}

/// Random addresses, and addresses that the map leads to its leaves.
pub fn drawn(tally: &mut Tally, random: &mut Random, known: &Known, prefixes: &[Prefix], count: usize) {
    for _ in 0..count {
        found(tally, known, prefixes, u128::from_be_bytes(random.address()));
        found(tally, known, prefixes, u128::from_be_bytes(followed(known.map, random)));
    }
}

/// The first and the last address of every prefix, or of one in so many.
pub fn edges(tally: &mut Tally, known: &Known, prefixes: &[Prefix], step: usize) {
    for prefix in prefixes.iter().step_by(step) {
        found(tally, known, prefixes, prefix.first);
        found(tally, known, prefixes, prefix.last());
    }
}
