use crate::memory::zeros;
use crate::records::number_at;
use crate::{Refusal, MAX_MAP_BYTES};
use corbastrigo_sys as sys;
use std::error::Error;
use std::fmt;

/// The bytes of a change's record: 16 address bytes, the length, three zeros, the old number and the new one, each of four bytes
/// little-endian.
pub const CHANGE_BYTES: usize = sys::CHANGE_RECORD_BYTES;

/// A prefix whose addresses two maps send to different numbers: all of them by the old map to one, by the new map to another.
#[derive(Clone, Copy, Debug, PartialEq, Eq)]
pub struct Change {
    /// The first address in it, IPv4 in its mapped form; of maps of 32 address bits the first 4 bytes are the address. The bits past the
    /// length are 0.
    pub address: [u8; 16],
    /// How many bits all its addresses begin with alike, 0 to the width. Of an IPv4 prefix it is 96 more than one writes, and as one writes
    /// it at width 32.
    pub length: u8,
    /// The number that the old map sends its addresses to. 0 is not "unmapped": their walks differ at a MATCH before any DEFAULT was met.
    pub old: u32,
    /// The number that the new map sends them to, which is another.
    pub new: u32,
}

impl Change {
    /// The record of a change, as [`compare`] writes it.
    pub fn record(self) -> [u8; CHANGE_BYTES] {
        let mut record = [0; CHANGE_BYTES];
        record[..16].copy_from_slice(&self.address);
        record[16] = self.length;
        record[20..24].copy_from_slice(&self.old.to_le_bytes());
        record[24..].copy_from_slice(&self.new.to_le_bytes());
        record
    }
}

/// The changes that records list, whole records only.
pub fn changes(records: &[u8]) -> impl Iterator<Item = Change> + '_ {
    records.chunks_exact(CHANGE_BYTES).map(|record| {
        let mut address = [0; 16];
        address.copy_from_slice(&record[..16]);
        Change { address, length: record[16], old: number_at(record, 20), new: number_at(record, 24) }
    })
}

/// Why two maps were not compared, and which of them it lies with. Nothing was written.
///
/// ```
/// use corbastrigo::{compare, CompareError, Refusal};
///
/// let error = compare(&[0, 0, 0], &[0, 0]).unwrap_err();
/// assert_eq!(error, CompareError::New(Refusal::CutOperand));
/// assert_eq!((error.refusal().number(), error.number()), (19, 119));
/// assert_eq!(error.to_string(), "the new map is refused");
/// ```
#[derive(Clone, Copy, Debug, PartialEq, Eq, Hash)]
#[non_exhaustive]
pub enum CompareError {
    /// The check refuses the old map. The new one was not looked at.
    Old(Refusal),
    /// The check accepts the old map and refuses the new one.
    New(Refusal),
    /// The call is refused for something that lies with neither map: 18, a width that is none, before either was looked at; or 14, where both
    /// are accepted, an output that is too short or for which there is no memory.
    Other(Refusal),
}

impl CompareError {
    /// The reason, whichever map it lies with.
    pub fn refusal(self) -> Refusal {
        match self {
            CompareError::Old(refusal) | CompareError::New(refusal) | CompareError::Other(refusal) => refusal,
        }
    }

    /// The number that the library answers: the refusal's, and 100 more of the new map's.
    pub fn number(self) -> u8 {
        match self {
            CompareError::New(refusal) => refusal.number().saturating_add(sys::NEW_MAP),
            CompareError::Old(refusal) | CompareError::Other(refusal) => refusal.number(),
        }
    }

    /// What a call answered, as a result: 0 is done. The width comes before both maps and the output after them, and whatever else is no
    /// reason of the new map is one of the old one, also a number that this version has no name for.
    fn check(answer: u8) -> Result<(), CompareError> {
        let of_new = answer.checked_sub(sys::NEW_MAP).and_then(Refusal::from_number);
        match (of_new, Refusal::from_number(answer)) {
            (Some(refusal), _) => Err(CompareError::New(refusal)),
            (None, Some(refusal @ (Refusal::OutputTooShort | Refusal::Width))) => Err(CompareError::Other(refusal)),
            (None, Some(refusal)) => Err(CompareError::Old(refusal)),
            (None, None) => Ok(()),
        }
    }
}

impl fmt::Display for CompareError {
    fn fmt(&self, f: &mut fmt::Formatter<'_>) -> fmt::Result {
        f.write_str(match self {
            CompareError::Old(_) => "the old map is refused",
            CompareError::New(_) => "the new map is refused",
            CompareError::Other(_) => "the maps were not compared",
        })
    }
}

impl Error for CompareError {
    fn source(&self) -> Option<&(dyn Error + 'static)> {
        match self {
            CompareError::Old(refusal) | CompareError::New(refusal) | CompareError::Other(refusal) => Some(refusal),
        }
    }
}

/// How many bytes a comparison has, and the first address that differs: zeros where none does. Without a width it is that of 128 bits.
fn counted(old: &[u8], new: &[u8], width: Option<u32>) -> Result<(usize, [u8; 16]), CompareError> {
    let (mut first, mut bytes) = ([0; 16], 0);
    let (old_at, new_at, to, room) = (old.as_ptr(), new.as_ptr(), first.as_mut_ptr(), first.len());
    // SAFETY: the slices and the array give their own pointers and lengths; array and number are borrowed for the call and are nobody else's.
    let answer = unsafe {
        match width {
            None => sys::corbastrigo_compare_bytes(old_at, old.len(), new_at, new.len(), to, room, &mut bytes),
            Some(width) => sys::corbastrigo_compare_bytes_bits(old_at, old.len(), new_at, new.len(), width, to, room, &mut bytes),
        }
    };
    CompareError::check(answer)?;
    Ok((bytes, first))
}

/// How many bytes the comparison of two maps has. 0 says that every address is sent to the same number by both.
pub fn compare_bytes(old: &[u8], new: &[u8]) -> Result<usize, CompareError> {
    counted(old, new, None).map(|(bytes, _)| bytes)
}

/// [`compare_bytes`] of two maps of `width` address bits, 32 or 128: any other width is refused, 18, before either map is looked at.
pub fn compare_bytes_bits(old: &[u8], new: &[u8], width: u32) -> Result<usize, CompareError> {
    counted(old, new, Some(width)).map(|(bytes, _)| bytes)
}

/// The first address that two maps send to different numbers. `None` says that they send every address to the same number, whatever their
/// bytes: it is the answer to whether a map can take the place of another, and nothing is written down for it.
///
/// ```
/// use corbastrigo::{first_change, CompareError};
///
/// // A RETURN of 1; the same behind a JUMP, on either side; and a MATCH of one bit, 0, with a RETURN of 1 behind it.
/// let (lone, both, half) = ([0, 0, 0], [0x01, 0, 0, 0, 0, 0], [0x03, 0, 0]);
/// assert_eq!(first_change(&lone, &both)?, None);
/// // Where the first bit is 1 the walk of the last differs before any DEFAULT was met, which is 0.
/// assert_eq!(first_change(&lone, &half)?, Some([0x80, 0, 0, 0, 0, 0, 0, 0, 0, 0, 0, 0, 0, 0, 0, 0]));
/// # Ok::<(), CompareError>(())
/// ```
pub fn first_change(old: &[u8], new: &[u8]) -> Result<Option<[u8; 16]>, CompareError> {
    counted(old, new, None).map(first_of)
}

/// [`first_change`] of two maps of `width` address bits, 32 or 128. At 32 the first 4 of the 16 bytes are the address, and the others are 0.
pub fn first_change_bits(old: &[u8], new: &[u8], width: u32) -> Result<Option<[u8; 16]>, CompareError> {
    counted(old, new, Some(width)).map(first_of)
}

/// The first address, where there is a change.
fn first_of((bytes, first): (usize, [u8; 16])) -> Option<[u8; 16]> {
    (bytes > 0).then_some(first)
}

/// Compares two accepted maps for every address, as records ([`compare`] says which). The bytes written, or the check's reason with the map
/// that it refuses, or 14. Bytes past what is written remain.
///
/// With room for a record for every prefix of both maps (`list_bytes` of each, a record for 24 bytes of it) the maps are gone through once; with
/// less they are gone through once more before that, to count.
pub fn compare_into(old: &[u8], new: &[u8], out: &mut [u8]) -> Result<usize, CompareError> {
    write_into(old, new, None, out)
}

/// [`compare_into`] of two maps of `width` address bits, 32 or 128.
pub fn compare_into_bits(old: &[u8], new: &[u8], width: u32, out: &mut [u8]) -> Result<usize, CompareError> {
    write_into(old, new, Some(width), out)
}

/// How many bytes a comparison writes to a lent output. Without a width it is that of 128 bits.
fn write_into(old: &[u8], new: &[u8], width: Option<u32>, out: &mut [u8]) -> Result<usize, CompareError> {
    let mut written = 0;
    let (old_at, new_at, to) = (old.as_ptr(), new.as_ptr(), out.as_mut_ptr());
    // SAFETY: the slices give their own pointers and lengths; `out` is borrowed alone, and the number is nobody else's.
    let answer = unsafe {
        match width {
            None => sys::corbastrigo_compare(old_at, old.len(), new_at, new.len(), to, out.len(), &mut written),
            Some(width) => sys::corbastrigo_compare_bits(old_at, old.len(), new_at, new.len(), width, to, out.len(), &mut written),
        }
    };
    CompareError::check(answer)?;
    Ok(written)
}

/// The most bytes that the comparison of two maps can have, by their lengths alone: a record for each prefix of both, and a map of n bytes has
/// at most 32n / 9. To ask how many there are takes a check of each map, a third more time where little has changed.
fn most_bytes(old: &[u8], new: &[u8]) -> usize {
    // What is longer is refused, whatever is lent to it.
    let prefixes = |map: &[u8]| map.len().min(MAX_MAP_BYTES) * 32 / 9;
    (prefixes(old) + prefixes(new)) * CHANGE_BYTES
}

/// Every prefix that two accepted maps send to different numbers, as records, or which of them the check refuses and why.
///
/// An address lies in a record just where the two maps send it to different numbers, and that record has both. No record says that they send
/// every address to the same number, whatever their bytes. The pieces are those of the two lists ([`list`](crate::list())): where two prefixes
/// overlap the longer is the piece. They rise by address and are not joined.
///
/// ```
/// use corbastrigo::{changes, compare, Change, CompareError};
///
/// // A MATCH of one bit, 0, and a RETURN of 7; and the same with a RETURN of 8.
/// let (seven, eight) = ([0x03, 0x00, 0x18], [0x03, 0x00, 0x38]);
/// let records = compare(&seven, &eight)?;
/// let change = Change { address: [0; 16], length: 1, old: 7, new: 8 };
/// assert_eq!(changes(&records).collect::<Vec<_>>(), [change]);
/// assert_eq!(records, change.record());
/// assert_eq!(compare(&seven, &seven)?, []);
/// # Ok::<(), CompareError>(())
/// ```
pub fn compare(old: &[u8], new: &[u8]) -> Result<Vec<u8>, CompareError> {
    compared(old, new, None)
}

/// [`compare`] of two maps of `width` address bits, 32 or 128, one width for both: 18, or the check's reason at that width with the map that
/// it refuses. At 32 the first 4 of the 16 address bytes are the address, the others are 0, and the length is 0 to 32.
///
/// ```
/// use corbastrigo::{changes, compare_bits, CompareError, Refusal};
///
/// // A MATCH of one bit, 0, and a RETURN of 7; and the same with a RETURN of 8.
/// let (seven, eight) = ([0x03, 0x00, 0x18], [0x03, 0x00, 0x38]);
/// let records = compare_bits(&seven, &eight, 32)?;
/// assert_eq!(changes(&records).map(|change| (change.length, change.old, change.new)).collect::<Vec<_>>(), [(1, 7, 8)]);
/// assert_eq!(compare_bits(&seven, &eight, 33), Err(CompareError::Other(Refusal::Width)));
/// # Ok::<(), CompareError>(())
/// ```
pub fn compare_bits(old: &[u8], new: &[u8], width: u32) -> Result<Vec<u8>, CompareError> {
    compared(old, new, Some(width))
}

/// The records of a comparison. Without a width it is that of 128 bits.
fn compared(old: &[u8], new: &[u8], width: Option<u32>) -> Result<Vec<u8>, CompareError> {
    let no_memory = CompareError::Other(Refusal::OutputTooShort);
    let mut out = match zeros(most_bytes(old, new)) {
        Some(out) => out,
        // There may be memory for what it is where there is none for the most that it can be.
        None => zeros(counted(old, new, width)?.0).ok_or(no_memory)?,
    };
    let written = write_into(old, new, width, &mut out)?;
    out.truncate(written);
    out.shrink_to_fit();
    Ok(out)
}

#[cfg(test)]
mod tests {
    use super::*;

    #[test]
    fn an_answer_says_which_map_it_lies_with() {
        assert_eq!(CompareError::check(0), Ok(()));
        for answer in 1..=u8::MAX {
            let error = CompareError::check(answer).expect_err("refused");
            assert_eq!(error.number(), answer);
            match error {
                CompareError::Old(refusal) => assert!(answer <= 100 && ![14, 18].contains(&answer) && refusal.number() == answer),
                CompareError::New(refusal) => assert!(answer > 100 && refusal.number() == answer - 100),
                CompareError::Other(refusal) => {
                    assert!([(14, Refusal::OutputTooShort), (18, Refusal::Width)].contains(&(answer, refusal)))
                }
            }
        }
    }
}
