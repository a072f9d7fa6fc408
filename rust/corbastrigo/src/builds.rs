use crate::memory::zeros;
use crate::records::MOST_BITS;
use crate::{Refusal, MAX_MAP_BYTES, PREFIX_BYTES};
use corbastrigo_sys as sys;

/// The most bits of a RETURN: its opcode, nine ones, and the 24 bits of the greatest numbers.
const MOST_RETURN_BITS: usize = 34;

/// The most address bits, and so the most JUMPs that one record brings: one above it for each of its bits.
const MOST_JUMPS: usize = 128;

/// Builds the map of records of prefixes over `width` address bits ([`build`] says which). The bytes written, or 18, 21, 22, 1, 14. Bytes
/// past what is written remain; [`MAX_MAP_BYTES`] are always enough, and no call tells before how many it will be.
pub fn build_into(records: &[u8], given: u32, width: u32, out: &mut [u8]) -> Result<usize, Refusal> {
    let mut written = 0;
    let (from, to) = (records.as_ptr(), out.as_mut_ptr());
    // SAFETY: the slices give their own pointers and lengths; `out` is borrowed alone, and the number is nobody else's.
    let answer = unsafe { sys::corbastrigo_build(from, records.len(), given, width, to, out.len(), &mut written) };
    Refusal::check(answer)?;
    Ok(written)
}

/// The map of records of prefixes over `width` address bits, 32 or 128, in which all other addresses are sent to the number `given`: what
/// [`list`](crate::list()) takes apart, put together again, with what was changed in between.
///
/// Records rise by address, and none lies in another. Where all addresses of a subtree have one number the map has a RETURN, elsewhere a JUMP
/// with a half for either bit. So neighbours of one number are joined, a gap of the given number with them, the same numbers make the same
/// bytes whatever the records are, and no records make a lone RETURN. Every map that is built is accepted at the width, and every address is
/// sent to the number of its record, or to `given`.
///
/// Refusals: 18 for a width that is neither, first of all; 21 for bytes that are no multiple of 24; then for each record 21 for a prefix that is
/// wrong or does not rise, and 22 for a number outside 1 to 33,521,664; 22 for such a `given`; 1 where the map would be longer than
/// [`MAX_MAP_BYTES`]; and 14 where there is no memory for it. [`refused_record`] tells which record it is.
///
/// A list may hold the number 0, of addresses whose walk differed before a DEFAULT was met. No map that is built holds it: leave those records
/// out, and their addresses are sent to `given`, or give them a number of their own.
///
/// [`AsMap::build`](crate::AsMap::build) and [`AsMap4::build`](crate::AsMap4::build) make a map of [`Prefix`](crate::Prefix)es that groups
/// and walks take.
///
/// ```
/// use corbastrigo::{build, list, prefixes, Prefix, Refusal};
///
/// // 8000::/2 is sent to 7, c000::/2 to 7 too, and everything else to 1: two prefixes are told apart.
/// let mut address = [0; 16];
/// address[0] = 0x80;
/// let first = Prefix { address, length: 2, number: 7 };
/// address[0] = 0xc0;
/// let second = Prefix { address, length: 2, number: 7 };
/// let map = build(&[first.record(), second.record()].concat(), 1, 128)?;
/// // A JUMP over 17 bits, RETURN 1, RETURN 7.
/// assert_eq!(map, [0x01, 0x00, 0x00, 0x00, 0x80, 0x01]);
/// let joined = Prefix { length: 1, ..first };
/// let rest = Prefix { address: [0; 16], length: 1, number: 1 };
/// assert_eq!(prefixes(&list(&map)?).collect::<Vec<_>>(), [rest, joined]);
/// assert_eq!(build(&list(&map)?, 5, 128)?, map);
/// assert_eq!(build(&[], 1, 128)?, [0, 0, 0]);
/// assert_eq!(build(&[second.record(), first.record()].concat(), 1, 128), Err(Refusal::Prefix));
/// assert_eq!(build(&first.record(), 0, 128), Err(Refusal::Number));
/// # Ok::<(), Refusal>(())
/// ```
pub fn build(records: &[u8], given: u32, width: u32) -> Result<Vec<u8>, Refusal> {
    // Where there is no memory there is no room, which the call refuses last.
    let mut out = zeros(most_bytes(records)).unwrap_or_default();
    let written = build_into(records, given, width, &mut out)?;
    out.truncate(written);
    out.shrink_to_fit();
    Ok(out)
}

/// The most bytes that the map of so many records can have. No call tells how many it has, so it is lent as many as it may need: of a few
/// records that is little, and of many the limit of a map, of which what is not used is never made (`zeros`).
///
/// A JUMP stands where a subtree has several numbers, so above some record, and a record has as many such subtrees above it as it has bits.
/// There is one RETURN more than there are JUMPs.
fn most_bytes(records: &[u8]) -> usize {
    let jumps = (records.len() / PREFIX_BYTES).saturating_mul(MOST_JUMPS);
    let bits = jumps.saturating_mul(MOST_BITS + MOST_RETURN_BITS).saturating_add(MOST_RETURN_BITS);
    bits.div_ceil(8).min(MAX_MAP_BYTES)
}

/// The first record that [`build`] refuses: its place, from 0, and why, 21 or 22. `None` where it refuses no record: what it refuses then is the
/// width, the number of bytes, the given number or the map's length.
///
/// It is found by building the first so many records, with no room for a map, until one more of them is one too many: some twenty times for a
/// million.
///
/// ```
/// use corbastrigo::{refused_record, Prefix, Refusal};
///
/// let listed = [(0x20, 7), (0x40, 0), (0x30, 7)].map(|(byte, number)| {
///     let mut address = [0; 16];
///     address[0] = byte;
///     Prefix { address, length: 8, number }.record()
/// });
/// assert_eq!(refused_record(&listed.concat(), 128), Some((1, Refusal::Number)));
/// assert_eq!(refused_record(&[listed[0], listed[2], listed[0]].concat(), 128), Some((2, Refusal::Prefix)));
/// assert_eq!(refused_record(&[listed[0], listed[2]].concat(), 128), None);
/// ```
pub fn refused_record(records: &[u8], width: u32) -> Option<(usize, Refusal)> {
    // The given number comes after the records, and the output after it: 14 says that nothing is wrong with either.
    let refusal = |count: usize| match build_into(&records[..count * PREFIX_BYTES], 1, width, &mut []) {
        Err(refusal @ (Refusal::Prefix | Refusal::Number)) => Some(refusal),
        _ => None,
    };
    let (mut right, mut refused) = (0, records.len() / PREFIX_BYTES);
    let mut found = refusal(refused)?;
    while refused - right > 1 {
        let middle = right + (refused - right) / 2;
        match refusal(middle) {
            Some(refusal) => (refused, found) = (middle, refusal),
            None => right = middle,
        }
    }
    Some((right, found))
}

#[cfg(test)]
mod tests {
    use super::*;

    #[test]
    fn room_for_a_map_is_a_multiple_of_its_records_up_to_the_limit() {
        assert_eq!((most_bytes(&[]), most_bytes(&[0; 23]), most_bytes(&[0; 24])), (5, 5, 1_461));
        assert_eq!(most_bytes(&vec![0; 24 * 11_522]), 1_456 * 11_522 + 5);
        assert_eq!(most_bytes(&vec![0; 24 * 11_523]), MAX_MAP_BYTES);
    }
}
