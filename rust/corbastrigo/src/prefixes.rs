use crate::records::{number_at, write, write_into, Call};
use crate::Refusal;
use corbastrigo_sys as sys;

/// The bytes of a prefix's record: 16 address bytes, the length, three zeros, the number of four bytes little-endian.
pub const PREFIX_BYTES: usize = 24;

/// A prefix that a map tells apart: all addresses in it are sent to one number.
#[derive(Clone, Copy, Debug, PartialEq, Eq)]
pub struct Prefix {
    /// The first address in it, IPv4 in its mapped form; of a map of 32 address bits the first 4 bytes are the address. The bits past the
    /// length are 0.
    pub address: [u8; 16],
    /// How many bits all its addresses begin with alike, 0 to the width. Of an IPv4 prefix it is 96 more than one writes, and as one writes
    /// it at width 32.
    pub length: u8,
    /// The number that its addresses are sent to. 0 is not "unmapped": their walks differ at a MATCH before any DEFAULT was met.
    pub number: u32,
}

impl Prefix {
    /// The record of a prefix, as [`list`] writes it and [`build`](crate::build()) takes it.
    pub fn record(self) -> [u8; PREFIX_BYTES] {
        let mut record = [0; PREFIX_BYTES];
        record[..16].copy_from_slice(&self.address);
        record[16] = self.length;
        record[20..].copy_from_slice(&self.number.to_le_bytes());
        record
    }
}

/// The prefixes that records list, whole records only.
pub fn prefixes(records: &[u8]) -> impl Iterator<Item = Prefix> + '_ {
    records.chunks_exact(PREFIX_BYTES).map(|record| {
        let mut address = [0; 16];
        address.copy_from_slice(&record[..16]);
        Prefix { address, length: record[16], number: number_at(record, 20) }
    })
}

/// How many bytes the list of a map has, or the check's reason.
///
/// ```
/// use corbastrigo::{list_bytes, Refusal, PREFIX_BYTES};
///
/// // A lone RETURN: one prefix, of no bits.
/// assert_eq!(list_bytes(&[0, 0, 0]), Ok(PREFIX_BYTES));
/// assert_eq!(list_bytes(&[0, 0]), Err(Refusal::CutOperand));
/// ```
pub fn list_bytes(map: &[u8]) -> Result<usize, Refusal> {
    // SAFETY: the slice gives its own pointer and length; the number is borrowed for the call and is nobody else's.
    counted(|bytes| unsafe { sys::corbastrigo_list_bytes(map.as_ptr(), map.len(), bytes) })
}

/// [`list_bytes`] of a map of `width` address bits, 32 or 128: 18, or the check's reason at that width.
pub fn list_bytes_bits(map: &[u8], width: u32) -> Result<usize, Refusal> {
    // SAFETY: as in `list_bytes`.
    counted(|bytes| unsafe { sys::corbastrigo_list_bytes_bits(map.as_ptr(), map.len(), width, bytes) })
}

/// How many bytes a call says, which is handed the number to write.
fn counted(call: impl FnOnce(&mut usize) -> u8) -> Result<usize, Refusal> {
    let mut bytes = 0;
    Refusal::check(call(&mut bytes))?;
    Ok(bytes)
}

/// Lists every prefix that an accepted map tells apart, as records ([`list`] says which). The bytes written, or the check's reason, or 14.
/// Bytes past what is written remain.
pub fn list_into(map: &[u8], out: &mut [u8]) -> Result<usize, Refusal> {
    write_into(Call::Records(sys::corbastrigo_list), map, out)
}

/// [`list_into`] of a map of `width` address bits, 32 or 128: 18, then the check's reason at that width, or 14.
pub fn list_into_bits(map: &[u8], width: u32, out: &mut [u8]) -> Result<usize, Refusal> {
    write_into(Call::Bits(sys::corbastrigo_list_bits, width), map, out)
}

/// Every prefix that an accepted map tells apart, as records, or the check's reason.
///
/// They rise by address, and every address lies in just one of them, which has the number of its walk. Each RETURN makes one, and each bit
/// of a MATCH one for the side that differs, with the default of that path. Neighbours with the same number are not joined, so that two
/// maps may send every address alike and have other lists. A map of n bytes has at most 32n / 9 prefixes.
///
/// ```
/// use corbastrigo::{list, prefixes, Prefix, Refusal};
///
/// // A MATCH of one bit, 0, and a RETURN of 7: where the first bit of an address is 1, it differs before any DEFAULT was met.
/// let records = list(&[0x03, 0x00, 0x18])?;
/// let mut half = [0; 16];
/// let zero = Prefix { address: half, length: 1, number: 7 };
/// half[0] = 0x80;
/// let one = Prefix { address: half, length: 1, number: 0 };
/// assert_eq!(prefixes(&records).collect::<Vec<_>>(), [zero, one]);
/// assert_eq!(records, [zero.record(), one.record()].concat());
/// # Ok::<(), Refusal>(())
/// ```
pub fn list(map: &[u8]) -> Result<Vec<u8>, Refusal> {
    write(Call::Records(sys::corbastrigo_list), map, list_bytes(map)?)
}

/// [`list`] of a map of `width` address bits, 32 or 128: 18, or the check's reason at that width. At 32 the first 4 of the 16 address bytes
/// are the address, the others are 0, and the length is 0 to 32.
///
/// ```
/// use corbastrigo::{list_bits, prefixes, Refusal};
///
/// // A MATCH of one bit, 0, and a RETURN of 7: 0.0.0.0/1 is sent to 7, 128.0.0.0/1 to no number.
/// let records = list_bits(&[0x03, 0x00, 0x18], 32)?;
/// let listed: Vec<_> = prefixes(&records).map(|prefix| (prefix.address[0], prefix.length, prefix.number)).collect();
/// assert_eq!(listed, [(0, 1, 7), (128, 1, 0)]);
/// # Ok::<(), Refusal>(())
/// ```
pub fn list_bits(map: &[u8], width: u32) -> Result<Vec<u8>, Refusal> {
    write(Call::Bits(sys::corbastrigo_list_bits, width), map, list_bytes_bits(map, width)?)
}
