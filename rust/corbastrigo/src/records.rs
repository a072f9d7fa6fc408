use crate::{sanity_check, sanity_check_bits, Refusal, MAX_MAP_BYTES};
use corbastrigo_sys as sys;

/// The bytes of a record: opcode, three zeros, operand, place, length in bits, each number of four bytes little-endian.
pub const RECORD_BYTES: usize = 16;

/// The most bits of an instruction.
pub(crate) const MOST_BITS: usize = 57;

/// An instruction of a map.
#[derive(Clone, Copy, Debug, PartialEq, Eq)]
pub struct Instruction {
    /// RETURN 0, JUMP 1, MATCH 2, DEFAULT 3.
    pub opcode: u32,
    /// Its AS number, skipped bits or pattern.
    pub operand: u32,
    /// The bit of the map at which it starts.
    pub place: u32,
    /// Its length in bits.
    pub size: u32,
}

impl Instruction {
    /// The record of an instruction, as [`pack`] takes it.
    pub fn record(self) -> [u8; RECORD_BYTES] {
        let mut record = [0; RECORD_BYTES];
        for (place, number) in record.chunks_exact_mut(4).zip([self.opcode, self.operand, self.place, self.size]) {
            place.copy_from_slice(&number.to_le_bytes());
        }
        record
    }
}

/// The number of four bytes at a place of a record.
pub(crate) fn number_at(record: &[u8], at: usize) -> u32 {
    u32::from_le_bytes([record[at], record[at + 1], record[at + 2], record[at + 3]])
}

/// The instructions that records list, whole records only.
pub fn instructions(records: &[u8]) -> impl Iterator<Item = Instruction> + '_ {
    records.chunks_exact(RECORD_BYTES).map(|record| Instruction {
        opcode: number_at(record, 0),
        operand: number_at(record, 4),
        place: number_at(record, 8),
        size: number_at(record, 12),
    })
}

/// A call that makes bytes of bytes, as it is or over a number of address bits.
#[derive(Clone, Copy)]
pub(crate) enum Call {
    Records(sys::Records),
    Bits(sys::RecordsBits, u32),
}

/// How many bytes a call writes to a lent output, or its refusal.
pub(crate) fn write_into(call: Call, input: &[u8], out: &mut [u8]) -> Result<usize, Refusal> {
    let mut written = 0;
    let (from, to) = (input.as_ptr(), out.as_mut_ptr());
    // SAFETY: each `Records` and each `RecordsBits` of the library takes two slices, which give their own pointers and lengths, and a number
    // to write; `out` is borrowed alone, and the number is nobody else's.
    let answer = unsafe {
        match call {
            Call::Records(call) => call(from, input.len(), to, out.len(), &mut written),
            Call::Bits(call, width) => call(from, input.len(), width, to, out.len(), &mut written),
        }
    };
    Refusal::check(answer)?;
    Ok(written)
}

/// Lists an accepted map's instructions in order, as records. The bytes written, or the check's reason, or 14. Bytes past what is
/// written remain.
pub fn unpack_into(map: &[u8], out: &mut [u8]) -> Result<usize, Refusal> {
    write_into(Call::Records(sys::corbastrigo_unpack), map, out)
}

/// [`unpack_into`] of a map of `width` address bits, 32 or 128: 18, then the check's reason at that width, or 14.
pub fn unpack_into_bits(map: &[u8], width: u32, out: &mut [u8]) -> Result<usize, Refusal> {
    write_into(Call::Bits(sys::corbastrigo_unpack_bits, width), map, out)
}

/// Packs records into a map's bytes. The bytes written, or 16, 15, 1, 14. No check is run. Bytes past what is written remain.
pub fn pack_into(records: &[u8], out: &mut [u8]) -> Result<usize, Refusal> {
    write_into(Call::Records(sys::corbastrigo_pack), records, out)
}

/// What a call writes, which is at most so many bytes; 14 where there is no memory for them.
pub(crate) fn write(call: Call, input: &[u8], most: usize) -> Result<Vec<u8>, Refusal> {
    let mut out = Vec::new();
    out.try_reserve_exact(most).map_err(|_| Refusal::OutputTooShort)?;
    out.resize(most, 0);
    let written = write_into(call, input, &mut out)?;
    out.truncate(written);
    Ok(out)
}

/// The records of an accepted map, or the check's reason. A map of n bytes has at most 8n / 5 instructions.
///
/// ```
/// use corbastrigo::{instructions, pack, unpack, Instruction, Refusal};
///
/// let records = unpack(&[0, 0, 0])?;
/// let lone = Instruction { opcode: 0, operand: 1, place: 0, size: 17 };
/// assert_eq!(instructions(&records).collect::<Vec<_>>(), [lone]);
/// assert_eq!(pack(&records)?, [0, 0, 0]);
/// # Ok::<(), Refusal>(())
/// ```
pub fn unpack(map: &[u8]) -> Result<Vec<u8>, Refusal> {
    let check = sanity_check(map)?;
    write(Call::Records(sys::corbastrigo_unpack), map, check.count as usize * RECORD_BYTES)
}

/// [`unpack`] of a map of `width` address bits, 32 or 128: 18, or the check's reason at that width. The records say nothing of the width.
///
/// ```
/// use corbastrigo::{unpack, unpack_bits, Refusal};
///
/// assert_eq!(unpack_bits(&[0, 0, 0], 32)?, unpack(&[0, 0, 0])?);
/// assert_eq!(unpack_bits(&[0, 0, 0], 0), Err(Refusal::Width));
/// # Ok::<(), Refusal>(())
/// ```
pub fn unpack_bits(map: &[u8], width: u32) -> Result<Vec<u8>, Refusal> {
    let check = sanity_check_bits(map, width)?;
    write(Call::Bits(sys::corbastrigo_unpack_bits, width), map, check.count as usize * RECORD_BYTES)
}

/// The bytes of a map that records make, or 16, 15, 1. No check is run.
///
/// ```
/// use corbastrigo::{pack, Instruction, Refusal};
///
/// let jump = Instruction { opcode: 1, operand: 17, place: 0, size: 8 };
/// assert_eq!(pack(&jump.record())?, [1]);
/// assert_eq!(pack(&jump.record()[1..]), Err(Refusal::Record));
/// # Ok::<(), Refusal>(())
/// ```
pub fn pack(records: &[u8]) -> Result<Vec<u8>, Refusal> {
    let most = (records.len() / RECORD_BYTES).saturating_mul(MOST_BITS).div_ceil(8);
    write(Call::Records(sys::corbastrigo_pack), records, most.min(MAX_MAP_BYTES))
}
