//! The calls of libcorbastrigo.a as they are, with pointers. `corbastrigo` makes them safe; `include/corbastrigo.h` tells what each one
//! does, which refusals it has and what it writes.
//!
//! # Safety
//!
//! A slice is a pointer that is aligned for its numbers, and a length in elements. It must point to that many elements that may be
//! read, and, behind `*mut`, written for the time of the call; where the length is 0 it may be null. A pointer to a single number never
//! is. What is written may overlap nothing else that is handed over. No call keeps a pointer. Every number, length and byte is allowed.
#![no_std]
#![deny(missing_docs)]
#![deny(clippy::undocumented_unsafe_blocks)]

/// The bytes of a record of `corbastrigo_compare`: 16 address bytes, the prefix length, three zeros, the old map's number and the new one's.
pub const CHANGE_RECORD_BYTES: usize = 28;

/// The bytes of a line of `corbastrigo_page`: the group in 10 columns, a space, its candidates in 6, a space, the per cent in 6, a line feed.
pub const PAGE_LINE_BYTES: usize = 25;

/// The first group of IPv4 without a map, by the new numbering: 256 * a + b more is the group of a.b.c.d. Those of IPv6 are all below.
pub const IPV4_GROUPS: u64 = 4_294_967_296;

/// What a comparison adds to the check's reason where it refuses the new map: 101 to 110 and 119.
pub const NEW_MAP: u8 = 100;

/// The kind of a walk's end at a RETURN.
pub const RETURNED: u8 = 1;

/// The kind of a walk's end at a MATCH that differs, with the default.
pub const DIFFERED: u8 = 2;

/// The kind of a walk's end at a JUMP or MATCH that needs more address bits than are left. This end and the two below are aborts.
pub const TOO_FEW_BITS: u8 = 3;

/// The kind of a walk's end at an opcode that the map's end cuts, or from there on; the number of the refusal too.
pub const CUT_OPCODE: u8 = 4;

/// The kind of a walk's end at an operand that the map's end cuts; the number of the refusal too.
pub const CUT_OPERAND: u8 = 19;

/// The seed that a load has where nobody names another.
pub const DEFAULT_SEED: u64 = 1;

/// The most pairs of a load.
pub const MAX_PAIRS: usize = 128;

/// Bytes that are enough for every load.
pub const LOAD_BYTES: usize = 419;

/// A code read at a bit of a map.
pub type Decode = unsafe extern "C" fn(*const u8, usize, usize, *mut u32, *mut usize) -> u8;

/// A code written as bits, the first lowest.
pub type Encode = unsafe extern "C" fn(u32, *mut u64, *mut usize) -> u8;

/// Bytes that are made of bytes: records of a map, or the map of records.
pub type Records = unsafe extern "C" fn(*const u8, usize, *mut u8, usize, *mut usize) -> u8;

/// Records that are made of a map over a number of address bits, which stands behind the map.
pub type RecordsBits = unsafe extern "C" fn(*const u8, usize, u32, *mut u8, usize, *mut usize) -> u8;

/// The group of one candidate, by a map or by prefixes in the new numbering.
pub type Netgroup = unsafe extern "C" fn(*const u8, usize, u8, *const u8, usize, *mut u64) -> u8;

/// A pick: candidates, occupied groups, max, map or none; then picks, groups and the four totals.
pub type SelectDiverse = unsafe extern "C" fn(
    *const u8,
    usize,
    *const u64,
    usize,
    usize,
    u8,
    *const u8,
    usize,
    *mut u16,
    usize,
    *mut u64,
    usize,
    *mut usize,
    *mut usize,
    *mut usize,
    *mut u64,
) -> u8;

/// A page: candidates, map or none; then the lines and how many bytes they have.
pub type Page = unsafe extern "C" fn(*const u8, usize, u8, *const u8, usize, *mut u8, usize, *mut usize) -> u8;

extern "C" {
    /// Reads an opcode at a bit.
    pub fn corbastrigo_decode_type(map: *const u8, map_len: usize, at: usize, value: *mut u32, next: *mut usize) -> u8;
    /// Reads an AS number at a bit.
    pub fn corbastrigo_decode_asn(map: *const u8, map_len: usize, at: usize, value: *mut u32, next: *mut usize) -> u8;
    /// Reads a MATCH operand at a bit.
    pub fn corbastrigo_decode_match(map: *const u8, map_len: usize, at: usize, value: *mut u32, next: *mut usize) -> u8;
    /// Reads a JUMP operand at a bit.
    pub fn corbastrigo_decode_jump(map: *const u8, map_len: usize, at: usize, value: *mut u32, next: *mut usize) -> u8;
    /// Reads the instruction that starts at a bit: opcode, operand and length in bits.
    pub fn corbastrigo_decode_instruction(
        map: *const u8,
        map_len: usize,
        at: usize,
        opcode: *mut u32,
        operand: *mut u32,
        size: *mut usize,
    ) -> u8;
    /// Writes an opcode as bits.
    pub fn corbastrigo_encode_type(value: u32, bits: *mut u64, len: *mut usize) -> u8;
    /// Writes an AS number as bits.
    pub fn corbastrigo_encode_asn(value: u32, bits: *mut u64, len: *mut usize) -> u8;
    /// Writes a MATCH operand as bits.
    pub fn corbastrigo_encode_match(value: u32, bits: *mut u64, len: *mut usize) -> u8;
    /// Writes a JUMP operand as bits.
    pub fn corbastrigo_encode_jump(value: u32, bits: *mut u64, len: *mut usize) -> u8;
    /// Writes an instruction as bits, at most 57.
    pub fn corbastrigo_encode_instruction(opcode: u32, operand: u32, bits: *mut u64, len: *mut usize) -> u8;
    /// Checks a map: accepted with its instructions and the most jumps open at a time, or the reason.
    pub fn corbastrigo_sanity_check(map: *const u8, map_len: usize, count: *mut u32, depth: *mut u8) -> u8;
    /// Says where the check of a map stops, and why: the reason, 0 where it accepts, and the bit.
    pub fn corbastrigo_sanity_check_stop(map: *const u8, map_len: usize, reason: *mut u8, place: *mut usize) -> u8;
    /// Walks any map by 16 address bytes: the kind of end, the number, the instructions read whole, the address bits read.
    pub fn corbastrigo_interpret(
        map: *const u8,
        map_len: usize,
        address: *const u8,
        address_len: usize,
        kind: *mut u8,
        number: *mut u32,
        count: *mut u32,
        bits: *mut u8,
    ) -> u8;
    /// Lists an accepted map's instructions as records of 16 bytes.
    pub fn corbastrigo_unpack(map: *const u8, map_len: usize, out: *mut u8, out_len: usize, written: *mut usize) -> u8;
    /// Writes the map that records list. Runs no check.
    pub fn corbastrigo_pack(records: *const u8, records_len: usize, out: *mut u8, out_len: usize, written: *mut usize) -> u8;
    /// Lists every prefix that an accepted map tells apart, with its number, as records of 24 bytes.
    pub fn corbastrigo_list(map: *const u8, map_len: usize, out: *mut u8, out_len: usize, written: *mut usize) -> u8;
    /// How many bytes that list has.
    pub fn corbastrigo_list_bytes(map: *const u8, map_len: usize, bytes: *mut usize) -> u8;
    /// Compares two accepted maps for every address: a record of 28 bytes for each piece whose number differs, with both numbers.
    pub fn corbastrigo_compare(
        old_map: *const u8,
        old_len: usize,
        new_map: *const u8,
        new_len: usize,
        out: *mut u8,
        out_len: usize,
        written: *mut usize,
    ) -> u8;
    /// How many bytes that comparison has, and the first address that differs, in 16 bytes.
    pub fn corbastrigo_compare_bytes(
        old_map: *const u8,
        old_len: usize,
        new_map: *const u8,
        new_len: usize,
        first: *mut u8,
        first_len: usize,
        bytes: *mut usize,
    ) -> u8;
    /// Checks a map over 32 or 128 address bits.
    pub fn corbastrigo_sanity_check_bits(map: *const u8, map_len: usize, width: u32, count: *mut u32, depth: *mut u8) -> u8;
    /// Says where the check over 32 or 128 address bits stops, and why.
    pub fn corbastrigo_sanity_check_stop_bits(map: *const u8, map_len: usize, width: u32, reason: *mut u8, place: *mut usize)
        -> u8;
    /// Walks any map by the 4 or 16 bytes of an address of 32 or 128 bits.
    pub fn corbastrigo_interpret_bits(
        map: *const u8,
        map_len: usize,
        address: *const u8,
        address_len: usize,
        width: u32,
        kind: *mut u8,
        number: *mut u32,
        count: *mut u32,
        bits: *mut u8,
    ) -> u8;
    /// Lists the instructions of a map that is accepted over 32 or 128 address bits.
    pub fn corbastrigo_unpack_bits(
        map: *const u8,
        map_len: usize,
        width: u32,
        out: *mut u8,
        out_len: usize,
        written: *mut usize,
    ) -> u8;
    /// Lists every prefix of 32 or 128 bits that an accepted map tells apart; of 32 the address stands in the first 4 of its 16 bytes.
    pub fn corbastrigo_list_bits(
        map: *const u8,
        map_len: usize,
        width: u32,
        out: *mut u8,
        out_len: usize,
        written: *mut usize,
    ) -> u8;
    /// How many bytes that list has.
    pub fn corbastrigo_list_bytes_bits(map: *const u8, map_len: usize, width: u32, bytes: *mut usize) -> u8;
    /// Compares two maps, both over 32 or both over 128 address bits, for every address.
    pub fn corbastrigo_compare_bits(
        old_map: *const u8,
        old_len: usize,
        new_map: *const u8,
        new_len: usize,
        width: u32,
        out: *mut u8,
        out_len: usize,
        written: *mut usize,
    ) -> u8;
    /// How many bytes that comparison has, and the first address that differs, in 16 bytes.
    pub fn corbastrigo_compare_bytes_bits(
        old_map: *const u8,
        old_len: usize,
        new_map: *const u8,
        new_len: usize,
        width: u32,
        first: *mut u8,
        first_len: usize,
        bytes: *mut usize,
    ) -> u8;
    /// Writes the map of records of prefixes over 32 or 128 address bits, in which all other addresses are sent to the given number.
    pub fn corbastrigo_build(
        records: *const u8,
        records_len: usize,
        given: u32,
        width: u32,
        out: *mut u8,
        out_len: usize,
        written: *mut usize,
    ) -> u8;
    /// The group of a candidate without a map, by the old numbering.
    pub fn corbastrigo_prefix_group(candidate: *const u8, candidate_len: usize, group: *mut u64) -> u8;
    /// The group of a candidate; a map is checked first. Without one it is the prefix by the new numbering, here and below.
    pub fn corbastrigo_netgroup(
        candidate: *const u8,
        candidate_len: usize,
        has_map: u8,
        map: *const u8,
        map_len: usize,
        group: *mut u64,
    ) -> u8;
    /// The group of a candidate; a map is walked as it is.
    pub fn corbastrigo_netgroup_unchecked(
        candidate: *const u8,
        candidate_len: usize,
        has_map: u8,
        map: *const u8,
        map_len: usize,
        group: *mut u64,
    ) -> u8;
    /// Looks for a group among the occupied ones: whether there is a hit, the first one's place, and how many groups were read.
    pub fn corbastrigo_scan_occupied(
        group: u64,
        occupied: *const u64,
        occupied_len: usize,
        found: *mut u8,
        place: *mut usize,
        groups_read: *mut usize,
    ) -> u8;
    /// Picks candidates spread over groups; a map is checked first.
    pub fn corbastrigo_select_diverse(
        candidates: *const u8,
        candidates_len: usize,
        occupied: *const u64,
        occupied_len: usize,
        max: usize,
        has_map: u8,
        map: *const u8,
        map_len: usize,
        picks: *mut u16,
        picks_len: usize,
        groups: *mut u64,
        groups_len: usize,
        total: *mut usize,
        first: *mut usize,
        examined: *mut usize,
        instructions: *mut u64,
    ) -> u8;
    /// Picks candidates spread over groups; a map is walked as it is.
    pub fn corbastrigo_select_diverse_unchecked(
        candidates: *const u8,
        candidates_len: usize,
        occupied: *const u64,
        occupied_len: usize,
        max: usize,
        has_map: u8,
        map: *const u8,
        map_len: usize,
        picks: *mut u16,
        picks_len: usize,
        groups: *mut u64,
        groups_len: usize,
        total: *mut usize,
        first: *mut usize,
        examined: *mut usize,
        instructions: *mut u64,
    ) -> u8;
    /// Picks candidates spread over prefixes by the old numbering, which the occupied groups have too.
    pub fn corbastrigo_old_prefix_pick(
        candidates: *const u8,
        candidates_len: usize,
        occupied: *const u64,
        occupied_len: usize,
        max: usize,
        picks: *mut u16,
        picks_len: usize,
        groups: *mut u64,
        groups_len: usize,
        total: *mut usize,
        first: *mut usize,
        examined: *mut usize,
        instructions: *mut u64,
    ) -> u8;
    /// Writes how candidates spread over groups, a line of 25 bytes for each group; a map is checked first.
    pub fn corbastrigo_page(
        candidates: *const u8,
        candidates_len: usize,
        has_map: u8,
        map: *const u8,
        map_len: usize,
        out: *mut u8,
        out_len: usize,
        written: *mut usize,
    ) -> u8;
    /// Writes how candidates spread over groups, a line of 25 bytes for each group; a map is walked as it is.
    pub fn corbastrigo_page_unchecked(
        candidates: *const u8,
        candidates_len: usize,
        has_map: u8,
        map: *const u8,
        map_len: usize,
        out: *mut u8,
        out_len: usize,
        written: *mut usize,
    ) -> u8;
    /// Writes how candidates spread over prefixes by the old numbering.
    pub fn corbastrigo_old_prefix_page(
        candidates: *const u8,
        candidates_len: usize,
        out: *mut u8,
        out_len: usize,
        written: *mut usize,
    ) -> u8;
    /// Whether an address can be no peer on the open Internet.
    pub fn corbastrigo_clearnet_unroutable(address: *const u8, address_len: usize, unroutable: *mut u8) -> u8;
    /// Whether an addrv2 entry must not be relayed.
    pub fn corbastrigo_addrv2_skip_relay(id: u8, address: *const u8, address_len: usize, port: u16, skips: *mut u8) -> u8;
    /// The draw after a seed, or after the draw before.
    pub fn corbastrigo_next_draw(s: u64, draw: *mut u64) -> u8;
    /// Writes the load of a seed: a map of so many pairs of a DEFAULT and a MATCH of one bit, then a RETURN.
    pub fn corbastrigo_load(seed: u64, pairs: usize, out: *mut u8, out_len: usize, written: *mut usize) -> u8;
}
