//! The library's calls with everything that they leave behind: the answer, then each lent number and place after the call.
use corbastrigo_sys as sys;

/// What lent numbers and places hold before a call.
pub const BEFORE: u8 = 0xa5;
pub const BEFORE16: u16 = 0xa5a5;
pub const BEFORE32: u32 = 0xa5a5_a5a5;
pub const BEFORE64: u64 = 0xa5a5_a5a5_a5a5_a5a5;
pub const BEFORE_SIZE: usize = BEFORE64 as usize;

pub type Read = (u8, u32, usize);
pub type Written = (u8, u64, usize);
pub type Check = (u8, u32, u8);
pub type Stop = (u8, u8, usize);
pub type Walk = (u8, u8, u32, u32, u8);
/// Of a call that writes bytes to an output.
pub type Bytes = (u8, usize, Vec<u8>);

pub fn decode(call: sys::Decode, map: &[u8], at: usize) -> Read {
    let (mut value, mut next) = (BEFORE32, BEFORE_SIZE);
    let answer = unsafe { call(map.as_ptr(), map.len(), at, &mut value, &mut next) };
    (answer, value, next)
}

pub fn decode_instruction(map: &[u8], at: usize) -> (u8, u32, u32, usize) {
    let (mut opcode, mut operand, mut size) = (BEFORE32, BEFORE32, BEFORE_SIZE);
    let answer = unsafe { sys::corbastrigo_decode_instruction(map.as_ptr(), map.len(), at, &mut opcode, &mut operand, &mut size) };
    (answer, opcode, operand, size)
}

pub fn encode(call: sys::Encode, value: u32) -> Written {
    let (mut bits, mut len) = (BEFORE64, BEFORE_SIZE);
    let answer = unsafe { call(value, &mut bits, &mut len) };
    (answer, bits, len)
}

pub fn encode_instruction(opcode: u32, operand: u32) -> Written {
    let (mut bits, mut len) = (BEFORE64, BEFORE_SIZE);
    let answer = unsafe { sys::corbastrigo_encode_instruction(opcode, operand, &mut bits, &mut len) };
    (answer, bits, len)
}

pub fn sanity_check(map: &[u8]) -> Check {
    let (mut count, mut depth) = (BEFORE32, BEFORE);
    let answer = unsafe { sys::corbastrigo_sanity_check(map.as_ptr(), map.len(), &mut count, &mut depth) };
    (answer, count, depth)
}

pub fn sanity_check_stop(map: &[u8]) -> Stop {
    let (mut reason, mut place) = (BEFORE, BEFORE_SIZE);
    let answer = unsafe { sys::corbastrigo_sanity_check_stop(map.as_ptr(), map.len(), &mut reason, &mut place) };
    (answer, reason, place)
}

pub fn interpret(map: &[u8], address: &[u8]) -> Walk {
    let (mut kind, mut number, mut count, mut bits) = (BEFORE, BEFORE32, BEFORE32, BEFORE);
    let answer = unsafe {
        let (at, len) = (address.as_ptr(), address.len());
        sys::corbastrigo_interpret(map.as_ptr(), map.len(), at, len, &mut kind, &mut number, &mut count, &mut bits)
    };
    (answer, kind, number, count, bits)
}

fn records(call: sys::Records, input: &[u8], room: usize) -> Bytes {
    let (mut out, mut written) = (vec![BEFORE; room], BEFORE_SIZE);
    let answer = unsafe { call(input.as_ptr(), input.len(), out.as_mut_ptr(), out.len(), &mut written) };
    (answer, written, out)
}

pub fn unpack(map: &[u8], room: usize) -> Bytes {
    records(sys::corbastrigo_unpack, map, room)
}

pub fn pack(list: &[u8], room: usize) -> Bytes {
    records(sys::corbastrigo_pack, list, room)
}

pub fn list(map: &[u8], room: usize) -> Bytes {
    records(sys::corbastrigo_list, map, room)
}

pub fn list_bytes(map: &[u8]) -> (u8, usize) {
    let mut bytes = BEFORE_SIZE;
    let answer = unsafe { sys::corbastrigo_list_bytes(map.as_ptr(), map.len(), &mut bytes) };
    (answer, bytes)
}

/// A call that compares two maps and writes bytes.
type OfTwo = unsafe extern "C" fn(*const u8, usize, *const u8, usize, *mut u8, usize, *mut usize) -> u8;

fn of_two(call: OfTwo, [old, new]: [&[u8]; 2], room: usize) -> Bytes {
    let (mut out, mut number) = (vec![BEFORE; room], BEFORE_SIZE);
    let answer = unsafe { call(old.as_ptr(), old.len(), new.as_ptr(), new.len(), out.as_mut_ptr(), out.len(), &mut number) };
    (answer, number, out)
}

pub fn compare(maps: [&[u8]; 2], room: usize) -> Bytes {
    of_two(sys::corbastrigo_compare, maps, room)
}

pub fn compare_bytes(maps: [&[u8]; 2], room: usize) -> Bytes {
    of_two(sys::corbastrigo_compare_bytes, maps, room)
}

// ---- at a width

/// A call that compares two maps at a width and writes bytes.
type OfTwoBits = unsafe extern "C" fn(*const u8, usize, *const u8, usize, u32, *mut u8, usize, *mut usize) -> u8;

pub fn sanity_check_bits(map: &[u8], width: u32) -> Check {
    let (mut count, mut depth) = (BEFORE32, BEFORE);
    let answer = unsafe { sys::corbastrigo_sanity_check_bits(map.as_ptr(), map.len(), width, &mut count, &mut depth) };
    (answer, count, depth)
}

pub fn sanity_check_stop_bits(map: &[u8], width: u32) -> Stop {
    let (mut reason, mut place) = (BEFORE, BEFORE_SIZE);
    let answer = unsafe { sys::corbastrigo_sanity_check_stop_bits(map.as_ptr(), map.len(), width, &mut reason, &mut place) };
    (answer, reason, place)
}

pub fn interpret_bits(map: &[u8], address: &[u8], width: u32) -> Walk {
    let (mut kind, mut number, mut count, mut bits) = (BEFORE, BEFORE32, BEFORE32, BEFORE);
    let answer = unsafe {
        let (at, len) = (address.as_ptr(), address.len());
        sys::corbastrigo_interpret_bits(map.as_ptr(), map.len(), at, len, width, &mut kind, &mut number, &mut count, &mut bits)
    };
    (answer, kind, number, count, bits)
}

fn records_bits(call: sys::RecordsBits, map: &[u8], width: u32, room: usize) -> Bytes {
    let (mut out, mut written) = (vec![BEFORE; room], BEFORE_SIZE);
    let answer = unsafe { call(map.as_ptr(), map.len(), width, out.as_mut_ptr(), out.len(), &mut written) };
    (answer, written, out)
}

pub fn unpack_bits(map: &[u8], width: u32, room: usize) -> Bytes {
    records_bits(sys::corbastrigo_unpack_bits, map, width, room)
}

pub fn list_bits(map: &[u8], width: u32, room: usize) -> Bytes {
    records_bits(sys::corbastrigo_list_bits, map, width, room)
}

pub fn list_bytes_bits(map: &[u8], width: u32) -> (u8, usize) {
    let mut bytes = BEFORE_SIZE;
    let answer = unsafe { sys::corbastrigo_list_bytes_bits(map.as_ptr(), map.len(), width, &mut bytes) };
    (answer, bytes)
}

fn of_two_bits(call: OfTwoBits, [old, new]: [&[u8]; 2], width: u32, room: usize) -> Bytes {
    let (mut out, mut number) = (vec![BEFORE; room], BEFORE_SIZE);
    let answer = unsafe {
        let (at, len) = (out.as_mut_ptr(), out.len());
        call(old.as_ptr(), old.len(), new.as_ptr(), new.len(), width, at, len, &mut number)
    };
    (answer, number, out)
}

pub fn compare_bits(maps: [&[u8]; 2], width: u32, room: usize) -> Bytes {
    of_two_bits(sys::corbastrigo_compare_bits, maps, width, room)
}

pub fn compare_bytes_bits(maps: [&[u8]; 2], width: u32, room: usize) -> Bytes {
    of_two_bits(sys::corbastrigo_compare_bytes_bits, maps, width, room)
}

// ---- peers

pub fn prefix_group(candidate: &[u8]) -> (u8, u64) {
    let mut group = BEFORE64;
    let answer = unsafe { sys::corbastrigo_prefix_group(candidate.as_ptr(), candidate.len(), &mut group) };
    (answer, group)
}

pub fn netgroup(call: sys::Netgroup, candidate: &[u8], has_map: u8, map: &[u8]) -> (u8, u64) {
    let mut group = BEFORE64;
    let answer = unsafe { call(candidate.as_ptr(), candidate.len(), has_map, map.as_ptr(), map.len(), &mut group) };
    (answer, group)
}

pub fn scan_occupied(group: u64, occupied: &[u64]) -> (u8, u8, usize, usize) {
    let (mut found, mut place, mut read) = (BEFORE, BEFORE_SIZE, BEFORE_SIZE);
    let answer =
        unsafe { sys::corbastrigo_scan_occupied(group, occupied.as_ptr(), occupied.len(), &mut found, &mut place, &mut read) };
    (answer, found, place, read)
}

/// A pick as it is asked for.
pub struct Asked<'a> {
    pub candidates: &'a [u8],
    pub occupied: &'a [u64],
    pub max: usize,
    pub has_map: u8,
    pub map: &'a [u8],
    pub rooms: [usize; 2],
}

/// What a pick leaves behind.
#[derive(Debug, PartialEq)]
pub struct Left {
    pub answer: u8,
    pub picks: Vec<u16>,
    pub groups: Vec<u64>,
    pub totals: [u64; 4],
}

/// The numbers that a pick is lent: three totals and the instructions.
type Totals<'a> = ([&'a mut usize; 3], &'a mut u64);

/// What a call leaves of the outputs and numbers that are lent to it.
fn left(asked: &Asked, call: impl FnOnce(&mut [u16], &mut [u64], Totals) -> u8) -> Left {
    let (mut picks, mut groups) = (vec![BEFORE16; asked.rooms[0]], vec![BEFORE64; asked.rooms[1]]);
    let (mut total, mut first, mut examined, mut instructions) = (BEFORE_SIZE, BEFORE_SIZE, BEFORE_SIZE, BEFORE64);
    let answer = call(&mut picks, &mut groups, ([&mut total, &mut first, &mut examined], &mut instructions));
    Left { answer, picks, groups, totals: [total as u64, first as u64, examined as u64, instructions] }
}

pub fn select_diverse(call: sys::SelectDiverse, asked: &Asked) -> Left {
    left(asked, |picks, groups, ([total, first, examined], instructions)| unsafe {
        call(
            asked.candidates.as_ptr(),
            asked.candidates.len(),
            asked.occupied.as_ptr(),
            asked.occupied.len(),
            asked.max,
            asked.has_map,
            asked.map.as_ptr(),
            asked.map.len(),
            picks.as_mut_ptr(),
            picks.len(),
            groups.as_mut_ptr(),
            groups.len(),
            total,
            first,
            examined,
            instructions,
        )
    })
}

/// The pick by the old numbering, which takes no map: that of `asked` is not handed over.
pub fn old_prefix_pick(asked: &Asked) -> Left {
    left(asked, |picks, groups, ([total, first, examined], instructions)| unsafe {
        sys::corbastrigo_old_prefix_pick(
            asked.candidates.as_ptr(),
            asked.candidates.len(),
            asked.occupied.as_ptr(),
            asked.occupied.len(),
            asked.max,
            picks.as_mut_ptr(),
            picks.len(),
            groups.as_mut_ptr(),
            groups.len(),
            total,
            first,
            examined,
            instructions,
        )
    })
}

/// What stands behind the lent bytes is handed back too.
pub fn page(call: sys::Page, candidates: &[u8], has_map: u8, map: &[u8], room: usize) -> Bytes {
    let (mut out, mut written) = (vec![BEFORE; room + sys::PAGE_LINE_BYTES], BEFORE_SIZE);
    let answer = unsafe {
        let at = out.as_mut_ptr();
        call(candidates.as_ptr(), candidates.len(), has_map, map.as_ptr(), map.len(), at, room, &mut written)
    };
    (answer, written, out)
}

/// The page by the old numbering; what stands behind the lent bytes is handed back too.
pub fn old_prefix_page(candidates: &[u8], room: usize) -> Bytes {
    let (mut out, mut written) = (vec![BEFORE; room + sys::PAGE_LINE_BYTES], BEFORE_SIZE);
    let answer =
        unsafe { sys::corbastrigo_old_prefix_page(candidates.as_ptr(), candidates.len(), out.as_mut_ptr(), room, &mut written) };
    (answer, written, out)
}

pub fn clearnet_unroutable(address: &[u8]) -> (u8, u8) {
    let mut unroutable = BEFORE;
    let answer = unsafe { sys::corbastrigo_clearnet_unroutable(address.as_ptr(), address.len(), &mut unroutable) };
    (answer, unroutable)
}

pub fn addrv2_skip_relay(id: u8, address: &[u8], port: u16) -> (u8, u8) {
    let mut skips = BEFORE;
    let answer = unsafe { sys::corbastrigo_addrv2_skip_relay(id, address.as_ptr(), address.len(), port, &mut skips) };
    (answer, skips)
}

// ---- loads

pub fn next_draw(s: u64) -> (u8, u64) {
    let mut draw = BEFORE64;
    let answer = unsafe { sys::corbastrigo_next_draw(s, &mut draw) };
    (answer, draw)
}

/// What stands behind the lent bytes is handed back too: as much as the longest load has.
pub fn load(seed: u64, pairs: usize, room: usize) -> Bytes {
    let (mut out, mut written) = (vec![BEFORE; room + sys::LOAD_BYTES], BEFORE_SIZE);
    let answer = unsafe { sys::corbastrigo_load(seed, pairs, out.as_mut_ptr(), room, &mut written) };
    (answer, written, out)
}

// ---- maps built from prefixes

/// How many bytes stand behind the lent ones of a build.
pub const BEHIND: usize = 64;

/// What stands behind the lent bytes is handed back too.
pub fn build(records: &[u8], given: u32, width: u32, room: usize) -> Bytes {
    let (mut out, mut written) = (vec![BEFORE; room + BEHIND], BEFORE_SIZE);
    let answer = unsafe {
        let at = out.as_mut_ptr();
        sys::corbastrigo_build(records.as_ptr(), records.len(), given, width, at, room, &mut written)
    };
    (answer, written, out)
}
