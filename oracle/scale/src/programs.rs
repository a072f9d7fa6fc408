//! Maps: check, walk, unpack and pack, listings, groups.
use crate::calls::{self, BEFORE, BEFORE32, BEFORE64, BEFORE_SIZE};
use crate::tally::Tally;
use crate::{codes, listing, Form};
use corbastrigo_sys as sys;
use maps::{shapes, Random};
use oracle::asmap::{self, AsMap};
use oracle::document::{self, Refusal, Verdict, Walk};
use oracle::width::{Width, W128};
use oracle::{cuts, past_its_check, records};

/// The answer of a fallible call of the oracle, as a number.
pub fn number(refusal: Refusal) -> u8 {
    u8::try_from(refusal).expect("refusals are small")
}

/// A map with what is known of it.
pub struct Known<'a> {
    pub map: &'a [u8],
    pub verdict: Verdict,
    pub original: AsMap,
}

/// Document 01's verdict on a map within the limit at a width, held to the original's, and what the calls leave behind then.
pub fn checked(tally: &mut Tally, map: &[u8], width: Width) -> (Verdict, calls::Check, calls::Stop) {
    let (verdict, place) = document::check_stop_bits(map, width);
    let (check, accepted) = match verdict {
        Verdict::Accepted { count, depth } => ((0, count, depth as u8), true),
        Verdict::Refused(reason) => ((number(reason), BEFORE32, BEFORE), false),
    };
    let theirs = asmap::sanity_check_bits(map, width.bits() as i32);
    assert_eq!(theirs, accepted, "document 01 and the original differ on {map:02x?} at {width:?}");
    cuts::hold_check(map, verdict, place);
    tally.verdict(verdict);
    (verdict, check, (0, check.0, place))
}

/// Checks a map within the limit.
pub fn known<'a>(tally: &mut Tally, map: &'a [u8]) -> Known<'a> {
    let (verdict, check, stop) = checked(tally, map, W128);
    tally.same("check", &map, calls::sanity_check(map), check);
    tally.same("where it stops", &map, calls::sanity_check_stop(map), stop);
    Known { map, verdict, original: past_its_check(map) }
}

/// What a walk leaves behind. No walk of a map that is accepted at its width aborts, or reads more instructions than it may.
pub fn walk_left(tally: &mut Tally, map: &[u8], walk: &Walk, accepted: bool, width: Width) -> calls::Walk {
    cuts::hold_walk(map, walk);
    tally.end(walk.end);
    let short = walk.count <= 2 * width.bits() + 1;
    assert!(!accepted || !walk.end.aborts() && short, "an accepted map aborts, or its walk is too long");
    (0, walk.end.number(), walk.number, walk.count, walk.bits as u8)
}

impl Known<'_> {
    pub fn walk(&self, tally: &mut Tally, address: &[u8; 16]) {
        let walked = document::walk(self.map, address);
        let theirs = self.original.interpret_ip16(address);
        assert_eq!(theirs, walked.number, "document 01 and the original differ on {:02x?}", self.map);
        let accepted = matches!(self.verdict, Verdict::Accepted { .. });
        let expected = walk_left(tally, self.map, &walked, accepted, W128);
        tally.same("walk", &(self.map, address), calls::interpret(self.map, address), expected);
        self.group(tally, address, walked.number);
    }

    /// The group of a candidate of family 6 with that address.
    fn group(&self, tally: &mut Tally, address: &[u8; 16], walked: u32) {
        let mut candidate = [6, 0].to_vec();
        candidate.extend(address);
        candidate.extend([0x20, 0x8d]);
        let expected = match self.verdict {
            Verdict::Accepted { .. } => (0, u64::from(walked)),
            Verdict::Refused(reason) => (number(reason), BEFORE64),
        };
        let input = (self.map, address);
        let checked = calls::netgroup(sys::corbastrigo_netgroup, &candidate, 1, self.map);
        tally.same("group", &input, checked, expected);
        let unchecked = calls::netgroup(sys::corbastrigo_netgroup_unchecked, &candidate, 1, self.map);
        tally.same("group, unchecked", &input, unchecked, (0, u64::from(walked)));
    }

    /// Unpack into outputs that fit, that are one byte short, and that are longer; then pack again.
    pub fn unpack(&self, tally: &mut Tally) {
        let unpacked = records::unpack(self.map);
        let bytes = unpacked.as_ref().map_or(16, Vec::len);
        for room in [bytes, bytes.saturating_sub(1), bytes + 5] {
            tally.same("unpack", &(self.map, room), calls::unpack(self.map, room), left(&unpacked, room));
        }
        let Ok(list) = unpacked else { return };
        let bytes = self.map.len();
        for room in [bytes, bytes - 1, bytes + 5] {
            let expected = left(&Ok(self.map.to_vec()), room);
            tally.same("pack", &(&list, room), calls::pack(&list, room), expected);
        }
    }
}

/// What a call that writes bytes leaves behind in an output of `room` bytes.
pub fn left(made: &Result<Vec<u8>, Refusal>, room: usize) -> calls::Bytes {
    let mut out = vec![BEFORE; room];
    match made {
        Err(reason) => (number(*reason), BEFORE_SIZE, out),
        Ok(bytes) if bytes.len() > room => (14, BEFORE_SIZE, out),
        Ok(bytes) => {
            out[..bytes.len()].copy_from_slice(bytes);
            (0, bytes.len(), out)
        }
    }
}

fn short_string(tally: &mut Tally, random: &mut Random, map: &[u8]) {
    let known = known(tally, map);
    known.walk(tally, &[0; 16]);
    known.walk(tally, &[255; 16]);
    known.walk(tally, &random.address());
    listing::list(tally, &known);
}

/// All byte strings up to 2 bytes, with every code at every bit; of 3 bytes one in 31, or all. The step is odd, so that the first bits,
/// which are the first opcode, take all values.
pub fn short_strings(tally: &mut Tally, random: &mut Random, form: Form) {
    let strings = (0..=2u32).flat_map(|len| (0..1u32 << (8 * len)).map(move |n| n.to_le_bytes()[..len as usize].to_vec()));
    for map in strings {
        short_string(tally, random, &map);
        known(tally, &map).unpack(tally);
        (0..8 * map.len() + 1).for_each(|at| codes::read_at(tally, &map, at));
    }
    let step = form.choose(31, 1);
    for n in (random.below(step as u64) as u32..1 << 24).step_by(step) {
        short_string(tally, random, &n.to_le_bytes()[..3]);
    }
}

/// Bytes as they come: almost all refused, early or late.
pub fn random_bytes(tally: &mut Tally, random: &mut Random, form: Form) {
    for _ in 0..form.choose(60_000, 1_000_000) {
        let length = random.below(40) as usize;
        let map = random.bytes(length);
        let known = known(tally, &map);
        known.walk(tally, &random.address());
        listing::list(tally, &known);
        let tail = random.below(24) as usize;
        let wrong: Vec<u8> = random.bytes(tail);
        if wrong.len() != 16 {
            let expected = (11, BEFORE, BEFORE32, BEFORE32, BEFORE);
            tally.same("walk", &(&map, &wrong), calls::interpret(&map, &wrong), expected);
        }
    }
}

/// An address that a walk of the map follows to its end: bits by chance at jumps, as asked for at matches.
pub fn followed(map: &[u8], random: &mut Random) -> [u8; 16] {
    let mut address = random.address();
    let (mut pos, mut used) = (0, 0);
    loop {
        let (answer, opcode, operand, size) = codes::expected_instruction(map, pos);
        pos += size;
        if answer != 0 || opcode == asmap::RETURN {
            return address;
        }
        if opcode == asmap::JUMP && used < 128 {
            let bit = address[used / 8] >> (7 - used % 8) & 1;
            pos += usize::from(bit) * operand as usize;
            used += 1;
        }
        if opcode == asmap::MATCH {
            let length = asmap::bit_width(operand) as usize - 1;
            for k in (0..length).rev() {
                if used == 128 {
                    return address;
                }
                address[used / 8] &= !(1 << (7 - used % 8));
                address[used / 8] |= ((operand >> k & 1) as u8) << (7 - used % 8);
                used += 1;
            }
        }
    }
}

/// Random addresses, addresses that the map leads to its leaves, and their neighbours.
pub fn walks(tally: &mut Tally, random: &mut Random, known: &Known, count: usize) {
    for _ in 0..count {
        known.walk(tally, &random.address());
        let inside = followed(known.map, random);
        known.walk(tally, &inside);
        let number = u128::from_be_bytes(inside);
        known.walk(tally, &number.wrapping_add(1).to_be_bytes());
        known.walk(tally, &number.wrapping_sub(1).to_be_bytes());
        known.walk(tally, &(number ^ 1 << random.below(128)).to_be_bytes());
    }
}

pub fn tree(random: &mut Random) -> Vec<u8> {
    match random.below(8) {
        0 => {
            let depth = random.below(129) as u32;
            let ones = random.percent(50);
            shapes::comb(random, depth, ones)
        }
        1 => {
            let depth = random.below(6) as u32;
            shapes::jumps(random, depth)
        }
        2 => {
            let depth = random.below(6) as u32;
            shapes::two_bit_matches(random, depth)
        }
        3 => shapes::real(random, 400),
        _ => {
            let left = 1 + random.below(128) as u32;
            shapes::random(random, 60, left)
        }
    }
}

/// Copies with a bit flipped, cut at a byte, and with bytes behind: all of a small map's, some of a larger one's.
pub fn damaged(map: &[u8], random: &mut Random) -> Vec<Vec<u8>> {
    let all = map.len() <= 48;
    let some = |n: usize, random: &mut Random| all || random.below(n as u64) < 48;
    let mut copies = Vec::new();
    for bit in 0..8 * map.len() {
        if some(8 * map.len(), random) {
            let mut copy = map.to_vec();
            copy[bit / 8] ^= 1 << (bit % 8);
            copies.push(copy);
        }
    }
    copies.extend((0..map.len()).filter(|_| some(map.len(), random)).map(|len| map[..len].to_vec()));
    for tail in [&[0][..], &[1], &[128], &[0, 0], &[255, 255, 255]] {
        copies.push([map, tail].concat());
    }
    copies
}

/// Maps built from trees, and damaged copies of them.
pub fn trees(tally: &mut Tally, random: &mut Random, form: Form) {
    for _ in 0..form.choose(1_200, 14_000) {
        let map = tree(random);
        let whole = known(tally, &map);
        assert!(matches!(whole.verdict, Verdict::Accepted { .. }), "a tree is refused: {map:02x?}");
        whole.unpack(tally);
        walks(tally, random, &whole, 8);
        listed(tally, random, &whole);
        for copy in damaged(&map, random) {
            let known = known(tally, &copy);
            known.walk(tally, &random.address());
            known.walk(tally, &followed(&copy, random));
            known.unpack(tally);
            listing::list(tally, &known);
        }
    }
}

/// The listing of an accepted map, and every prefix of it by the original's walk.
fn listed(tally: &mut Tally, random: &mut Random, known: &Known) {
    let prefixes = listing::list(tally, known);
    listing::edges(tally, known, &prefixes, 1);
    listing::drawn(tally, random, known, &prefixes, 8);
}

/// Lists of records, right, damaged, and of any instructions.
pub fn records(tally: &mut Tally, random: &mut Random, form: Form) {
    for _ in 0..form.choose(4_000, 60_000) {
        let mut list = any_records(random);
        for _ in 0..6 {
            packed(tally, random, &list);
            if list.is_empty() {
                break;
            }
            let place = random.below(list.len() as u64) as usize;
            list[place] = if random.percent(50) { random.next() as u8 } else { list[place] ^ 1 << random.below(8) };
        }
        let cut = random.below(list.len() as u64 + 1) as usize;
        packed(tally, random, &list[..cut]);
    }
}

fn packed(tally: &mut Tally, random: &mut Random, list: &[u8]) {
    let made = records::pack(list);
    let bytes = made.as_ref().map_or(random.below(20) as usize, Vec::len);
    for room in [bytes, bytes.saturating_sub(1), bytes + 3] {
        tally.same("pack", &(list, room), calls::pack(list, room), left(&made, room));
    }
}

/// Records of instructions that need not make a sane map.
fn any_records(random: &mut Random) -> Vec<u8> {
    let mut list = Vec::new();
    let mut place = 0;
    for _ in 0..random.below(12) {
        let opcode = random.below(4) as u32;
        let operand = loop {
            let operand = (random.next() as u32) >> random.below(32);
            if records::in_range(opcode, operand) {
                break operand;
            }
        };
        let length = oracle::instruction(opcode, operand).len();
        list.extend(records::record(opcode, operand, place, length));
        place += length;
    }
    list
}
