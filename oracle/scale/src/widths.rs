//! The calls that take a width. At 32 they are compared with documents 01 and 02 worked through over 32 bits, whose verdict is held to the
//! original's `sanity_check_bits` and whose walks of accepted maps to its walk; at 128 with the calls that take none; and at other widths
//! they are refused and write nothing.
use crate::calls::{self, BEFORE, BEFORE32, BEFORE_SIZE};
use crate::changes::{made_of, told};
use crate::programs::{checked, damaged, followed, left, number, tree, walk_left};
use crate::tally::Tally;
use crate::Form;
use maps::{shapes, Random};
use oracle::asmap::AsMap;
use oracle::document::{self, End, Verdict};
use oracle::width::{Width, W32};
use oracle::{bytes, changes, listing, past_its_check, records, CUT_IN_AN_OPCODE, EXAMPLES, MAPS};

/// A map with what is known of it at 32.
struct Narrow<'a> {
    map: &'a [u8],
    accepted: bool,
    original: AsMap,
}

/// Checks a map within the limit. What is accepted at 32 is so at 128, with the same numbers.
fn narrow<'a>(tally: &mut Tally, map: &'a [u8]) -> Narrow<'a> {
    let (verdict, check, stop) = checked(tally, map, W32);
    tally.same("check at 32", &map, calls::sanity_check_bits(map, 32), check);
    tally.same("where it stops at 32", &map, calls::sanity_check_stop_bits(map, 32), stop);
    let accepted = matches!(verdict, Verdict::Accepted { .. });
    if accepted {
        tally.same("check at 128 of a map accepted at 32", &map, calls::sanity_check(map), check);
    }
    Narrow { map, accepted, original: past_its_check(map) }
}

impl Narrow<'_> {
    /// By the first four of 16 bytes. A walk that these are enough for asks for no bit behind them, so the original's walk by all 16 ends as
    /// it does, at a cut too.
    fn walk(&self, tally: &mut Tally, address: [u8; 16]) {
        let walked = document::walk_bits(self.map, &address[..4], W32).expect("four bytes");
        if walked.end != End::TooFewBits {
            assert_eq!(self.original.interpret_ip16(&address), walked.number, "the original walks elsewhere by {:02x?}", self.map);
        }
        let expected = walk_left(tally, self.map, &walked, self.accepted, W32);
        tally.same("walk at 32", &(self.map, address), calls::interpret_bits(self.map, &address[..4], 32), expected);
    }

    /// Drawn addresses, addresses that the map leads to its leaves, and neighbours of these.
    fn walks(&self, tally: &mut Tally, random: &mut Random, count: usize) {
        for _ in 0..count {
            self.walk(tally, random.address());
            let inside = followed(self.map, random);
            self.walk(tally, inside);
            let next = 1u128 << (96 + random.below(32));
            self.walk(tally, (u128::from_be_bytes(inside) ^ next).to_be_bytes());
        }
    }

    /// Unpacked and listed into outputs that fit, that are one byte short, that are longer, and that are none.
    fn written(&self, tally: &mut Tally) {
        let map = self.map;
        let unpacked = records::unpack_bits(map, W32);
        let listed = listing::list_bits(map, W32).map(|prefixes| listing::records(&prefixes));
        let needed = listed.as_ref().map_or_else(|&reason| (number(reason), BEFORE_SIZE), |made| (0, made.len()));
        tally.same("bytes of a list at 32", &map, calls::list_bytes_bits(map, 32), needed);
        for (name, made, call) in [
            ("unpack at 32", &unpacked, calls::unpack_bits as fn(&[u8], u32, usize) -> calls::Bytes),
            ("list at 32", &listed, calls::list_bits),
        ] {
            let bytes = made.as_ref().map_or(24, Vec::len);
            for room in [bytes, bytes - 1, bytes + 5, 0] {
                tally.same(name, &(map, room), call(map, 32, room), left(made, room));
            }
        }
    }
}

/// An accepted or a refused map: every call at 32, at 128 beside its namesake, and at a width that there is not.
pub fn all_calls(tally: &mut Tally, random: &mut Random, map: &[u8], walks: usize) {
    let narrow = narrow(tally, map);
    narrow.walks(tally, random, walks);
    narrow.written(tally);
    beside_namesakes(tally, map, &random.address());
    not_four_bytes(tally, random, map);
    no_width(tally, random, [map, &[0; 3]]);
    no_width(tally, random, [&[0; 3], map]);
}

/// At 128.
fn beside_namesakes(tally: &mut Tally, map: &[u8], address: &[u8; 16]) {
    tally.same("check at 128", &map, calls::sanity_check_bits(map, 128), calls::sanity_check(map));
    tally.same("where it stops at 128", &map, calls::sanity_check_stop_bits(map, 128), calls::sanity_check_stop(map));
    let longer = [&address[..], &[0; 256]].concat();
    for length in [16, 0, 4, 15, 17, 256 + 16] {
        let address = &longer[..length];
        let walked = calls::interpret(map, address);
        tally.same("walk at 128", &(map, address), calls::interpret_bits(map, address, 128), walked);
    }
    let (check, needed) = (calls::sanity_check(map), calls::list_bytes(map));
    tally.same("bytes of a list at 128", &map, calls::list_bytes_bits(map, 128), needed);
    let (records, prefixes) = if needed.0 == 0 { (16 * check.1 as usize, needed.1) } else { (16, 24) };
    for past in [0, 1, 6] {
        let room = prefixes - 1 + past;
        tally.same("list at 128", &(map, room), calls::list_bits(map, 128, room), calls::list(map, room));
        let room = records - 1 + past;
        tally.same("unpack at 128", &(map, room), calls::unpack_bits(map, 128, room), calls::unpack(map, room));
    }
}

/// An address of another length, at 32.
fn not_four_bytes(tally: &mut Tally, random: &mut Random, map: &[u8]) {
    let length = [0, 1, 3, 5, 16, 17, 256 + 4][random.below(7) as usize];
    let address = random.bytes(length);
    let refused = (11, BEFORE, BEFORE32, BEFORE32, BEFORE);
    tally.same("walk at 32", &(map, &address), calls::interpret_bits(map, &address, 32), refused);
}

/// A number that is no width: any, or one that is near a width or has it in its lowest byte.
pub fn drawn_no_width(random: &mut Random) -> u32 {
    loop {
        let near = [32, 128][random.below(2) as usize];
        let drawn = match random.below(4) {
            0 => random.next() as u32,
            1 => near ^ 1 << random.below(32),
            2 => near | (random.next() as u32) << 8,
            _ => random.below(300) as u32,
        };
        if Width::of(drawn).is_err() {
            return drawn;
        }
    }
}

/// 18 comes before every other refusal, and nothing is written.
pub fn no_width(tally: &mut Tally, random: &mut Random, maps: [&[u8]; 2]) {
    let (width, map) = (drawn_no_width(random), maps[0]);
    let said = (width, map.len());
    let room = random.below(40) as usize;
    let nothing = (18, BEFORE_SIZE, vec![BEFORE; room]);
    let address = vec![0; [4, 16, 5][random.below(3) as usize]];
    tally.same("check, no width", &said, calls::sanity_check_bits(map, width), (18, BEFORE32, BEFORE));
    tally.same("where it stops, no width", &said, calls::sanity_check_stop_bits(map, width), (18, BEFORE, BEFORE_SIZE));
    let walk = (18, BEFORE, BEFORE32, BEFORE32, BEFORE);
    tally.same("walk, no width", &said, calls::interpret_bits(map, &address, width), walk);
    tally.same("unpack, no width", &said, calls::unpack_bits(map, width, room), nothing.clone());
    tally.same("list, no width", &said, calls::list_bits(map, width, room), nothing.clone());
    tally.same("bytes of a list, no width", &said, calls::list_bytes_bits(map, width), (18, BEFORE_SIZE));
    tally.same("compare, no width", &said, calls::compare_bits(maps, width, room), nothing.clone());
    tally.same("bytes of a comparison, no width", &said, calls::compare_bytes_bits(maps, width, room), nothing);
}

/// Two maps compared in both orders, at 32 and, beside the namesakes, at 128. `same` says that they say the same by construction.
pub fn compared(tally: &mut Tally, maps: [&[u8]; 2], same: bool) {
    for maps in [maps, [maps[1], maps[0]]] {
        let made = changes::compare_bits(maps[0], maps[1], W32);
        assert!(!same || made == Ok(vec![]), "maps that say the same in other words differ: {maps:02x?}");
        let records = made.as_ref().map(|changes| changes::records(changes)).map_err(|&reason| reason);
        let bytes = records.as_ref().map_or(changes::RECORD, Vec::len);
        for room in [bytes, bytes.saturating_sub(1), bytes + 5, 2 * bytes + 3_000, 0] {
            tally.same("compare at 32", &(maps, room), calls::compare_bits(maps, 32, room), left(&records, room));
            tally.same("compare at 128", &(maps, room), calls::compare_bits(maps, 128, room), calls::compare(maps, room));
        }
        for room in [16, 15, 21, 0] {
            tally.same("bytes of a comparison at 32", &(maps, room), calls::compare_bytes_bits(maps, 32, room), told(&made, room));
            let wide = calls::compare_bytes(maps, room);
            tally.same("bytes of a comparison at 128", &(maps, room), calls::compare_bytes_bits(maps, 128, room), wide);
        }
    }
}

/// A map over at most 32 bits, or now and then one bit more.
pub fn narrow_tree(random: &mut Random) -> Vec<u8> {
    match random.below(8) {
        0 => {
            let (depth, ones) = (random.below(34) as u32, random.percent(50));
            shapes::comb(random, depth, ones)
        }
        1 => {
            let depth = random.below(6) as u32;
            shapes::two_bit_matches(random, depth)
        }
        2 => shapes::ipv4(random, 400),
        _ => {
            let left = 1 + random.below(33) as u32;
            shapes::random(random, 60, left)
        }
    }
}

/// A tree, copies of it that are damaged, and comparisons with another one, with one made of it and with a damaged one. Those of 128 bits
/// are nearly all too deep.
fn drawn(tally: &mut Tally, random: &mut Random, map: &[u8], other: &[u8]) {
    all_calls(tally, random, map, 8);
    let copies = damaged(map, random);
    let step = 1 + copies.len() / 24;
    for copy in copies.iter().skip(random.below(step as u64) as usize).step_by(step) {
        all_calls(tally, random, copy, 1);
    }
    compared(tally, [map, other], false);
    compared(tally, [map, &copies[random.below(copies.len() as u64) as usize]], false);
    if matches!(document::check_bits(map, W32), Verdict::Accepted { .. }) {
        let (made, same) = made_of(random, map, 32);
        compared(tally, [map, &made], same);
    }
}

/// Strings of up to 2 bytes, all of them; bytes as they come; the original's test maps and document 01's refused ones beside each other;
/// trees of 128 bits and of 32; and a map as large as a node's.
pub fn run(tally: &mut Tally, random: &mut Random, form: Form) {
    for n in (0..=2u32).flat_map(|len| (0..1u32 << (8 * len)).map(move |n| (n, len as usize))) {
        all_calls(tally, random, &n.0.to_le_bytes()[..n.1], 1);
    }
    for _ in 0..form.choose(10_000, 200_000) {
        let length = random.below(40) as usize;
        let map = random.bytes(length);
        all_calls(tally, random, &map, 1);
    }
    let refused = EXAMPLES.into_iter().chain([CUT_IN_AN_OPCODE]).map(bytes);
    let maps: Vec<Vec<u8>> = MAPS.iter().map(|(_, map)| map.to_vec()).chain(refused).collect();
    for old in &maps {
        maps.iter().for_each(|new| compared(tally, [old, new], false));
        all_calls(tally, random, old, 8);
    }
    for round in 0..form.choose(600, 12_000) {
        let other = narrow_tree(random);
        let map = if round % 4 == 0 { tree(random) } else { narrow_tree(random) };
        drawn(tally, random, &map, &other);
    }
    let large = [0; 2].map(|_| shapes::ipv4(random, 1_500_000));
    all_calls(tally, random, &large[0], 2_000);
    compared(tally, [&large[0], &large[1]], false);
}
