//! Maps whose end cuts an opcode or an operand (document 02, CR 5), made so that both cuts are common: trees without their last bytes, trees
//! with an operand near the end edited so that its code reaches past it, instructions of which the last is cut, and jumps that land around
//! the end. Beside them stand maps that are too deep, which abort a walk without a cut. Every call that has a reason or a kind of end to hand
//! on is asked.
use crate::changes::both_orders;
use crate::programs::{followed, known, tree};
use crate::tally::Tally;
use crate::{codes, listing, pages, picks, safe, widths, Form};
use maps::{shapes, Random};
use oracle::asmap::{pack_le, JUMP, MATCH};
use oracle::codes::{operand_row, ROWS};
use oracle::cuts::cut_at;
use oracle::document::CUT_OPCODE;
use oracle::{instruction, records};

/// Up to eight of its last bytes lost.
fn truncated(random: &mut Random, map: &[u8]) -> Vec<u8> {
    let lost = 1 + random.below(8) as usize;
    map[..map.len().saturating_sub(lost)].to_vec()
}

/// The opcodes of an accepted map with their places.
fn opcodes(map: &[u8]) -> Vec<(u32, usize)> {
    let list = records::unpack(map).expect("an accepted map");
    let place = |record: &[u8]| u32::from_le_bytes(record[8..12].try_into().expect("4 bytes")) as usize;
    list.chunks(16).map(|record| (u32::from(record[0]), place(record))).collect()
}

/// Cut in one of its opcodes, or as above where none lies across two bytes.
fn cut_in_an_opcode(random: &mut Random, map: &[u8]) -> Vec<u8> {
    let places = opcodes(map).into_iter().map(|(_, place)| place);
    let cut: Vec<&[u8]> = places
        .map(|place| (&map[..place / 8 + 1], place))
        .filter(|&(map, at)| cut_at(map, at) == Some(CUT_OPCODE))
        .map(|(map, _)| map)
        .collect();
    match cut.len() {
        0 => truncated(random, map),
        count => cut[random.below(count as u64) as usize].to_vec(),
    }
}

/// One of the last instructions edited: ones in the first bits of its operand, which make its code longer.
fn edited(random: &mut Random, map: &[u8]) -> Vec<u8> {
    let all = opcodes(map);
    let (opcode, place) = all[all.len() - 1 - random.below(all.len().min(4) as u64) as usize];
    let start = place + ROWS[0].write(opcode).len();
    let mut copy = map.to_vec();
    let ones = start..start + 1 + random.below(10) as usize;
    ones.filter(|bit| bit / 8 < map.len()).for_each(|bit| copy[bit / 8] |= 1 << (bit % 8));
    copy
}

/// An instruction whose operand has one of the first four sizes.
fn drawn_instruction(random: &mut Random, opcode: u32) -> Vec<bool> {
    let edges = operand_row(opcode).edges();
    let [first, last] = edges[random.below(edges.len().min(4) as u64) as usize];
    instruction(opcode, first + random.below(u64::from(last - first) + 1) as u32)
}

/// Some instructions, jumps most of all, no DEFAULT straight after another; then one of which the map has only the first bits: as many as fill
/// the last byte. Every other time the opcode has to be cut, which is tried for until it is.
fn cut_behind(random: &mut Random) -> Vec<u8> {
    let opcode_is_cut = random.percent(50);
    loop {
        let count = 1 + random.below(6);
        let mut bits: Vec<bool> = (0..count)
            .flat_map(|turn| {
                let opcode = [[1, 1, 2, 3], [1, 1, 1, 2]][turn as usize % 2][random.below(4) as usize];
                drawn_instruction(random, opcode)
            })
            .collect();
        let opcode = random.below(4) as u32;
        let last = drawn_instruction(random, opcode);
        let most = if opcode_is_cut { ROWS[0].write(opcode).len() } else { last.len() };
        let fits: Vec<usize> = (0..most).filter(|kept| (bits.len() + kept) % 8 == 0).collect();
        if let Some(&kept) = fits.get(random.below(fits.len().max(1) as u64) as usize) {
            bits.extend(&last[..kept]);
            return pack_le(&bits);
        }
    }
}

/// A JUMP from the first bit on to a place, where there is one: it is counted from the JUMP's end.
fn jump_to(target: usize) -> Option<Vec<bool>> {
    (8..30)
        .map(|length| (length, instruction(JUMP, (target - length) as u32)))
        .find(|(length, jump)| jump.len() == *length)
        .map(|(_, jump)| jump)
}

/// A JUMP that lands on one of the last bits, on the end, or a little past it, and bits as they come behind it, most of them ones every other
/// time.
fn landing(random: &mut Random) -> Vec<u8> {
    loop {
        let (bytes, ones) = (8 + random.below(40) as usize, if random.percent(50) { 80 } else { 50 });
        let Some(mut bits) = jump_to(8 * bytes + 3 - random.below(24) as usize) else { continue };
        let more = 8 * bytes - bits.len();
        bits.extend((0..more).map(|_| random.percent(ones)));
        return pack_le(&bits);
    }
}

/// About as deep as addresses of either width are, by jumps or by MATCHes of a byte: all its turns are zeros, or all are ones. What follows the
/// MATCHes is cut every other time: a cut comes before the lack of address bits.
fn deep(random: &mut Random) -> Vec<u8> {
    let (bytes, ones) = ([4, 16][random.below(2) as usize], random.percent(50));
    if random.percent(50) {
        let depth = 8 * bytes as u32 - 1 + random.below(3) as u32;
        return shapes::comb(random, depth, ones);
    }
    let mut bits = instruction(MATCH, if ones { 511 } else { 256 }).repeat(bytes);
    let opcode = random.below(4) as u32;
    bits.extend(drawn_instruction(random, opcode));
    let kept = if random.percent(50) { bits.len() / 8 * 8 } else { bits.len() };
    pack_le(&bits[..kept])
}

fn cut_or_deep(random: &mut Random) -> Vec<u8> {
    let sane = if random.percent(50) { tree(random) } else { shapes::random(random, 8, 32) };
    match random.below(7) {
        0 => truncated(random, &sane),
        1 => cut_in_an_opcode(random, &sane),
        2 => edited(random, &sane),
        3 => {
            let copy = edited(random, &sane);
            truncated(random, &copy)
        }
        4 => cut_behind(random),
        5 => landing(random),
        _ => deep(random),
    }
}

/// The bits of the last bytes, the end, and some past it.
fn around_the_end(tally: &mut Tally, map: &[u8]) {
    let end = 8 * map.len();
    (end.saturating_sub(20)..end + 3).chain([usize::MAX]).for_each(|at| codes::read_at(tally, map, at));
}

fn all_calls(tally: &mut Tally, random: &mut Random, map: &[u8], other: &[u8]) {
    let known = known(tally, map);
    let led = followed(map, random);
    for address in [[0; 16], [255; 16], random.address(), led] {
        known.walk(tally, &address);
        safe::reasons(tally, map, &address);
    }
    known.unpack(tally);
    listing::list(tally, &known);
    widths::all_calls(tally, random, map, 2);
    around_the_end(tally, map);
    for maps in [[map, &[0; 3]], [map, other]] {
        both_orders(tally, random, maps, false, false);
        widths::compared(tally, maps, false);
    }
    let candidates = picks::list(random, map, 3);
    picks::all_ways(tally, &candidates, &[], 2, map, [2, 2]);
    picks::all_ways(tally, &candidates, &[], 2, map, [0, 2]);
    pages::all_ways(tally, &candidates, map);
}

/// Every round has its share of each cut and of each kind of end.
pub fn run(tally: &mut Tally, random: &mut Random, form: Form) {
    let rounds = form.choose(6_000, 90_000);
    let counts = |tally: &Tally| tally.cut.into_iter().chain(tally.ended).collect::<Vec<u64>>();
    let before = counts(tally);
    for _ in 0..rounds {
        let (map, other) = (cut_or_deep(random), cut_or_deep(random));
        all_calls(tally, random, &map, &other);
    }
    let after = counts(tally);
    let often = before.iter().zip(&after).all(|(before, after)| after - before > rounds / 10);
    assert!(often, "few of a kind: {before:?}, then {after:?}");
}
