//! The limits: maps of 16,777,216 bytes and of one more through every call that takes one, records that pack to the limit and past it,
//! 4,096 and 4,097 candidates and occupied groups.
use crate::calls::{self, BEFORE, BEFORE32, BEFORE64, BEFORE_SIZE};
use crate::changes::{Listed, Pair};
use crate::programs::{known, walks, Known};
use crate::tally::Tally;
use crate::{codes, listing, pages, picks, widths, Form};
use corbastrigo_sys as sys;
use maps::{shapes, Random};
use oracle::asmap::{RETURN, TWO_PREFIX_ASMAP};
use oracle::document::{instruction_at, Verdict};
use oracle::records::record;

const LIMIT: usize = 16_777_216;

/// Told in the place of a map that is too long to be printed.
const HUGE: &str = "a map of about the limit";

/// Every call that takes a map, with one byte too many.
fn one_too_many(tally: &mut Tally, random: &mut Random, map: &[u8]) {
    assert_eq!(map.len(), LIMIT + 1);
    for call in [
        sys::corbastrigo_decode_type as sys::Decode,
        sys::corbastrigo_decode_asn,
        sys::corbastrigo_decode_match,
        sys::corbastrigo_decode_jump,
    ] {
        for at in [0, 8 * LIMIT, usize::MAX] {
            tally.same("code", &HUGE, calls::decode(call, map, at), (1, BEFORE32, BEFORE_SIZE));
        }
    }
    tally.same("instruction", &HUGE, calls::decode_instruction(map, 0), (1, BEFORE32, BEFORE32, BEFORE_SIZE));
    tally.same("check", &HUGE, calls::sanity_check(map), (1, BEFORE32, BEFORE));
    tally.same("where it stops", &HUGE, calls::sanity_check_stop(map), (1, BEFORE, BEFORE_SIZE));
    tally.same("walk", &HUGE, calls::interpret(map, &[0; 16]), (1, BEFORE, BEFORE32, BEFORE32, BEFORE));
    tally.same("walk", &HUGE, calls::interpret(map, &[0; 15]), (11, BEFORE, BEFORE32, BEFORE32, BEFORE));
    tally.same("unpack", &HUGE, calls::unpack(map, 64), (1, BEFORE_SIZE, vec![BEFORE; 64]));
    tally.same("list", &HUGE, calls::list(map, 64), (1, BEFORE_SIZE, vec![BEFORE; 64]));
    tally.same("list", &HUGE, calls::list(map, 0), (1, BEFORE_SIZE, vec![]));
    tally.same("bytes of a list", &HUGE, calls::list_bytes(map), (1, BEFORE_SIZE));
    two_with_one_too_many(tally, map);
    at_a_width(tally, random, map);
    let mut candidate = [0; 20];
    candidate[0] = 6;
    let (checked, unchecked) = (sys::corbastrigo_netgroup, sys::corbastrigo_netgroup_unchecked);
    tally.same("group", &HUGE, calls::netgroup(checked, &candidate, 1, map), (1, BEFORE64));
    tally.same("group", &HUGE, calls::netgroup(unchecked, &candidate, 1, map), (1, BEFORE64));
    tally.same("group", &HUGE, calls::netgroup(checked, &candidate, 0, map), (0, 0));
    tally.same("group", &HUGE, calls::netgroup(checked, &candidate[1..], 1, map), (13, BEFORE64));
    picks::all_ways(tally, &candidate, &[], 1, map, [1, 1]);
    picks::all_ways(tally, &candidate, &[], 1, map, [1, 0]);
    pages::all_ways(tally, &candidate, map);
    pages::all_ways(tally, &candidate[1..], map);
}

/// The same map by the calls that take a width; a width that is none is refused first.
fn at_a_width(tally: &mut Tally, random: &mut Random, map: &[u8]) {
    let sane = &[0; 3][..];
    for width in [32, 128] {
        let right = vec![0; width as usize / 8];
        let walk = |reason| (reason, BEFORE, BEFORE32, BEFORE32, BEFORE);
        tally.same("check at a width", &HUGE, calls::sanity_check_bits(map, width), (1, BEFORE32, BEFORE));
        tally.same("where it stops at a width", &HUGE, calls::sanity_check_stop_bits(map, width), (1, BEFORE, BEFORE_SIZE));
        tally.same("walk at a width", &HUGE, calls::interpret_bits(map, &right, width), walk(1));
        tally.same("walk at a width", &HUGE, calls::interpret_bits(map, &right[1..], width), walk(11));
        tally.same("bytes of a list at a width", &HUGE, calls::list_bytes_bits(map, width), (1, BEFORE_SIZE));
        for room in [0, 64] {
            let refused = |reason| (reason, BEFORE_SIZE, vec![BEFORE; room]);
            tally.same("unpack at a width", &HUGE, calls::unpack_bits(map, width, room), refused(1));
            tally.same("list at a width", &HUGE, calls::list_bits(map, width, room), refused(1));
            for (maps, reason) in [([map, sane], 1), ([sane, map], 101), ([map, map], 1)] {
                tally.same("compare at a width", &HUGE, calls::compare_bits(maps, width, room), refused(reason));
                let told = calls::compare_bytes_bits(maps, width, room);
                tally.same("bytes of a comparison at a width", &HUGE, told, refused(reason));
            }
        }
    }
    for maps in [[map, sane], [sane, map]] {
        (0..20).for_each(|_| widths::no_width(tally, random, maps));
    }
    zeros_of_the_limit(tally);
}

/// Zeros to the last byte of the limit: read, and refused behind the first RETURN.
fn zeros_of_the_limit(tally: &mut Tally) {
    let map = &vec![0; LIMIT][..];
    let (sane, refused) = (&[0; 3][..], |reason| (reason, BEFORE_SIZE, vec![BEFORE; 64]));
    for width in [32, 128] {
        let walked = calls::interpret_bits(map, &vec![0; width as usize / 8], width);
        tally.same("walk at a width", &HUGE, walked, (0, 1, 1, 1, 0));
        tally.same("check at a width", &HUGE, calls::sanity_check_bits(map, width), (6, BEFORE32, BEFORE));
        tally.same("where it stops at a width", &HUGE, calls::sanity_check_stop_bits(map, width), (0, 6, 0));
        tally.same("bytes of a list at a width", &HUGE, calls::list_bytes_bits(map, width), (6, BEFORE_SIZE));
        tally.same("unpack at a width", &HUGE, calls::unpack_bits(map, width, 64), refused(6));
        tally.same("list at a width", &HUGE, calls::list_bits(map, width, 64), refused(6));
        tally.same("compare at a width", &HUGE, calls::compare_bits([sane, map], width, 64), refused(106));
        tally.same("bytes of a comparison at a width", &HUGE, calls::compare_bytes_bits([map, sane], width, 64), refused(6));
    }
}

/// The same map as the old one, as the new one and as both, and beside a map that is refused.
fn two_with_one_too_many(tally: &mut Tally, map: &[u8]) {
    let (sane, jump) = (&[0; 3][..], &[1][..]);
    for (maps, reason) in [([map, sane], 1), ([sane, map], 101), ([map, map], 1), ([map, jump], 1), ([jump, map], 2)] {
        for room in [0, 16, 64] {
            let refused = (reason, BEFORE_SIZE, vec![BEFORE; room]);
            tally.same("compare", &HUGE, calls::compare(maps, room), refused.clone());
            tally.same("bytes of a comparison", &HUGE, calls::compare_bytes(maps, room), refused);
        }
    }
}

/// The map with another number in some of its RETURNs: the last bit of a number's code is turned over.
fn renumbered(map: &[u8], step: usize) -> Vec<u8> {
    let (mut copy, mut at, mut returns) = (map.to_vec(), 0, 0);
    // Fewer than 8 bits follow the last RETURN, and more any other instruction.
    while at + 8 <= 8 * map.len() {
        let (opcode, _) = instruction_at(&mut at, map).expect("an accepted map's instruction");
        returns += usize::from(opcode == RETURN);
        if opcode == RETURN && returns % step == 0 {
            copy[(at - 1) / 8] ^= 1 << ((at - 1) % 8);
        }
    }
    copy
}

/// The greatest map beside itself with a few other numbers, and beside one that hardly says anything; in the long form in both orders.
fn greatest_compared(tally: &mut Tally, random: &mut Random, whole: &Known, form: Form) {
    let changed = renumbered(whole.map, 99_991);
    let whole = Listed::new(whole);
    for (other, step) in [(&changed[..], 1), (TWO_PREFIX_ASMAP, form.choose(997, 1))] {
        let other = known(tally, other);
        let other = Listed::new(&other);
        for [old, new] in [[&whole, &other], [&other, &whole]].into_iter().take(form.choose(1, 2)) {
            let pair = Pair::new(old, new);
            let found = pair.compare(tally);
            pair.walked(tally, random, &found, step);
        }
    }
}

/// The listing of the greatest map; in the long form the original walks to both ends of every prefix.
fn greatest_list(tally: &mut Tally, random: &mut Random, whole: &Known, form: Form) {
    let prefixes = listing::list(tally, whole);
    listing::edges(tally, whole, &prefixes, form.choose(997, 1));
    listing::drawn(tally, random, whole, &prefixes, form.choose(100, 10_000));
}

/// A map of exactly the limit, accepted to its last byte, and copies that lost a byte or have a wrong last one.
fn greatest(tally: &mut Tally, random: &mut Random, form: Form) {
    let mut map = shapes::exactly(random, LIMIT);
    assert_eq!(map.len(), LIMIT);
    let whole = known(tally, &map);
    assert!(matches!(whole.verdict, Verdict::Accepted { .. }), "the greatest map is refused");
    whole.unpack(tally);
    walks(tally, random, &whole, form.choose(2, 50));
    greatest_list(tally, random, &whole, form);
    greatest_compared(tally, random, &whole, form);
    for at in (8 * LIMIT - 64..8 * LIMIT + 2).chain([usize::MAX]) {
        codes::read_at(tally, &map, at);
    }
    let lists: Vec<u8> = (0..40).flat_map(|i| [&[6, 0, 0x20, i][..], &[0; 16]].concat()).collect();
    picks::all_ways(tally, &lists, &[], 8, &map, [8, 8]);
    pages::all_ways(tally, &lists, &map);
    let cut = known(tally, &map[..LIMIT - 1]);
    cut.walk(tally, &[0; 16]);
    listing::list(tally, &cut);
    map[LIMIT - 1] ^= 0x80;
    let spoiled = known(tally, &map);
    spoiled.walk(tally, &[255; 16]);
    listing::list(tally, &spoiled);
    map[LIMIT - 1] ^= 0x80;
    map.push(0);
    one_too_many(tally, random, &map);
}

/// Records of the longest instruction that fill the limit to its last bit, and one bit more.
fn longest_records(tally: &mut Tally) {
    let (greatest, bits) = (2_147_483_632, 57);
    // The greatest operand of the last size but one, whose JUMP has 56 bits: so many are left over.
    let (greater, rest) = (1_073_741_808, 56);
    let count = 8 * LIMIT / bits;
    assert_eq!(count * bits + rest, 8 * LIMIT);
    let mut list: Vec<u8> = (0..count).flat_map(|i| record(1, greatest, i * bits, bits)).collect();
    let last = list.len();
    list.extend(record(1, greater, count * bits, rest));
    let (answer, written, out) = calls::pack(&list, LIMIT);
    tally.same("pack to the limit", &HUGE, (answer, written), (0, LIMIT));
    // What was packed reads back as it was given.
    for i in [0, 1, count / 2, count - 1] {
        tally.same("instruction", &HUGE, calls::decode_instruction(&out, i * bits), (0, 1, greatest, bits));
    }
    tally.same("instruction", &HUGE, calls::decode_instruction(&out, count * bits), (0, 1, greater, rest));
    let refused = |reason, room| (reason, BEFORE_SIZE, vec![BEFORE; room]);
    tally.same("pack, a byte short", &HUGE, calls::pack(&list, LIMIT - 1), refused(14, LIMIT - 1));
    list.truncate(last);
    list.extend(record(1, greater + 1, count * bits, bits));
    tally.same("pack past the limit", &HUGE, calls::pack(&list, LIMIT + 8), refused(1, LIMIT + 8));
    // The last record is wrong as well: 16 comes before 1, and 15 before 16.
    list[last + 12] ^= 1;
    tally.same("pack, wrong past the limit", &HUGE, calls::pack(&list, 8), refused(16, 8));
    list[last] = 4;
    tally.same("pack, out of range past the limit", &HUGE, calls::pack(&list, 8), refused(15, 8));
}

/// 4,096 and 4,097 candidates and occupied groups.
fn longest_lists(tally: &mut Tally, random: &mut Random) {
    let map = shapes::random(random, 300, 128);
    let candidate = |i: usize| [&[6, 0, 0x20, 0, (i / 256) as u8, i as u8][..], &[0; 12], &[0x20, 0x8d]].concat();
    for count in [4_095, 4_096, 4_097] {
        let candidates: Vec<u8> = (0..count).flat_map(candidate).collect();
        for taken in [0, 4_096, 4_097] {
            // Two in three are groups of candidates, the first and the last of 4,096 among them.
            let occupied: Vec<u64> = (0..taken as u64).map(|i| (0x2000_0000 + i) | u64::from(i % 3 == 1) << 40).collect();
            for max in [0, 1, 125, 4_096, usize::MAX] {
                let room = max.min(count);
                picks::all_ways(tally, &candidates, &occupied, max, &map, [room, room]);
                picks::all_ways(tally, &candidates, &occupied, max, &map, [room.saturating_sub(1), room]);
            }
        }
        pages::all_ways(tally, &candidates, &map);
        let mut spoiled = candidates.clone();
        spoiled[20 * (count - 1)] = 5;
        picks::all_ways(tally, &spoiled, &[], 1, &map, [1, 1]);
        picks::all_ways(tally, &spoiled[..spoiled.len() - 1], &[], 1, &map, [1, 1]);
        pages::all_ways(tally, &spoiled, &map);
        pages::all_ways(tally, &spoiled[..spoiled.len() - 1], &map);
        spoiled.push(0);
        pages::all_ways(tally, &spoiled, &map);
    }
}

pub fn run(tally: &mut Tally, random: &mut Random, form: Form) {
    longest_lists(tally, random);
    longest_records(tally);
    greatest(tally, random, form);
}
