//! Every public function of the safe crate, with answers from document 01.
mod scratch;

use corbastrigo::*;
use scratch::Scratch;
use std::collections::HashSet;
use std::error::Error;
use std::io;
use std::net::{IpAddr, SocketAddr};
use std::path::Path;

/// 1.2.0.0/16 is sent to 1, 3.4.0.0/16 to 2.
const TWO_PREFIXES: [u8; 35] = [
    0xfb, 0x03, 0xec, 0x0f, 0xb0, 0x3f, 0xc0, 0xfe, 0x00, 0xfb, 0x03, 0xec, 0x0f, 0xb0, 0x3f, 0xc0, 0xfe, 0x00, 0xfb, 0x03, 0xec,
    0x0f, 0xb0, 0xff, 0xff, 0xfe, 0xff, 0xfb, 0x80, 0x00, 0x00, 0x00, 0x00, 0x00, 0x01,
];

fn map() -> AsMap {
    AsMap::from_bytes(TWO_PREFIXES.to_vec()).expect("accepted")
}

fn ip(text: &str) -> IpAddr {
    text.parse().expect("an address")
}

fn peers(texts: &[&str]) -> Vec<SocketAddr> {
    texts.iter().map(|text| SocketAddr::new(ip(text), 8333)).collect()
}

/// A walk's end, number, count and bits.
fn parts(walk: Walk) -> (End, u32, u32, u8) {
    (walk.end, walk.number, walk.count, walk.bits)
}

fn number<T: std::fmt::Debug>(refused: Result<T, Refusal>) -> u8 {
    refused.expect_err("refused").number()
}

#[test]
fn a_checked_map_is_walked() {
    let map = map();
    assert_eq!(map.len(), 35);
    assert_eq!(map.as_bytes(), TWO_PREFIXES);
    assert_eq!((map.mapped_as(ip("1.2.0.0")), map.mapped_as(ip("3.4.0.0")), map.mapped_as(ip("8.8.8.8"))), (1, 2, 0));
    assert_eq!(map.interpret_ip16(&ip16_for_lookup(ip("3.4.5.6"))), 2);
    assert_eq!(parts(map.walk(&ip16_for_lookup(ip("3.4.0.0")))), (End::Returned, 2, 15, 103));
    assert_eq!(parts(map.walk(&ip16_for_lookup(ip("8.8.8.8")))), (End::Differed, 0, 13, 101));
}

#[test]
fn a_refused_map_is_none_and_says_why() {
    assert_eq!(AsMap::from_bytes(TWO_PREFIXES[..34].to_vec()), None);
    assert_eq!(AsMap::checked(TWO_PREFIXES[..34].to_vec()), Err(Refusal::CutOperand));
    let check = sanity_check(&[0, 0, 0]).expect("accepted");
    assert_eq!((check.count, check.depth), (1, 0));
    for (bytes, reason) in [
        (&vec![0; MAX_MAP_BYTES + 1][..], Refusal::MapTooLong),
        (&[], Refusal::MapEnds),
        (&[0x01, 0xfb, 0x03, 0x00], Refusal::PastTarget),
        (&[0x8b], Refusal::CutOpcode),
        (&[0xfb], Refusal::CutOperand),
        (&[0x07, 0, 0], Refusal::AfterDefault),
        (&[0, 0, 2], Refusal::Padding),
        (&[0xfd, 0x71, 0x3a, 0, 0], Refusal::NotAtTarget),
        (&sixteen_bytes_and_one_bit(), Refusal::NoBits),
        (&[1, 1], Refusal::TargetsCross),
        (&[0x63, 0, 0, 0], Refusal::ShortMatches),
    ] {
        assert_eq!(sanity_check(bytes), Err(reason));
    }
}

#[test]
fn the_place_of_a_refusal_is_told() {
    for (bytes, reason, place) in [
        (&[][..], 2, 0),
        (&[0x01], 2, 8),
        (&[0x01, 0xfb, 0x03, 0x00], 3, 26),
        (&[0x07, 0, 0], 5, 19),
        (&[0xfd, 0x71, 0x3a, 0, 0], 7, 22),
        (&[0x63, 0, 0, 0], 10, 5),
        (&[0x8b], 4, 7),
        (&TWO_PREFIXES[..34], 19, 256),
    ] {
        let stop = sanity_check_stop(bytes).expect("within the limit");
        assert_eq!((stop.reason.map(Refusal::number), stop.place), (Some(reason), place));
    }
    let stop = sanity_check_stop(&TWO_PREFIXES).expect("within the limit");
    assert_eq!((stop.reason, stop.place), (None, 256));
    assert_eq!(number(sanity_check_stop(&vec![0; MAX_MAP_BYTES + 1])), 1);
}

#[test]
fn an_abort_has_the_number_0_and_is_told() {
    let walk = interpret(&[1], &[0; 16]).expect("any map is walked");
    assert_eq!(parts(walk), (End::CutOpcode, 0, 1, 1));
    assert_eq!(number(interpret(&[1], &[0; 15])), 11);
    assert_eq!(number(interpret(&vec![0; MAX_MAP_BYTES + 1], &[0; 16])), 1);
}

#[test]
fn each_kind_of_end_is_told_apart() {
    for (bytes, address, end, count, bits) in [
        (&[0x00, 0x00, 0x00][..], 0x00, End::Returned, 1, 0),
        // A MATCH of one bit, 0, and a RETURN.
        (&[0x03, 0x00, 0x00], 0xff, End::Differed, 1, 1),
        // Sixteen MATCHes of a byte and one of a bit more; as many JUMPs and one more.
        (&sixteen_bytes_and_one_bit(), 0x00, End::TooFewBits, 17, 128),
        (&[0x01; 129], 0x00, End::TooFewBits, 129, 128),
        // A MATCH of two bits, 00, and the first bit of an opcode; a whole JUMP, at the map's end, and 17 bits past it.
        (&[0x8b], 0x00, End::CutOpcode, 1, 2),
        (&[0x01], 0x00, End::CutOpcode, 1, 1),
        (&[0x01], 0xff, End::CutOpcode, 1, 1),
        (&[], 0x00, End::CutOpcode, 0, 0),
        // RETURN, JUMP, MATCH and DEFAULT without the end of their operands; the JUMP has an address bit left and does not use it.
        (&[0x00], 0x00, End::CutOperand, 0, 0),
        (&[0x05], 0x00, End::CutOperand, 0, 0),
        (&[0xfb], 0x00, End::CutOperand, 0, 0),
        (&[0x07, 0x00], 0x00, End::CutOperand, 0, 0),
    ] {
        let walk = interpret(bytes, &[address; 16]).expect("any map is walked");
        assert_eq!((walk.end, walk.count, walk.bits), (end, count, bits), "{bytes:02x?}");
        assert_eq!(walk.end.is_abort(), !matches!(end, End::Returned | End::Differed), "{bytes:02x?}");
        assert_eq!(walk.number, u32::from(end == End::Returned), "{bytes:02x?}");
        // Of those that are aborted here the check refuses each.
        assert_eq!(sanity_check(bytes).is_err(), walk.end.is_abort(), "{bytes:02x?}");
    }
    assert!(End::Other(77).is_abort());
}

#[test]
fn a_map_is_read_from_a_file() {
    let file = Scratch::new("whole", &TWO_PREFIXES);
    assert_eq!(AsMap::from_path(&file.0).expect("readable"), Some(map()));
    assert_eq!(AsMap::open(&file.0).expect("accepted"), map());
    let file = Scratch::new("cut", &TWO_PREFIXES[..34]);
    assert_eq!(AsMap::from_path(&file.0).expect("readable"), None);
    std::fs::remove_file(&file.0).expect("the file is there");
    assert!(AsMap::from_path(&file.0).is_err());
}

#[test]
fn a_file_that_holds_no_map_is_named_with_the_reason() {
    let file = Scratch::new("refused", &TWO_PREFIXES[..34]);
    let error = AsMap::open(&file.0).expect_err("cut");
    assert_eq!((error.path(), error.refusal()), (&*file.0, Some(Refusal::CutOperand)));
    assert_eq!(error.to_string(), format!("{} is no sane map", file.0.display()));
    assert_eq!(error.source().expect("a reason").to_string(), Refusal::CutOperand.to_string());
    std::fs::remove_file(&file.0).expect("the file is there");
    let error = AsMap::open(&file.0).expect_err("gone");
    assert_eq!((error.path(), error.refusal()), (&*file.0, None));
    assert_eq!(error.to_string(), format!("{} cannot be read", file.0.display()));
    let system = error.source().expect("a reason").downcast_ref::<io::Error>().expect("the system's");
    assert_eq!(system.kind(), io::ErrorKind::NotFound);
    let folder = AsMap::open(std::env::temp_dir()).expect_err("a folder");
    assert!(matches!(folder, OpenError::Unreadable { .. }), "{folder:?}");
}

#[test]
fn a_file_without_end_is_read_to_the_limit_only() {
    assert_eq!(AsMap::open("/dev/zero").expect_err("too long").refusal(), Some(Refusal::MapTooLong));
    assert_eq!(AsMap::from_path(Path::new("/dev/zero")).expect("readable"), None);
}

#[test]
#[cfg(feature = "digest")]
fn a_map_has_its_digest() {
    let lone = AsMap::from_bytes(vec![0, 0, 0]).expect("accepted");
    assert_eq!(lone.digest_hex8(), "709e80c8");
    let whole: String = map().digest().iter().map(|byte| format!("{byte:02x}")).collect();
    assert_eq!(whole, "070965c431fe49f390669aed1379f190d55d09cb339d4a145e83f8308360d210");
    assert_eq!(map().digest_hex8(), whole[..8]);
}

#[test]
fn instructions_there_and_back() {
    let records = unpack(&TWO_PREFIXES).expect("accepted");
    assert_eq!(records.len(), 16 * RECORD_BYTES);
    // Twelve MATCHes of 18 bits, one of 15, a JUMP of 8 and a RETURN of 17 stand before it.
    let last = Instruction { opcode: 0, operand: 2, place: 256, size: 17 };
    assert_eq!(instructions(&records).last(), Some(last));
    assert_eq!(instructions(&records).flat_map(Instruction::record).collect::<Vec<u8>>(), records);
    assert_eq!(pack(&records), Ok(TWO_PREFIXES.to_vec()));
    assert_eq!(pack(&[]), Ok(vec![]));
    assert_eq!(number(pack(&records[1..])), 16);
    let mut out = [7; 300];
    assert_eq!(number(unpack_into(&TWO_PREFIXES, &mut out[..255])), 14);
    assert_eq!(out, [7; 300]);
    assert_eq!(unpack_into(&TWO_PREFIXES, &mut out), Ok(256));
    assert_eq!(out[256..], [7; 44]);
    let mut bytes = [7; 35];
    assert_eq!(number(pack_into(&records, &mut bytes[..34])), 14);
    assert_eq!(pack_into(&records, &mut bytes), Ok(35));
}

#[test]
fn every_prefix_is_listed() {
    let records = list(&TWO_PREFIXES).expect("accepted");
    // 102 bits of MATCHes, and two RETURNs.
    assert_eq!(records.len(), 104 * PREFIX_BYTES);
    assert_eq!(list_bytes(&TWO_PREFIXES), Ok(2_496));
    let prefix = |text, length, number| Prefix { address: ip16_for_lookup(ip(text)), length, number };
    let numbered: Vec<Prefix> = prefixes(&records).filter(|prefix| prefix.number != 0).collect();
    assert_eq!(numbered, [prefix("0.0.0.0", 103, 1), prefix("2.0.0.0", 103, 2)]);
    assert_eq!(prefixes(&records).last(), Some(prefix("8000::", 1, 0)));
    assert_eq!(prefixes(&records).flat_map(Prefix::record).collect::<Vec<u8>>(), records);
    assert_eq!(prefixes(&records[1..]).count(), 103);
    let mut out = [7; 2_500];
    assert_eq!(number(list_into(&TWO_PREFIXES, &mut out[..2_495])), 14);
    assert_eq!((number(list_into(&TWO_PREFIXES[..34], &mut out)), number(list_into(&[0x8b], &mut out))), (19, 4));
    assert_eq!(out, [7; 2_500]);
    assert_eq!(list_into(&TWO_PREFIXES, &mut out), Ok(2_496));
    assert_eq!((&out[..2_496], &out[2_496..]), (&records[..], &[7; 4][..]));
    assert_eq!((number(list(&TWO_PREFIXES[..34])), number(list_bytes(&TWO_PREFIXES[..34]))), (19, 19));
    assert_eq!((number(list(&[0x8b])), number(list_bytes(&[0x8b]))), (4, 4));
}

/// The map of two prefixes with a RETURN of 3 in the place of that of 2.
fn two_and_three() -> Vec<u8> {
    let mut map = TWO_PREFIXES;
    // The number stands in the bits 258 to 272, the highest first, one less than it is.
    map[33] |= 0x80;
    map[34] &= !0x01;
    map.to_vec()
}

#[test]
fn two_maps_are_compared() {
    let other = two_and_three();
    let records = compare(&TWO_PREFIXES, &other).expect("both are accepted");
    let change = Change { address: ip16_for_lookup(ip("2.0.0.0")), length: 103, old: 2, new: 3 };
    assert_eq!(changes(&records).collect::<Vec<_>>(), [change]);
    assert_eq!((records.len(), &records[..]), (CHANGE_BYTES, &change.record()[..]));
    assert_eq!(compare_bytes(&TWO_PREFIXES, &other), Ok(28));
    assert_eq!(first_change(&TWO_PREFIXES, &other), Ok(Some(change.address)));
    let back = Change { old: 3, new: 2, ..change };
    assert_eq!(changes(&compare(&other, &TWO_PREFIXES).expect("both are accepted")).collect::<Vec<_>>(), [back]);
    assert_eq!((compare(&other, &other), compare_bytes(&other, &other)), (Ok(vec![]), Ok(0)));
    assert_eq!(first_change(&other, &other), Ok(None));
    // A lone RETURN of 1 differs from the first map wherever that says something else: in every prefix but one.
    assert_eq!(changes(&compare(&TWO_PREFIXES, &[0, 0, 0]).expect("both are accepted")).count(), 103);
    assert_eq!(changes(&records[1..]).count(), 0);
    let mut out = [7; 30];
    assert_eq!(compare_into(&TWO_PREFIXES, &other, &mut out[..27]), Err(CompareError::Other(Refusal::OutputTooShort)));
    assert_eq!(out, [7; 30]);
    assert_eq!(compare_into(&TWO_PREFIXES, &other, &mut out), Ok(28));
    assert_eq!((&out[..28], &out[28..]), (&records[..], &[7; 2][..]));
}

#[test]
fn a_map_that_is_refused_is_not_compared_and_it_is_said_which() {
    let (cut, over) = (&TWO_PREFIXES[..34], vec![0; MAX_MAP_BYTES + 1]);
    let mut out = [7; 4_000];
    for (old, new, error, number, words) in [
        (cut, &TWO_PREFIXES[..], CompareError::Old(Refusal::CutOperand), 19, "the old map is refused"),
        (&TWO_PREFIXES, cut, CompareError::New(Refusal::CutOperand), 119, "the new map is refused"),
        (cut, &[], CompareError::Old(Refusal::CutOperand), 19, "the old map is refused"),
        (&[0x8b], cut, CompareError::Old(Refusal::CutOpcode), 4, "the old map is refused"),
        (&TWO_PREFIXES, &[0x8b], CompareError::New(Refusal::CutOpcode), 104, "the new map is refused"),
        (&over, cut, CompareError::Old(Refusal::MapTooLong), 1, "the old map is refused"),
        (&TWO_PREFIXES, &[0x63, 0, 0, 0], CompareError::New(Refusal::ShortMatches), 110, "the new map is refused"),
    ] {
        assert_eq!((compare(old, new), compare_bytes(old, new)), (Err(error), Err(error)));
        assert_eq!((first_change(old, new), compare_into(old, new, &mut out)), (Err(error), Err(error)));
        assert_eq!((error.number(), error.to_string()), (number, words.to_string()));
        assert_eq!(error.source().expect("a reason").to_string(), error.refusal().to_string());
    }
    let short = compare_into(&TWO_PREFIXES, &[0, 0, 0], &mut []).expect_err("no room");
    assert_eq!((short.number(), short.to_string()), (14, String::from("the maps were not compared")));
    assert_eq!(out, [7; 4_000]);
}

#[test]
fn codes_are_read_and_written() {
    use codes::*;
    assert_eq!(encode_jump(17), Ok(Bits { bits: 0, len: 6 }));
    assert_eq!(
        (number(encode_type(4)), number(encode_asn(0)), number(encode_match(512)), number(encode_jump(16))),
        (15, 15, 15, 15)
    );
    assert_eq!(decode_type(&[7], 0), Ok(Code { value: 3, next: 3 }));
    assert_eq!(decode_match(&[0], 0), Ok(Code { value: 2, next: 2 }));
    assert_eq!(decode_jump(&[0], 0), Ok(Code { value: 17, next: 6 }));
    assert_eq!(decode_asn(&[0, 0], 0), Ok(Code { value: 1, next: 16 }));
    assert_eq!(decode_instruction(&[1], 0), Ok((1, 17, 8)));
    assert_eq!(encode_instruction(1, 17), Ok(Bits { bits: 1, len: 8 }));
    assert_eq!((encode_type(3), encode_match(2)), (Ok(Bits { bits: 7, len: 3 }), Ok(Bits { bits: 0, len: 2 })));
}

#[test]
fn a_cut_opcode_is_told_from_a_cut_operand() {
    use codes::*;
    // The last bit of the byte begins an opcode other than RETURN; an operand that begins at the last or the last but one needs more.
    assert_eq!((number(decode_type(&[0x80], 7)), number(decode_type(&[0xc0], 6))), (4, 4));
    assert_eq!((number(decode_asn(&[0, 0], 1)), number(decode_match(&[0], 7)), number(decode_jump(&[0], 3))), (19, 19, 19));
    // From the map's end on a code is cut as its row says.
    for (map, at) in [(&[][..], 0), (&[], 1), (&[0], 8), (&[0], 9), (&[0xff, 0xff], 1_000), (&[0], usize::MAX)] {
        assert_eq!((number(decode_type(map, at)), number(decode_asn(map, at))), (4, 19), "at {at}");
        assert_eq!((number(decode_match(map, at)), number(decode_jump(map, at))), (19, 19), "at {at}");
        assert_eq!(number(decode_instruction(map, at)), 4, "at {at}");
    }
    // An instruction: its opcode cut, its opcode at the end with nothing behind it, and its operand cut.
    assert_eq!((number(decode_instruction(&[0x80], 7)), number(decode_instruction(&[0xc0], 6))), (4, 4));
    assert_eq!((number(decode_instruction(&[0], 7)), number(decode_instruction(&[0x40], 6))), (19, 19));
    assert_eq!((number(decode_instruction(&[0xe0], 5)), number(decode_instruction(&[0xfb], 0))), (19, 19));
    assert_eq!(number(decode_instruction(&vec![0; MAX_MAP_BYTES + 1], usize::MAX)), 1);
}

#[test]
fn peers_are_grouped_and_picked() {
    let map = map();
    let ranked = peers(&["8.8.8.8", "3.4.0.1", "3.4.0.2", "1.2.0.1"]);
    assert_eq!(ranked.iter().map(|&peer| netgroup(peer, Some(&map))).collect::<Vec<_>>(), [0, 2, 2, 1]);
    assert_eq!(netgroup(ranked[1], None), 4_294_967_296 + 3 * 256 + 4);
    assert_eq!((prefix_group(ip("3.4.5.6")), prefix_group(ip("2001:db8::"))), (772, 0x2001_0db8));
    let occupied = HashSet::from([0]);
    let picked = pick(&ranked, 3, &occupied, Some(&map)).expect("few");
    assert_eq!((&picked.places[..], &picked.groups[..]), (&[1, 3, 0][..], &[2, 1][..]));
    assert_eq!((picked.examined, picked.instructions), (4, 58));
    assert_eq!((picked.first_pass(), picked.second_pass()), (&[1, 3][..], &[0][..]));
    assert_eq!(select_diverse(&ranked, 3, &occupied, Some(&map)), Ok(vec![ranked[1], ranked[3], ranked[0]]));
    assert_eq!(select_diverse(&ranked, 1, &occupied, None), Ok(vec![ranked[0]]));
    assert_eq!(select_diverse(&[], 3, &occupied, None), Ok(vec![]));
    assert_eq!(number(select_diverse(&vec![ranked[0]; MAX_CANDIDATES + 1], 3, &occupied, None)), 12);
    let many: HashSet<u64> = (0..=MAX_CANDIDATES as u64).collect();
    assert_eq!(number(select_diverse(&ranked, 3, &many, None)), 12);
    assert_eq!(select_diverse(&vec![ranked[0]; MAX_CANDIDATES], usize::MAX, &occupied, None), Ok(vec![ranked[0]]));
}

#[test]
fn prefixes_have_a_new_numbering_and_an_old_one() {
    for (text, old, new) in [
        ("1.2.0.0", 258, 4_294_967_554),
        ("::ffff:1.2.0.0", 0, 4_294_967_554),
        ("0:102::", 258, 258),
        ("0.0.0.0", 0, 4_294_967_296),
        ("::ffff:0.0.0.0", 0, 4_294_967_296),
        ("255.255.255.255", 65_535, 4_295_032_831),
        ("::ffff:255.255.255.255", 0, 4_295_032_831),
        ("::", 0, 0),
        ("::fffe:1.2.0.0", 0, 0),
        ("::1:ffff:1.2.0.0", 0, 0),
        ("::1.2.0.0", 0, 0),
        ("ffff:ffff::", 4_294_967_295, 4_294_967_295),
    ] {
        assert_eq!((prefix_group(ip(text)), netgroup(SocketAddr::new(ip(text), 8333), None)), (old, new), "{text}");
    }
    assert_eq!(IPV4_GROUPS, 4_294_967_296);
}

#[test]
fn a_pick_goes_by_the_numbering_of_its_call() {
    let ranked = ["1.2.0.1", "0:102::1", "::ffff:1.2.0.1", "::ffff:3.4.0.1"].map(|text| SocketAddr::new(ip(text), 8333));
    let passes = |pick: Result<Pick, Refusal>| {
        let pick = pick.expect("few");
        assert_eq!((pick.examined, pick.instructions), (4, 0));
        (pick.first_pass().to_vec(), pick.groups.clone(), pick.second_pass().to_vec())
    };
    let none = HashSet::new();
    let (of_1_2, of_3_4) = (4_294_967_554, 4_294_968_068);
    assert_eq!(passes(pick(&ranked, 9, &none, None)), (vec![0, 1, 3], vec![of_1_2, 258, of_3_4], vec![2]));
    assert_eq!(passes(old_prefix_pick(&ranked, 9, &none)), (vec![0, 2], vec![258, 0], vec![1, 3]));
    // A stored 258 is another group by each numbering.
    let stored = HashSet::from([258]);
    assert_eq!(passes(pick(&ranked, 9, &stored, None)), (vec![0, 3], vec![of_1_2, of_3_4], vec![1, 2]));
    assert_eq!(passes(old_prefix_pick(&ranked, 9, &stored)), (vec![2], vec![0], vec![0, 1, 3]));
}

#[test]
fn a_pick_by_the_old_numbering_is_refused_as_any_other() {
    let peer = SocketAddr::new(ip("1.2.0.1"), 8333);
    let most: HashSet<u64> = (0..MAX_CANDIDATES as u64).collect();
    let many: HashSet<u64> = (0..=MAX_CANDIDATES as u64).collect();
    assert_eq!(old_prefix_pick(&[], 3, &most).map(|pick| pick.places), Ok(vec![]));
    assert_eq!(old_prefix_pick(&[peer], 3, &many), Err(Refusal::TooMany));
    assert_eq!(old_prefix_pick(&vec![peer; MAX_CANDIDATES], usize::MAX, &most).map(|pick| pick.places), Ok(vec![0]));
    assert_eq!(old_prefix_pick(&vec![peer; MAX_CANDIDATES + 1], 0, &HashSet::new()), Err(Refusal::TooMany));
}

#[test]
fn occupied_groups_are_scanned_up_to_the_first_hit() {
    let scanned = |group, occupied: &[u64]| {
        let scan = scan_occupied(group, occupied).expect("within the limit");
        (scan.place, scan.read)
    };
    let occupied = [258, 772, 2056, 772, u64::MAX, 0];
    assert_eq!((scanned(258, &occupied), scanned(0, &occupied)), ((Some(0), 1), (Some(5), 6)));
    assert_eq!(scanned(772, &occupied), (Some(1), 2), "it stands twice, and the first place counts");
    assert_eq!((scanned(u64::MAX, &occupied), scanned(u64::MAX, &occupied[..4])), ((Some(4), 5), (None, 4)));
    assert_eq!((scanned(2057, &occupied), scanned(u64::MAX >> 32, &occupied)), ((None, 6), (None, 6)));
    assert_eq!(scanned(0, &[]), (None, 0));
    let many: Vec<u64> = (0..=MAX_CANDIDATES as u64).collect();
    let (last, most) = (MAX_CANDIDATES - 1, &many[..MAX_CANDIDATES]);
    assert_eq!((scanned(last as u64, most), scanned(4_096, most)), ((Some(last), 4_096), (None, 4_096)));
    // The number of groups is refused before any of them is looked at: the first would be a hit.
    assert_eq!(number(scan_occupied(0, &many)), 12);
}

#[test]
fn addresses_are_filtered() {
    assert!(clearnet_unroutable(ip("10.0.0.1")) && clearnet_unroutable(ip("::1")));
    assert!(!clearnet_unroutable(ip("8.8.8.8")) && !clearnet_unroutable(ip("fc00::1")));
    assert_eq!(addrv2_skip_relay(1, &[8, 8, 8, 8], 8333), Ok(false));
    assert_eq!(addrv2_skip_relay(1, &[8, 8, 8, 8], 0), Ok(true));
    assert_eq!(addrv2_skip_relay(3, &[0; 10], 1), Ok(true));
    assert_eq!(number(addrv2_skip_relay(3, &[0; 9], 1)), 17);
}

/// The refusals of the header: each name, in words, with its number.
fn header() -> Vec<(String, u8)> {
    let lines =
        include_str!("../../../include/corbastrigo.h").lines().skip_while(|line| !line.starts_with("enum corbastrigo_refusal"));
    let rows = lines.skip(1).take_while(|line| !line.starts_with("};"));
    rows.map(|row| {
        let (name, rest) = row.trim().trim_start_matches("CORBASTRIGO_").split_once(" = ").expect("a name and its number");
        let digits: String = rest.chars().take_while(char::is_ascii_digit).collect();
        (name.replace('_', "").to_lowercase(), digits.parse().expect("a number"))
    })
    .collect()
}

#[test]
fn every_refusal_has_the_headers_name_and_number() {
    let named: Vec<(String, u8)> = Refusal::NAMED
        .iter()
        .map(|refusal| {
            let shown = format!("{refusal:?}");
            (shown.split(' ').next().expect("a name").to_lowercase(), refusal.number())
        })
        .collect();
    assert_eq!(named, header());
    assert_eq!(named.iter().map(|row| row.1).collect::<Vec<_>>(), (1..=22).collect::<Vec<u8>>());
}

#[test]
fn a_number_makes_its_refusal_and_each_has_its_own_words() {
    let words: HashSet<&str> = Refusal::NAMED.iter().map(|refusal| refusal.reason()).collect();
    assert_eq!(words.len(), Refusal::NAMED.len());
    for number in 1..=u8::MAX {
        let refusal = Refusal::from_number(number).expect("a refusal");
        assert_eq!(refusal.number(), number);
        assert_eq!(Refusal::NAMED.contains(&refusal), refusal != Refusal::Other(number));
    }
    assert_eq!(Refusal::from_number(0), None);
    assert_eq!(Refusal::from_number(23), Some(Refusal::Other(23)));
}

#[test]
fn a_refusal_is_shown_in_words() {
    assert_eq!(Refusal::CutOpcode.to_string(), "an opcode is cut by the map's end (refusal 4)");
    assert_eq!(Refusal::CutOperand.to_string(), "an operand is cut by the map's end (refusal 19)");
    assert_eq!(format!("{:?}", Refusal::CutOpcode), "CutOpcode (refusal 4: an opcode is cut by the map's end)");
    assert_eq!(format!("{:?}", Refusal::CutOperand), "CutOperand (refusal 19: an operand is cut by the map's end)");
    assert_eq!(Refusal::Other(99).to_string(), "a reason that this version does not know (refusal 99)");
    assert_eq!(format!("{:?}", Refusal::Other(99)), "Other (refusal 99: a reason that this version does not know)");
}

/// Sixteen MATCHes of a byte, one of a bit, and a RETURN: one address bit too many.
fn sixteen_bytes_and_one_bit() -> Vec<u8> {
    let mut place = 0u32;
    let mut records = Vec::new();
    for (opcode, operand, size) in [(2, 256, 18); 16].into_iter().chain([(2, 2, 5), (0, 1, 17)]) {
        records.extend(Instruction { opcode, operand, place, size }.record());
        place += size;
    }
    pack(&records).expect("packs")
}
