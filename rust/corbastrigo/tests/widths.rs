//! Maps of 32 address bits beside those of 128: each call at both widths, the refused widths, and the two kinds of map.
mod scratch;

use corbastrigo::*;
use scratch::Scratch;
use std::net::{Ipv4Addr, Ipv6Addr};

const RETURN: u32 = 0;
const JUMP: u32 = 1;
const MATCH: u32 = 2;
const DEFAULT: u32 = 3;

/// Widths that there are not: neighbours of the two, their bytes, both at once, and what would be one of them if it were cut or shifted.
const NO_WIDTHS: [u32; 14] = [0, 1, 4, 16, 31, 33, 64, 127, 129, 32 + 128, 32 + 256, 128 + 256, 32 << 8, (1 << 31) + 32];

/// The bytes of instructions, each given as opcode and operand.
fn packed(instructions: &[(u32, u32)]) -> Vec<u8> {
    let mut place = 0;
    let mut records = Vec::new();
    for &(opcode, operand) in instructions {
        let size = codes::encode_instruction(opcode, operand).expect("in range").len as u32;
        records.extend(Instruction { opcode, operand, place, size }.record());
        place += size;
    }
    pack(&records).expect("packs")
}

/// 0.0.0.0/7 is sent to 1, 2.0.0.0/7 to 2: document 01's map of two prefixes without the 96 bits in front.
fn two_prefixes() -> Vec<u8> {
    packed(&TWO_PREFIXES)
}

const TWO_PREFIXES: [(u32, u32); 4] = [(MATCH, 64), (JUMP, 17), (RETURN, 1), (RETURN, 2)];

/// The same behind the 96 bits.
fn mapped_two_prefixes() -> Vec<u8> {
    packed(&[&[(MATCH, 256); 10][..], &[(MATCH, 511); 2], &TWO_PREFIXES].concat())
}

/// So many MATCHes of a bit, each behind a DEFAULT, and a RETURN: an instruction more than two for each address bit.
fn one_by_one(bits: usize) -> Vec<u8> {
    packed(&[[(DEFAULT, 1), (MATCH, 2)].repeat(bits), vec![(RETURN, 1)]].concat())
}

/// So many jumps, all open at the last one. Each skips what is below it.
fn nested(jumps: usize) -> Vec<u8> {
    let bits = |opcode, operand| codes::encode_instruction(opcode, operand).expect("in range").len as u32;
    let mut program = vec![(RETURN, 1)];
    let mut inner = bits(RETURN, 1);
    for _ in 0..jumps {
        program = [vec![(JUMP, inner)], program, vec![(RETURN, 2)]].concat();
        inner += bits(JUMP, inner) + bits(RETURN, 2);
    }
    packed(&program)
}

/// A walk's end, number, count and bits.
fn parts(walk: Walk) -> (End, u32, u32, u8) {
    (walk.end, walk.number, walk.count, walk.bits)
}

#[test]
fn a_map_of_more_than_32_bits_is_refused_8_at_32() {
    for map in [one_by_one as fn(usize) -> Vec<u8>, nested] {
        let (most, over) = (map(32), map(33));
        assert_eq!(sanity_check_bits(&most, 32), sanity_check(&most));
        assert!(sanity_check(&most).is_ok() && sanity_check(&over).is_ok());
        assert_eq!(sanity_check_bits(&over, 32), Err(Refusal::NoBits));
        assert_eq!(sanity_check_bits(&over, 128), sanity_check(&over));
        let stop = sanity_check_stop_bits(&over, 32).expect("within the limit");
        assert_eq!(stop.reason, Some(Refusal::NoBits));
        assert!(stop.place > 0 && stop.place < sanity_check_stop(&over).expect("within the limit").place);
        assert_eq!(sanity_check_stop_bits(&over, 128), sanity_check_stop(&over));
        assert_eq!(sanity_check_stop_bits(&most, 32), sanity_check_stop(&most));
        assert_eq!((unpack_bits(&over, 32), list_bits(&over, 32)), (Err(Refusal::NoBits), Err(Refusal::NoBits)));
        assert_eq!(list_bytes_bits(&over, 32), Err(Refusal::NoBits));
        assert_eq!(unpack_bits(&most, 32), unpack(&most));
        assert!(sanity_check_bits(&map(128), 128).is_ok());
        assert_eq!(sanity_check_bits(&map(129), 128), Err(Refusal::NoBits));
    }
    let depth = |width: u32| sanity_check_bits(&nested(width as usize), width).map(|check| check.depth);
    assert_eq!([32, 128].map(depth), [Ok(32), Ok(128)]);
}

#[test]
fn the_other_reasons_are_the_same_at_both_widths() {
    for (bytes, reason) in [
        (&vec![0; MAX_MAP_BYTES + 1][..], Refusal::MapTooLong),
        (&[], Refusal::MapEnds),
        (&[0x01, 0xfb, 0x03, 0x00], Refusal::PastTarget),
        (&[0x8b], Refusal::CutOpcode),
        (&[0xfb], Refusal::CutOperand),
        (&[0x07, 0, 0], Refusal::AfterDefault),
        (&[0, 0, 2], Refusal::Padding),
        (&[0xfd, 0x71, 0x3a, 0, 0], Refusal::NotAtTarget),
        (&[1, 1], Refusal::TargetsCross),
        (&[0x63, 0, 0, 0], Refusal::ShortMatches),
    ] {
        for width in [32, 128] {
            assert_eq!(sanity_check_bits(bytes, width), Err(reason), "width {width}");
            assert_eq!(list_bits(bytes, width), Err(reason), "width {width}");
        }
    }
}

#[test]
fn four_bytes_walk_by_their_own_bits() {
    let map = two_prefixes();
    let walk = |address: [u8; 4]| parts(interpret_bits(&map, &address, 32).expect("walked"));
    assert_eq!(walk([1, 2, 3, 4]), (End::Returned, 1, 3, 7));
    assert_eq!(walk([3, 4, 0, 0]), (End::Returned, 2, 3, 7));
    assert_eq!(walk([8, 8, 8, 8]), (End::Differed, 0, 1, 5));
    // By the mapped form the same bytes have another answer: the first seven bits are then 0, whatever the address.
    let mapped = Ipv4Addr::new(8, 8, 8, 8).to_ipv6_mapped().octets();
    assert_eq!(parts(interpret_bits(&map, &mapped, 128).expect("walked")), (End::Returned, 1, 3, 7));
    // The map with the 96 bits says at 128 what this one says at 32, 96 bits and 12 instructions later.
    for address in [[1, 2, 3, 4], [3, 4, 0, 0], [8, 8, 8, 8], [255; 4]] {
        let (end, number, count, bits) = walk(address);
        let ip16 = Ipv4Addr::from(address).to_ipv6_mapped().octets();
        assert_eq!(parts(interpret(&mapped_two_prefixes(), &ip16).expect("walked")), (end, number, count + 12, bits + 96));
    }
}

#[test]
fn an_accepted_map_takes_65_instructions_at_most_and_another_may_abort() {
    let map = one_by_one(32);
    assert_eq!(parts(interpret_bits(&map, &[0; 4], 32).expect("walked")), (End::Returned, 1, 65, 32));
    let over = one_by_one(33);
    assert_eq!(parts(interpret_bits(&over, &[0; 4], 32).expect("walked")), (End::TooFewBits, 0, 66, 32));
    assert_eq!(parts(interpret_bits(&over, &[0; 16], 128).expect("walked")), (End::Returned, 1, 67, 33));
    // A JUMP needs a bit too.
    assert_eq!(parts(interpret_bits(&[0x01; 40], &[0; 4], 32).expect("walked")), (End::TooFewBits, 0, 33, 32));
    // With as many bits as JUMPs the map's end aborts it, and the operand of the last where that is cut.
    assert_eq!(parts(interpret_bits(&[0x01; 32], &[0; 4], 32).expect("walked")), (End::CutOpcode, 0, 32, 32));
    let cut = [&[0x01; 31][..], &[0x05]].concat();
    assert_eq!(parts(interpret_bits(&cut, &[0; 4], 32).expect("walked")), (End::CutOperand, 0, 31, 31));
}

#[test]
fn a_walk_asks_for_the_width_then_for_the_address_then_for_the_map() {
    let over = vec![0; MAX_MAP_BYTES + 1];
    for length in 0..=33 {
        let address = vec![0; length];
        for (width, bytes) in [(32, 4), (128, 16)] {
            let (wanted, of_map) = if length == bytes { (None, 1) } else { (Some(Refusal::AddressLength), 11) };
            assert_eq!(interpret_bits(&[0, 0, 0], &address, width).err(), wanted, "{length} bytes at width {width}");
            assert_eq!(interpret_bits(&over, &address, width).expect_err("too long").number(), of_map);
        }
        assert_eq!(interpret_bits(&over, &address, 64), Err(Refusal::Width));
    }
}

#[test]
fn any_other_width_is_refused_first_and_nothing_is_written() {
    let over = vec![0; MAX_MAP_BYTES + 1];
    let no_width = CompareError::Other(Refusal::Width);
    assert_eq!((no_width.number(), no_width.refusal().number()), (18, 18));
    let mut out = [7; 64];
    for width in NO_WIDTHS {
        // An accepted map, one that is refused for its end, and one past the limit: the width comes before all of it, and before the room.
        for map in [&[0, 0, 0][..], &[0, 0], &over] {
            assert_eq!(sanity_check_bits(map, width), Err(Refusal::Width), "{width}");
            assert_eq!(sanity_check_stop_bits(map, width), Err(Refusal::Width), "{width}");
            assert_eq!(interpret_bits(map, &[0; 4], width), Err(Refusal::Width), "{width}");
            assert_eq!(interpret_bits(map, &[0; 16], width), Err(Refusal::Width), "{width}");
            assert_eq!((unpack_bits(map, width), list_bits(map, width)), (Err(Refusal::Width), Err(Refusal::Width)), "{width}");
            assert_eq!(list_bytes_bits(map, width), Err(Refusal::Width), "{width}");
            assert_eq!((compare_bits(map, map, width), compare_bytes_bits(map, map, width)), (Err(no_width), Err(no_width)));
            assert_eq!(first_change_bits(map, &[], width), Err(no_width), "{width}");
            for room in [0, 64] {
                assert_eq!(unpack_into_bits(map, width, &mut out[..room]), Err(Refusal::Width), "{width}");
                assert_eq!(list_into_bits(map, width, &mut out[..room]), Err(Refusal::Width), "{width}");
                assert_eq!(compare_into_bits(map, map, width, &mut out[..room]), Err(no_width), "{width}");
            }
        }
    }
    assert_eq!(out, [7; 64]);
}

#[test]
fn a_list_of_32_bits_has_its_addresses_in_four_bytes() {
    let records = list_bits(&two_prefixes(), 32).expect("accepted");
    let prefix = |first: u8, length, number| {
        let mut address = [0; 16];
        address[0] = first;
        Prefix { address, length, number }
    };
    let wanted = [(0, 7, 1), (2, 7, 2), (4, 6, 0), (8, 5, 0), (16, 4, 0), (32, 3, 0), (64, 2, 0), (128, 1, 0)];
    let wanted: Vec<Prefix> = wanted.map(|(first, length, number)| prefix(first, length, number)).to_vec();
    assert_eq!(prefixes(&records).collect::<Vec<_>>(), wanted);
    assert_eq!(list_bytes_bits(&two_prefixes(), 32), Ok(8 * PREFIX_BYTES));
    // Prefixes as long as an address, and the last of them: 255.255.255.255/32 and its neighbour.
    let last = packed(&[[(MATCH, 511)].repeat(3), vec![(MATCH, 255), (JUMP, 17), (RETURN, 5), (RETURN, 6)]].concat());
    let records = list_bits(&last, 32).expect("accepted");
    let listed: Vec<Prefix> = prefixes(&records).collect();
    assert!(listed.iter().all(|prefix| prefix.length <= 32 && prefix.address[4..] == [0; 12]));
    let ends: Vec<_> = listed[31..].iter().map(|prefix| (&prefix.address[..4], prefix.length, prefix.number)).collect();
    assert_eq!(ends, [(&[255, 255, 255, 254][..], 32, 5), (&[255; 4][..], 32, 6)]);
    let mut out = [7; 200];
    assert_eq!(list_into_bits(&two_prefixes(), 32, &mut out[..191]), Err(Refusal::OutputTooShort));
    assert_eq!(out, [7; 200]);
    assert_eq!(list_into_bits(&two_prefixes(), 32, &mut out), Ok(192));
    assert_eq!((&out[..192], &out[192..]), (&list_bits(&two_prefixes(), 32).expect("accepted")[..], &[7; 8][..]));
    assert_eq!(unpack_into_bits(&two_prefixes(), 32, &mut out[..63]), Err(Refusal::OutputTooShort));
    assert_eq!(unpack_into_bits(&two_prefixes(), 32, &mut out), Ok(64));
}

#[test]
fn two_maps_are_compared_at_one_width() {
    let (old, new) = (two_prefixes(), packed(&[(MATCH, 64), (JUMP, 17), (RETURN, 1), (RETURN, 3)]));
    let mut address = [0; 16];
    address[0] = 2;
    let change = Change { address, length: 7, old: 2, new: 3 };
    assert_eq!(compare_bits(&old, &new, 32), Ok(change.record().to_vec()));
    assert_eq!((compare_bytes_bits(&old, &new, 32), first_change_bits(&old, &new, 32)), (Ok(CHANGE_BYTES), Ok(Some(address))));
    assert_eq!((compare_bits(&old, &old, 32), first_change_bits(&old, &old, 32)), (Ok(vec![]), Ok(None)));
    let over = one_by_one(33);
    for (first, second, error, number) in [
        (&over, &new, CompareError::Old(Refusal::NoBits), 8),
        (&old, &over, CompareError::New(Refusal::NoBits), 108),
        (&over, &vec![], CompareError::Old(Refusal::NoBits), 8),
    ] {
        assert_eq!((compare_bits(first, second, 32), error.number()), (Err(error), number));
        assert_eq!((compare_bytes_bits(first, second, 32), first_change_bits(first, second, 32)), (Err(error), Err(error)));
    }
    assert!(compare_bits(&old, &over, 128).is_ok());
    let mut out = [7; 30];
    let short = CompareError::Other(Refusal::OutputTooShort);
    assert_eq!(compare_into_bits(&old, &new, 32, &mut out[..27]), Err(short));
    assert_eq!(out, [7; 30]);
    assert_eq!(compare_into_bits(&old, &new, 32, &mut out), Ok(28));
    assert_eq!((&out[..28], &out[28..]), (&change.record()[..], &[7; 2][..]));
}

#[test]
fn at_128_each_answers_as_without_a_width() {
    let (one, other, cut) = (mapped_two_prefixes(), one_by_one(128), &mapped_two_prefixes()[..34]);
    for map in [&one[..], &other, &two_prefixes(), cut, &[]] {
        assert_eq!(sanity_check_bits(map, 128), sanity_check(map));
        assert_eq!(sanity_check_stop_bits(map, 128), sanity_check_stop(map));
        assert_eq!((unpack_bits(map, 128), list_bits(map, 128)), (unpack(map), list(map)));
        assert_eq!(list_bytes_bits(map, 128), list_bytes(map));
        for address in [Ipv6Addr::UNSPECIFIED, Ipv4Addr::new(3, 4, 5, 6).to_ipv6_mapped(), Ipv6Addr::from([0xff; 16])] {
            assert_eq!(interpret_bits(map, &address.octets(), 128), interpret(map, &address.octets()));
        }
        for second in [&one[..], cut] {
            assert_eq!(compare_bits(map, second, 128), compare(map, second));
            assert_eq!(compare_bytes_bits(map, second, 128), compare_bytes(map, second));
            assert_eq!(first_change_bits(map, second, 128), first_change(map, second));
        }
    }
}

#[test]
fn a_map_of_four_byte_addresses_is_made_by_its_own_check_and_walked_by_ipv4() {
    let map = AsMap4::checked(two_prefixes()).expect("accepted");
    assert_eq!(AsMap4::from_bytes(two_prefixes()), Some(map.clone()));
    assert_eq!((map.len(), map.as_bytes()), (two_prefixes().len(), &two_prefixes()[..]));
    let addresses = ["1.2.3.4", "3.4.0.0", "8.8.8.8"].map(|address| address.parse::<Ipv4Addr>().expect("an address"));
    assert_eq!(addresses.map(|address| map.mapped_as(address)), [1, 2, 0]);
    for address in addresses {
        assert_eq!(Ok(map.walk(address)), interpret_bits(map.as_bytes(), &address.octets(), 32));
    }
    // The same bytes as a map of 128 bits: another kind, whose answers are others.
    let mapped = AsMap::checked(two_prefixes()).expect("accepted");
    assert_eq!(addresses.map(|address| mapped.mapped_as(address.into())), [1, 1, 1]);
    // What the check accepts at 128 alone makes an AsMap and no AsMap4.
    let over = mapped_two_prefixes();
    assert!(AsMap::from_bytes(over.clone()).is_some());
    assert_eq!((AsMap4::checked(over.clone()), AsMap4::from_bytes(over)), (Err(Refusal::NoBits), None));
}

#[test]
fn a_map_of_four_byte_addresses_is_read_from_a_file() {
    let file = Scratch::new("four", &two_prefixes());
    let map = AsMap4::checked(two_prefixes()).expect("accepted");
    assert_eq!(AsMap4::open(&file.0).expect("accepted"), map);
    assert_eq!(AsMap4::from_path(&file.0).expect("readable"), Some(map));
    let file = Scratch::new("four-mapped", &mapped_two_prefixes());
    let error = AsMap4::open(&file.0).expect_err("more than 32 bits");
    assert_eq!((error.path(), error.refusal()), (&*file.0, Some(Refusal::NoBits)));
    assert_eq!(AsMap4::from_path(&file.0).expect("readable"), None);
    std::fs::remove_file(&file.0).expect("the file is there");
    assert!(matches!(AsMap4::open(&file.0), Err(OpenError::Unreadable { .. })));
    assert!(AsMap4::from_path(&file.0).is_err());
    assert_eq!(AsMap4::open("/dev/zero").expect_err("too long").refusal(), Some(Refusal::MapTooLong));
}

#[test]
#[cfg(feature = "digest")]
fn the_digest_is_of_the_bytes_at_either_width() {
    let (four, mapped) = (AsMap4::checked(vec![0, 0, 0]), AsMap::checked(vec![0, 0, 0]));
    let (four, mapped) = (four.expect("accepted"), mapped.expect("accepted"));
    assert_eq!((four.digest(), four.digest_hex8()), (mapped.digest(), String::from("709e80c8")));
}
