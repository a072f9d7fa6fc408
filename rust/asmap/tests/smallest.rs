//! That docs/LEARN.md's smallest maps are smallest: every string of up to three bytes is checked, and what each length can be refused
//! with is counted.
use corbastrigo::sanity_check;
use std::collections::BTreeSet;

/// The reasons that strings of a length are refused with.
fn reasons(length: u32) -> BTreeSet<u8> {
    let strings = 0..1u32 << (8 * length);
    strings.filter_map(|word| sanity_check(&word.to_le_bytes()[..length as usize]).err()).map(|refusal| refusal.number()).collect()
}

#[test]
fn no_shorter_map_is_refused_so() {
    let met: Vec<Vec<u8>> = (0..4).map(|length| reasons(length).into_iter().collect()).collect();
    assert_eq!(met, [vec![2], vec![2, 4, 19], vec![2, 4, 9, 10, 19], vec![2, 4, 5, 6, 9, 10, 19]]);
}

/// 8 is the one reason beyond four bytes but for 1: 16 MATCHes of 8 bits and one of 1 make 37 bytes, and without the last byte the map just ends.
#[test]
fn the_smallest_map_without_bits_has_37_bytes() {
    let mut records = Vec::new();
    let mut place = 0u32;
    for operand in [256u32; 16].into_iter().chain([2]) {
        let size = corbastrigo::codes::encode_instruction(2, operand).expect("in range").len as u32;
        records.extend([2u32, operand, place, size].into_iter().flat_map(u32::to_le_bytes));
        place += size;
    }
    let map = corbastrigo::pack(&records).expect("well formed");
    assert_eq!((place, map.len()), (293, 37));
    assert_eq!(sanity_check(&map).expect_err("no bits are left").number(), 8);
    assert_eq!(sanity_check(&map[..36]).expect_err("it ends").number(), 2);
}
