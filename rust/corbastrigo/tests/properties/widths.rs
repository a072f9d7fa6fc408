//! Maps of 32 address bits over drawn programs, what the two widths have to do with each other, and that a width which is none leaves
//! everything.
use crate::calls::{self, BEFORE, BEFORE32, BEFORE_SIZE};
use crate::holds;
use crate::order::any_maps;
use crate::prefixes::failed;
use crate::programs::{programs_of, walked};
use corbastrigo::{changes, compare, compare_bits, first_change, first_change_bits, interpret_bits, list_bits, unpack_bits};
use corbastrigo::{prefixes, sanity_check_stop_bits, AsMap4, Prefix, Refusal};
use proptest::prelude::*;

#[test]
fn a_program_of_32_bits_is_accepted_at_both_widths_alike() {
    holds(1_500, programs_of(32), |program| {
        let map = program.map();
        let expected = Ok((program.instructions().len() as u32, program.depth()));
        for width in [32, 128] {
            let check = corbastrigo::sanity_check_bits(&map, width);
            prop_assert_eq!(check.map(|check| (check.count, check.depth)), expected);
            prop_assert_eq!(unpack_bits(&map, width), Ok(program.records()));
        }
        Ok(())
    });
}

#[test]
fn a_walk_by_four_bytes_ends_as_the_tree_says_and_never_aborts() {
    let longest = std::cell::Cell::new((0, 0));
    holds(1_500, walked(programs_of(32)), |(program, addresses)| {
        let map = AsMap4::checked(program.map()).map_err(failed)?;
        for address in addresses {
            let [a, b, c, d, ..] = address;
            let walk = map.walk([a, b, c, d].into());
            prop_assert_eq!((walk.end, walk.number, walk.count, walk.bits), program.walk(&address));
            prop_assert!(walk.bits <= 32 && walk.count <= 2 * u32::from(walk.bits) + 1, "{:?}", walk);
            // At 128 the first four of 16 bytes are walked by: no mapped form comes in between.
            prop_assert_eq!(interpret_bits(map.as_bytes(), &address, 128), Ok(walk));
            longest.set((longest.get().0.max(walk.bits), longest.get().1.max(walk.count)));
        }
        Ok(())
    });
    let (bits, count) = longest.get();
    assert!(bits == 32 && count > 15, "{bits} bits, {count} instructions");
}

#[test]
fn the_prefixes_of_32_bits_are_those_of_the_tree() {
    holds(1_500, programs_of(32), |program| {
        let expected: Vec<u8> = program.prefixes().into_iter().flat_map(Prefix::record).collect();
        prop_assert_eq!(list_bits(&program.map(), 32), Ok(expected.clone()));
        prop_assert!(prefixes(&expected).all(|prefix| prefix.length <= 32 && prefix.address[4..] == [0; 12]));
        Ok(())
    });
}

#[test]
fn maps_of_32_bits_are_compared_as_at_128() {
    let met = std::cell::Cell::new([0; 2]);
    let renumbered = (programs_of(32), any::<prop::sample::Index>(), 1..400_000u32)
        .prop_map(|(program, place, number)| (program.clone(), program.renumbered(place, number)));
    holds(1_500, prop_oneof![(programs_of(32), programs_of(32)), renumbered], |(old, new)| {
        let (old, new) = (old.map(), new.map());
        let records = compare_bits(&old, &new, 32);
        prop_assert_eq!(&records, &compare(&old, &new));
        prop_assert_eq!(first_change_bits(&old, &new, 32), first_change(&old, &new));
        let records = records.unwrap_or_default();
        prop_assert!(changes(&records).all(|change| change.length <= 32 && change.address[4..] == [0; 12]));
        let mut counts = met.get();
        counts[usize::from(!records.is_empty())] += 1;
        met.set(counts);
        Ok(())
    });
    assert!(met.get().iter().all(|&pairs| pairs > 20), "{:?} pairs without and with a change", met.get());
}

#[test]
fn only_the_bits_that_are_left_tell_the_widths_apart() {
    let met = std::cell::Cell::new([0; 3]);
    holds(2_500, any_maps(), |map| {
        let (four, mapped) = (sanity_check_stop_bits(&map, 32), sanity_check_stop_bits(&map, 128));
        let checks = [32, 128].map(|width| corbastrigo::sanity_check_bits(&map, width));
        let refused_for_bits = checks[0] == Err(Refusal::NoBits);
        // What is accepted at 32, or refused there for anything else, is so at 128 too, at the same bit.
        prop_assert!(refused_for_bits || checks[0] == checks[1] && four == mapped, "{:?} {:?}", four, mapped);
        let places = [four, mapped].map(|stop| stop.map(|stop| stop.place).unwrap_or_default());
        prop_assert!(places[0] <= places[1], "{:?}", places);
        let mut counts = met.get();
        counts[if refused_for_bits { 2 } else { usize::from(checks[0].is_err()) }] += 1;
        met.set(counts);
        Ok(())
    });
    assert!(met.get().iter().all(|&maps| maps > 100), "{:?} maps accepted, refused at both, refused for 32 bits", met.get());
}

#[test]
fn a_width_that_is_none_leaves_everything() {
    let widths = prop_oneof![0..300u32, any::<u32>(), any::<u32>().prop_map(|high| high << 8 | 32)];
    let widths = widths.prop_filter("no width", |width| ![32, 128].contains(width));
    holds(1_500, (any_maps(), widths, 0..18usize, 0..40usize), |(map, width, length, room)| {
        let nothing = (18, BEFORE_SIZE, vec![BEFORE; room]);
        let walk = calls::interpret_bits(&map, &vec![7; length], width);
        prop_assert_eq!(calls::sanity_check_bits(&map, width), (18, BEFORE32, BEFORE));
        prop_assert_eq!(calls::sanity_check_stop_bits(&map, width), (18, BEFORE, BEFORE_SIZE));
        prop_assert_eq!(walk, (18, BEFORE, BEFORE32, BEFORE32, BEFORE));
        prop_assert_eq!(&calls::unpack_bits(&map, width, room), &nothing);
        prop_assert_eq!(&calls::list_bits(&map, width, room), &nothing);
        prop_assert_eq!(calls::list_bytes_bits(&map, width), (18, BEFORE_SIZE));
        prop_assert_eq!(&calls::compare_bits([&map, &map], width, room), &nothing);
        prop_assert_eq!(&calls::compare_bytes_bits([&map, &map], width, room), &nothing);
        Ok(())
    });
}
