//! Maps built from drawn lists of prefixes, worked through here as document 02 says them (CR 8): which map it is, that lists and maps go into each
//! other, the order of the refusals, and that a refused build leaves everything.
use crate::calls;
use crate::holds;
use crate::order::{fault, first};
use crate::packed::left_the_rest;
use crate::prefixes::{ends, failed};
use crate::programs::{programs_of, Program, MOST_ASN};
use corbastrigo::{build, changes, compare_bits, list_bits, prefixes, refused_record, sanity_check_bits, AsMap, AsMap4, Prefix};
use corbastrigo::{Refusal, PREFIX_BYTES};
use proptest::prelude::*;

fn widths() -> impl Strategy<Value = u32> {
    prop::sample::select(vec![32, 128])
}

/// Numbers for all other addresses: often one that prefixes have too.
fn givens() -> impl Strategy<Value = u32> {
    prop_oneof![3 => 1..4u32, 1 => 1..MOST_ASN + 1, 1 => Just(MOST_ASN)]
}

/// The prefixes of a drawn tree, some of them left out, with so few numbers that neighbours join, or with all that there are.
fn lists(width: u32) -> impl Strategy<Value = Vec<Prefix>> {
    let numbers = prop::sample::select(vec![1, 2, 3, MOST_ASN]);
    (programs_of(width), numbers, prop::collection::vec(any::<bool>(), 1..40)).prop_map(|(program, numbers, kept)| {
        let kept = kept.into_iter().cycle();
        let renumbered = program.prefixes().into_iter().map(|prefix| Prefix { number: 1 + prefix.number % numbers, ..prefix });
        renumbered.zip(kept).filter_map(|(prefix, kept)| kept.then_some(prefix)).collect()
    })
}

/// A width and a list at that width.
fn lists_at_widths() -> impl Strategy<Value = (u32, Vec<Prefix>)> {
    widths().prop_flat_map(|width| (Just(width), lists(width)))
}

fn records(prefixes: &[Prefix]) -> Vec<u8> {
    prefixes.iter().flat_map(|prefix| prefix.record()).collect()
}

/// The program of the prefixes below so many bits: a RETURN where all its addresses have one number, else a JUMP with both halves.
fn tree(prefixes: &[Prefix], depth: u8, given: u32) -> Program {
    match prefixes {
        [] => return Program::Return(given),
        [prefix] if prefix.length == depth => return Program::Return(prefix.number),
        _ => {}
    }
    let ones = prefixes.partition_point(|prefix| u128::from_be_bytes(prefix.address) >> (127 - depth) & 1 == 0);
    let [zero, one] = [&prefixes[..ones], &prefixes[ones..]].map(|half| tree(half, depth + 1, given));
    match (&zero, &one) {
        (Program::Return(number), Program::Return(other)) if number == other => zero,
        _ => Program::jump(zero, one),
    }
}

#[test]
fn a_build_is_the_tree_of_its_prefixes_and_is_accepted() {
    let met = std::cell::Cell::new([0; 2]);
    holds(1_500, (lists_at_widths(), givens()), |((width, list), given)| {
        let program = tree(&list, 0, given);
        let map = build(&records(&list), given, width).map_err(failed)?;
        prop_assert_eq!(&map, &program.map());
        let check = sanity_check_bits(&map, width).map_err(failed)?;
        prop_assert_eq!((check.count as usize, check.depth), (program.instructions().len(), program.depth()));
        let listed: Vec<Prefix> = prefixes(&list_bits(&map, width).map_err(failed)?).collect();
        prop_assert_eq!(&listed, &program.prefixes());
        let mut counts = met.get();
        // Fewer prefixes than were listed with the gaps between them: some were joined.
        counts[usize::from(listed.len() < list.len())] += 1;
        met.set(counts);
        Ok(())
    });
    assert!(met.get().iter().all(|&lists| lists > 100), "{:?} lists that did not become shorter and that did", met.get());
}

#[test]
fn every_address_is_sent_to_the_number_of_its_record_or_to_the_given_one() {
    let addresses = prop::collection::vec((any::<u128>(), any::<prop::sample::Index>()), 1..12);
    holds(1_500, (lists_at_widths(), givens(), addresses), |((width, list), given, addresses)| {
        let (four, mapped) = match width {
            32 => (Some(AsMap4::build(&list, given).map_err(failed)?), None),
            _ => (None, Some(AsMap::build(&list, given).map_err(failed)?)),
        };
        for (address, place) in addresses {
            // Into one of the prefixes, and anywhere.
            let near = list.get(place.index(list.len().max(1))).map_or(address, |&prefix| {
                let (first, last) = ends(prefix);
                first | address & (first ^ last)
            });
            for address in [near, address] {
                let bytes = address.to_be_bytes();
                let cut = u128::MAX << (128 - width) & address;
                let around = list.iter().find(|&&prefix| (ends(prefix).0..=ends(prefix).1).contains(&cut));
                let walk = match (&four, &mapped) {
                    (Some(map), _) => map.walk([bytes[0], bytes[1], bytes[2], bytes[3]].into()),
                    (_, Some(map)) => map.walk(&bytes),
                    _ => continue,
                };
                prop_assert_eq!(walk.number, around.map_or(given, |prefix| prefix.number));
                prop_assert_eq!(walk.count, u32::from(walk.bits) + 1);
            }
        }
        Ok(())
    });
}

#[test]
fn a_map_that_is_listed_and_built_again_sends_every_address_as_before() {
    let programs = widths().prop_flat_map(|width| (Just(width), programs_of(width)));
    let met = std::cell::Cell::new([0; 2]);
    holds(1_500, (programs, givens()), |((width, program), given)| {
        let map = program.map();
        let records_of_map = list_bits(&map, width).map_err(failed)?;
        let numbered: Vec<Prefix> = prefixes(&records_of_map).filter(|prefix| prefix.number != 0).collect();
        let zero = prefixes(&records_of_map).position(|prefix| prefix.number == 0);
        // A number 0 is refused where it stands; without those records their addresses, and no others, get the given number.
        prop_assert_eq!(refused_record(&records_of_map, width), zero.map(|place| (place, Refusal::Number)));
        let built = build(&records(&numbered), given, width).map_err(failed)?;
        let changed = compare_bits(&map, &built, width).map_err(|error| TestCaseError::fail(error.to_string()))?;
        prop_assert!(changes(&changed).all(|change| (change.old, change.new) == (0, given)));
        prop_assert_eq!(changed.is_empty(), zero.is_none());
        // What it lists holds every address, so that it builds the same bytes whatever is given.
        let again = list_bits(&built, width).map_err(failed)?;
        prop_assert_eq!(build(&again, 1 + given % MOST_ASN, width).map_err(failed)?, built);
        let mut counts = met.get();
        counts[usize::from(zero.is_some())] += 1;
        met.set(counts);
        Ok(())
    });
    assert!(met.get().iter().all(|&maps| maps > 100), "{:?} maps without and with the number 0", met.get());
}

/// What is done to a list's records before it is built.
#[derive(Clone, Debug)]
enum Damage {
    None,
    /// A bit of a record is turned.
    Bit(prop::sample::Index, usize),
    /// A record's prefix length or number is another.
    Length(prop::sample::Index, u8),
    Number(prop::sample::Index, u32),
    /// A record is put where another stands, which goes to its place; or it stands there as well.
    Exchanged(prop::sample::Index, prop::sample::Index),
    Doubled(prop::sample::Index),
    /// Bytes are missing at the end.
    Cut(usize),
}

fn damages() -> impl Strategy<Value = Damage> {
    let place = any::<prop::sample::Index>;
    let numbers = prop_oneof![Just(0), Just(MOST_ASN + 1), Just(u32::MAX), any::<u32>()];
    prop_oneof![
        2 => Just(Damage::None),
        3 => (place(), 0..8 * PREFIX_BYTES).prop_map(|(place, bit)| Damage::Bit(place, bit)),
        1 => (place(), any::<u8>()).prop_map(|(place, length)| Damage::Length(place, length)),
        2 => (place(), numbers).prop_map(|(place, number)| Damage::Number(place, number)),
        1 => (place(), place()).prop_map(|(place, other)| Damage::Exchanged(place, other)),
        1 => place().prop_map(Damage::Doubled),
        1 => (1..PREFIX_BYTES).prop_map(Damage::Cut),
    ]
}

impl Damage {
    fn of(&self, list: &[Prefix]) -> Vec<u8> {
        let mut listed: Vec<_> = list.iter().map(|prefix| prefix.record()).collect();
        let count = listed.len();
        match self {
            Damage::None => {}
            _ if listed.is_empty() => {}
            Damage::Bit(place, bit) => listed[place.index(count)][bit / 8] ^= 1 << (bit % 8),
            Damage::Length(place, length) => listed[place.index(count)][16] = *length,
            Damage::Number(place, number) => listed[place.index(count)][20..].copy_from_slice(&number.to_le_bytes()),
            Damage::Exchanged(place, other) => listed.swap(place.index(count), other.index(count)),
            Damage::Doubled(place) => listed.insert(place.index(count), listed[place.index(count)]),
            Damage::Cut(bytes) => {
                let whole = listed.concat();
                return whole[..whole.len() - bytes].to_vec();
            }
        }
        listed.concat()
    }
}

/// The first record that is wrong, and its number: 21 for the prefix, 22 for the number.
fn first_wrong(records: &[u8], width: u32) -> Option<(usize, u8)> {
    let mut free_from = Some(0);
    for (place, (record, prefix)) in records.chunks_exact(PREFIX_BYTES).zip(prefixes(records)).enumerate() {
        let (first, last) = ends(prefix);
        let past = u128::MAX.checked_shr(prefix.length.into()).unwrap_or(0);
        let well = u32::from(prefix.length) <= width && first & past == 0 && record[17..20] == [0; 3];
        if !well || free_from.is_none_or(|free_from| first < free_from) {
            return Some((place, 21));
        }
        if prefix.number == 0 || prefix.number > MOST_ASN {
            return Some((place, 22));
        }
        // At width 32 the addresses of a prefix go on in 96 bits that are all its own.
        free_from = last.checked_add(1);
    }
    None
}

#[test]
fn a_build_asks_for_the_width_the_length_each_record_the_given_number_and_room() {
    let asked_width = prop_oneof![8 => Just(None), 1 => (0..300u32).prop_map(Some), 1 => any::<u32>().prop_map(Some)];
    let given = prop_oneof![6 => givens(), 1 => Just(0), 1 => Just(MOST_ASN + 1), 1 => any::<u32>()];
    let met = std::cell::Cell::new([0; 23]);
    let inputs = (lists_at_widths(), damages(), asked_width, given, 0..5usize);
    holds(4_000, inputs, |((width, list), damage, asked_width, given, room)| {
        let (bytes, width) = (damage.of(&list), asked_width.unwrap_or(width));
        let no_width = ![32, 128].contains(&width);
        let ragged = bytes.len() % PREFIX_BYTES != 0;
        let wrong = first_wrong(&bytes, width);
        let before = first(&[
            fault(no_width, 18),
            fault(ragged, 21),
            wrong.map_or(0, |(_, number)| number),
            fault(given == 0 || given > MOST_ASN, 22),
        ]);
        let map = match before {
            0 => tree(&prefixes(&bytes).collect::<Vec<_>>(), 0, given).map(),
            _ => vec![0; 40],
        };
        // From two bytes too few to two too many.
        let room = (map.len() + room).saturating_sub(2);
        let left = calls::build(&bytes, given, width, room);
        prop_assert_eq!(left.0, first(&[before, fault(room < map.len(), 14)]));
        prop_assert!(left.0 != 0 || left.2[..left.1] == map);
        prop_assert!(ragged || no_width || refused_record(&bytes, width).map(|(at, refusal)| (at, refusal.number())) == wrong);
        let mut counts = met.get();
        counts[usize::from(left.0)] += 1;
        met.set(counts);
        left_the_rest(&left)
    });
    let counts = met.get();
    assert!([0, 14, 18, 21, 22].iter().all(|&number| counts[number] > 50), "{counts:?} answers by their number");
}
