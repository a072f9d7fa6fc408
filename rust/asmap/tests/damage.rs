//! To which refusals the usual damage to a file leads. `asmap check` names it as the cause, by src/cause.rs; a change of the causes there
//! goes with one here.
mod common;
use common::{large_map, maps, text, Draws, Folder};
use corbastrigo::{sanity_check, sanity_check_stop};
use std::collections::{BTreeMap, BTreeSet};

const PAGE: usize = 4_096;

/// The number that the check gives, 0 where it accepts.
fn number(map: &[u8]) -> u8 {
    sanity_check(map).map_or_else(|refusal| refusal.number(), |_| 0)
}

/// The numbers of a map damaged at each of its whole pages.
fn numbers(map: &[u8], damage: impl Fn(&mut Vec<u8>, usize)) -> BTreeSet<u8> {
    let damaged = |page: usize| {
        let mut damaged = map.to_vec();
        damage(&mut damaged, page * PAGE);
        number(&damaged)
    };
    (0..map.len() / PAGE).map(damaged).collect()
}

/// How many of the maps have each number.
fn counts(maps: impl Iterator<Item = Vec<u8>>) -> BTreeMap<u8, usize> {
    let mut counts = BTreeMap::new();
    maps.for_each(|map| *counts.entry(number(&map)).or_default() += 1);
    counts
}

/// A map's copies, each with another of its bytes edited.
fn edited<'a>(map: &'a [u8], edit: impl Fn(&mut Vec<u8>, usize) + 'a) -> impl Iterator<Item = Vec<u8>> + 'a {
    (0..map.len()).map(move |place| {
        let mut copy = map.to_vec();
        edit(&mut copy, place);
        copy
    })
}

#[test]
fn a_lost_end_is_2_or_4_or_19_and_mostly_19() {
    let map = large_map(15, 1);
    assert_eq!(map.len(), 156_045);
    assert_eq!(numbers(&map, |map, place| map.truncate(place)), [2, 4, 19].into());
    // Most bits of a map are an operand's, so that most ends are within one, those of pages as any others.
    let pages = counts((1..=map.len() / PAGE).map(|page| map[..page * PAGE].to_vec()));
    assert_eq!(pages, [(2, 2), (4, 2), (19, 34)].into());
    let map = large_map(10, 1);
    let bytes = counts((0..map.len()).map(|end| map[..end].to_vec()));
    assert_eq!(bytes.keys().copied().collect::<Vec<_>>(), [2, 4, 19]);
    assert!(10 * bytes[&19] > 8 * map.len() && 100 * bytes[&4] > 2 * map.len(), "{bytes:?} of {}", map.len());
}

#[test]
fn an_edit_of_the_last_bytes_is_19() {
    // The last RETURN has 17 bits or more, and its opcode is the first of them.
    for lost in 1..=2 {
        assert_eq!(counts(maps().into_iter().map(|map| map[..map.len() - lost].to_vec())), [(19, maps().len())].into());
    }
    // The bits that tell the size of its number, all set: it would be a number of 24 bits.
    let longest = |mut map: Vec<u8>| {
        let last = sanity_check_stop(&map).expect("within the limit").place;
        (last + 1..last + 10).for_each(|bit| map[bit / 8] |= 1 << (bit % 8));
        map
    };
    assert_eq!(counts(maps().into_iter().map(longest)), [(19, maps().len())].into());
    // A byte taken out there: what is behind it moves up, and the end is 8 bits nearer.
    let map = large_map(12, 1);
    let taken: Vec<u8> =
        edited(&map, |map, place| drop(map.drain(place..=place))).skip(map.len() - 8).map(|map| number(&map)).collect();
    assert!(taken.iter().all(|number| [6, 19].contains(number)) && taken[2..] == [19; 6], "{taken:?}");
}

#[test]
fn an_edit_of_a_byte_is_met_at_a_jump_or_at_the_last_bytes_and_cuts_no_opcode() {
    let map = large_map(10, 1);
    let edits: [fn(&mut Vec<u8>, usize); 4] = [
        |map, place| drop(map.drain(place..=place)),
        |map, place| map.insert(place, b' '),
        |map, place| map[place] = 0xff,
        |map, place| map[place] = 0,
    ];
    for (kind, edit) in edits.into_iter().enumerate() {
        let met: Vec<u8> = edited(&map, edit).map(|map| number(&map)).collect();
        let (before, last) = met.split_at(map.len() - 8);
        assert!(before.iter().all(|number| ![2, 4, 19].contains(number)), "{kind}");
        assert!(last.iter().all(|number| ![2, 4].contains(number)), "{kind}: {last:?}");
        // A byte more or less, and all behind it has moved: most of these make a RETURN end elsewhere.
        assert!(kind > 1 || 2 * met.iter().filter(|&&number| number == 7).count() > met.len(), "{kind}");
    }
}

#[test]
fn the_cause_that_is_named_goes_by_the_cut_and_by_the_size() {
    let folder = Folder::new();
    let map = large_map(15, 1);
    let usually = |map: &[u8]| {
        folder.write("damaged.asmap", map);
        let output = folder.output(&["check", "damaged.asmap"]);
        let line = text(&output.stdout).lines().find_map(|line| line.strip_prefix("  usually  ")).map(String::from);
        (number(map), line.expect("a cause"))
    };
    for page in 1..=map.len() / PAGE {
        let (number, words) = usually(&map[..page * PAGE]);
        let begins = if number == 19 { "a last page not written" } else { "the map lost its end" };
        assert!(words.starts_with(begins) && words.contains("last page"), "{number}: {words}");
    }
    let (number, words) = usually(&map[..map.len() - 1]);
    assert!(number == 19 && words.starts_with("the map was edited") && words.contains("broke off"), "{number}: {words}");
}

#[test]
fn what_stands_behind_the_end_is_6() {
    let map = large_map(12, 1);
    assert_eq!(numbers(&map, |map, place| map.resize(map.len() + 1 + place, 0)), [6].into());
    assert_eq!(numbers(&map, |map, _| map.extend_from_within(..)), [6].into());
    assert_eq!(numbers(&map, |map, _| map.push(b'\n')), [6].into());
}

#[test]
fn damage_in_the_middle_is_a_jump_that_no_longer_fits_or_an_order_that_no_writer_makes() {
    let (map, other) = (large_map(15, 1), large_map(15, 2));
    let zeros = numbers(&map, |map, place| map[place..place + PAGE].fill(0));
    let ones = numbers(&map, |map, place| map[place..place + PAGE].fill(0xff));
    let lost = numbers(&map, |map, place| drop(map.drain(place..place + PAGE)));
    let doubled = numbers(&map, |map, place| {
        let page = map[place..place + PAGE].to_vec();
        map.splice(place..place, page);
    });
    let exchanged = numbers(&map, |map, place| map[place..place + PAGE].copy_from_slice(&other[place..place + PAGE]));
    assert_eq!(zeros, [5, 6, 7].into());
    assert_eq!(ones, [3, 5, 7, 9].into());
    assert_eq!(lost, [3, 5, 7, 9, 10].into());
    assert_eq!(doubled, [5, 7, 9, 10].into());
    assert_eq!(exchanged, [3, 5, 7, 9, 10].into());
}

#[test]
fn damage_is_met_where_it_begins_or_behind_and_never_before() {
    let map = large_map(13, 1);
    for page in 0..map.len() / PAGE {
        let mut damaged = map.clone();
        damaged[page * PAGE..][..PAGE].fill(0);
        let stop = sanity_check_stop(&damaged).expect("within the limit");
        // The instruction that reaches into the page may start before it, by less than the most bits of one.
        assert!(stop.reason.is_some() && stop.place + 57 > 8 * page * PAGE, "page {page}: {stop:?}");
    }
}

#[test]
fn a_lost_beginning_is_mostly_6() {
    let map = large_map(15, 1);
    let verdicts: Vec<u8> = (1..map.len() / PAGE).map(|page| number(&map[page * PAGE..])).collect();
    let six = verdicts.iter().filter(|&&number| number == 6).count();
    assert!(2 * six > verdicts.len() && !verdicts.contains(&0), "{verdicts:?}");
}

#[test]
fn a_changed_bit_is_often_accepted_and_only_the_digest_tells() {
    let folder = Folder::new();
    let map = large_map(12, 1);
    let mut draws = Draws(5);
    let changed = |draws: &mut Draws| {
        let bit = draws.below(8 * map.len() as u32);
        let mut changed = map.clone();
        changed[bit as usize / 8] ^= 1 << (bit % 8);
        changed
    };
    let accepted: Vec<Vec<u8>> = (0..300).map(|_| changed(&mut draws)).filter(|map| number(map) == 0).collect();
    assert!(accepted.len() > 100, "{}", accepted.len());
    folder.write("before.asmap", &map);
    folder.write("after.asmap", &accepted[0]);
    let output = folder.output(&["check", "before.asmap", "after.asmap"]);
    assert_eq!(output.status.code(), Some(0));
    let digests: BTreeSet<&str> = text(&output.stdout).lines().filter(|line| line.contains("digest")).collect();
    assert_eq!(digests.len(), 2);
}
