//! Pages of the spread: exact halves and what lies beside them, numbers of each length in each column, candidates in any order, and every
//! refusal in its order; with a map that is checked, with the same one as it is, and with none, by both numberings.
use crate::crowded::peer;
use crate::list::{List, Paging};
use crate::peers::{list_of, not_mapped, other_family, second_byte, twenty_one, LOOPBACK, MIXED, NONE};
use crate::tables::Tables;
use maps::{shapes, Random};
use oracle::asmap::{LOOPBACK_ASMAP, TWO_PREFIX_ASMAP};
use oracle::document::Refusal;
use oracle::page::LINE;
use oracle::picks::By;
use oracle::{bytes, EXAMPLES, MAPS};
use std::collections::BTreeSet;

/// Groups in the order of the list, each with how many candidates of it stand there behind one another.
type Spread<'a> = &'a [(u32, usize)];

/// Lists by prefixes, each with what it shows.
const TEACHING: [(&str, Spread); 21] = [
    ("1, 3, 5 and 7 of 16 are exact halves", &[(10, 1), (11, 3), (12, 5), (13, 7)]),
    ("2 and 6 of 32 are the same halves as 1 and 3 of 16", &[(10, 2), (11, 6), (12, 24)]),
    ("1 of 80, and 79: both are halves, and the per cents are 100.1 in all", &[(10, 1), (11, 79)]),
    ("1 of 2,000, and 1,999: the least half, and one that rounds to 100.0", &[(10, 1), (11, 1999)]),
    ("1 of 2,001: less than half a tenth", &[(10, 1), (11, 2000)]),
    ("100 of 1,599: a little more than a half", &[(10, 100), (11, 1499)]),
    ("100 of 1,600: a half", &[(10, 100), (11, 1500)]),
    ("100 of 1,601: a little less", &[(10, 100), (11, 1501)]),
    ("thirds", &[(10, 1), (11, 1), (12, 1)]),
    ("one group", &[(258, 5)]),
    ("one candidate", &[(258, 1)]),
    ("nobody", &[]),
    ("candidates of one to four digits", &[(10, 1), (11, 10), (12, 100), (13, 1000)]),
    ("4,096 candidates of one group", &[(10, 4096)]),
    ("4,096 candidates, all but one of a group", &[(10, 1), (11, 4095)]),
    ("groups of one to four digits, 0 among them", &[(0, 1), (9, 1), (10, 1), (999, 1), (1000, 1)]),
    ("groups of five to nine digits", &[(65_535, 1), (100_000, 1), (9_999_999, 1), (16_777_216, 1), (999_999_999, 1)]),
    ("the first group of ten digits, and the greatest", &[(1_000_000_000, 1), (u32::MAX, 1)]),
    ("a falling list", &[(13, 1), (12, 2), (11, 3), (10, 4)]),
    ("groups whose candidates stand apart", &[(12, 1), (10, 1), (12, 1), (11, 2), (10, 1), (12, 1)]),
    ("groups that are the same modulo 4,096 or 65,536", &[(65_546, 1), (4106, 2), (10, 3), (131_082, 4)]),
];

/// By its prefix a candidate of family 6 can have any group.
fn spread(groups: Spread) -> Vec<u8> {
    groups.iter().flat_map(|&(group, count)| peer(group.into(), 1).repeat(count)).collect()
}

/// A page by a map that is checked and by the same one as it is, or by both calls without one.
pub fn page(list: &mut List, candidates: &[u8], by: By, room: usize) -> [Result<String, Refusal>; 2] {
    // Without a map what stands in its place is not looked at.
    let (unchecked, map) = match by {
        By::Map(map) => (By::Unchecked(map), map),
        without => (without, NONE),
    };
    let inputs = Paging { list: candidates, by, map, room };
    [list.page(&inputs), list.page_unchecked(&Paging { by: unchecked, ..inputs })]
}

pub fn row(tables: &mut Tables, name: &str, made: &Result<String, Refusal>) {
    match made {
        Err(reason) => tables.row("page", format!("{name}: refused {reason}")),
        Ok(text) => {
            tables.row("page", format!("{name}: {} bytes", text.len()));
            text.lines().for_each(|line| tables.row("page", format!("  {line}")));
        }
    }
}

/// The unchecked call's stands beside the other's where it is another.
fn rows(tables: &mut Tables, name: &str, [checked, unchecked]: [Result<String, Refusal>; 2]) {
    row(tables, name, &checked);
    if unchecked != checked {
        row(tables, &format!("{name}, the map unchecked"), &unchecked);
    }
}

/// By prefixes the two calls take turns. The candidates have the same groups by both numberings.
fn teaching(list: &mut List, tables: &mut Tables) {
    list.heading("pages by prefixes, of each list by the old numbering through one call and by the new through the other");
    for (place, (name, groups)) in TEACHING.into_iter().enumerate() {
        let candidates = spread(groups);
        let old = Paging { list: &candidates, by: By::OldPrefixes, map: NONE, room: LINE * groups.len() };
        let new = Paging { by: By::Prefixes, ..old };
        let made = match place % 2 {
            0 => [list.page(&old), list.page_unchecked(&new)],
            _ => [list.page_unchecked(&old), list.page(&new)],
        };
        assert_eq!(made[0], made[1], "{name}");
        row(tables, name, &made[0]);
    }
    list.heading("pages of a few candidates, with a map and without");
    for (name, texts, by) in [
        ("mixed by the old numbering", &MIXED[..], By::OldPrefixes),
        ("mixed by the new numbering", &MIXED, By::Prefixes),
        ("mixed by TWO_PREFIX_ASMAP", &MIXED, By::Map(TWO_PREFIX_ASMAP)),
        ("loopback by the old numbering", &LOOPBACK, By::OldPrefixes),
        ("loopback by the new numbering", &LOOPBACK, By::Prefixes),
        ("loopback by LOOPBACK_ASMAP", &LOOPBACK, By::Map(LOOPBACK_ASMAP)),
        ("nobody by TWO_PREFIX_ASMAP", &[], By::Map(TWO_PREFIX_ASMAP)),
    ] {
        let made = page(list, &list_of(texts), by, LINE * texts.len());
        assert_eq!(made[0], made[1], "{name}: both come to the same where the check accepts");
        row(tables, name, &made[0]);
    }
}

/// A group of each count that there is of 16, of which every other is a half.
fn each_count(list: &mut List) {
    list.heading("pages of 16 candidates of two groups, each count of the first");
    for count in 1..16 {
        let candidates = spread(&[(10, count), (11, 16 - count)]);
        let _ = list.page(&Paging { list: &candidates, by: By::OldPrefixes, map: &[], room: 2 * LINE });
    }
}

/// Of 4,096 groups a page does not fit the program's output, and is refused here: `oracle/scale` has it.
fn many(list: &mut List) {
    list.heading("pages of 30 groups that fall, of 12 groups by turns, and of 4,096 groups, for which there is no room");
    let falling: Vec<(u32, usize)> = (0..30).rev().map(|k| (7 + 4096 * k, 1)).collect();
    let turns: Vec<(u32, usize)> = (0..60).map(|k| (k * 5 % 12, 1)).collect();
    let most: Vec<(u32, usize)> = (0..4096u32).map(|k| (k.swap_bytes(), 1)).collect();
    for (groups, room, written) in
        [(&falling, 30 * LINE, Ok(30 * LINE)), (&turns, 12 * LINE, Ok(12 * LINE)), (&most, 8192, Err(14))]
    {
        let made = list.page(&Paging { list: &spread(groups), by: By::OldPrefixes, map: &[], room });
        assert_eq!(made.map(|page| page.len()), written);
    }
}

/// Just long enough, a byte and a line shorter, none, and longer.
fn rooms(list: &mut List, tables: &mut Tables) {
    list.heading("pages: outputs just long enough, a byte and a line shorter, none, and longer");
    let four = list_of(&MIXED[..4]);
    for (name, candidates, by, needed) in [
        ("the first four of mixed by the old numbering", &four[..], By::OldPrefixes, 3 * LINE),
        ("the first four of mixed by the new numbering", &four, By::Prefixes, 3 * LINE),
        ("the first four of mixed by TWO_PREFIX_ASMAP", &four, By::Map(TWO_PREFIX_ASMAP), 3 * LINE),
        ("the first of mixed by the old numbering", &four[..20], By::OldPrefixes, LINE),
        ("the first of mixed by the new numbering", &four[..20], By::Prefixes, LINE),
        ("nobody by the old numbering", &[], By::OldPrefixes, 0),
        ("nobody by the new numbering", &[], By::Prefixes, 0),
    ] {
        let shorter = [0, LINE - 1, needed.saturating_sub(LINE), needed.saturating_sub(1)];
        let rooms: BTreeSet<usize> =
            shorter.into_iter().filter(|&room| room < needed).chain([0, 2, LINE].map(|more| needed + more)).collect();
        for room in rooms {
            let made = page(list, candidates, by, room);
            assert_eq!(made[0], made[1], "{name}");
            let said = made[0].as_ref().map_or_else(|reason| format!("refused {reason}"), |page| format!("{} bytes", page.len()));
            tables.row("page", format!("{name}, an output of {room} bytes: {said}"));
        }
    }
}

/// Each refusal with all that comes after it wrong too, where it can be: length, count, form, map, room.
fn refusals(list: &mut List, tables: &mut Tables) {
    list.heading("pages that are refused, each with all that is looked at later wrong too");
    let (two, wrong) = (list_of(&MIXED[..2]), other_family()[20..].to_vec());
    let (most, more) = (wrong.repeat(4096), wrong.repeat(4097));
    let by_none = By::Map(NONE);
    for (name, candidates, by) in [
        ("19 bytes, a map that is none, no room", &two[..19], by_none),
        ("21 bytes, a map that is none, no room", &twenty_one(), by_none),
        ("4,097 candidates of another family and a byte, a map that is none, no room", &[&more[..], &[0]].concat(), by_none),
        ("4,097 candidates of another family, a map that is none, no room", &more, by_none),
        ("4,096 candidates of another family, a map that is none, no room", &most, by_none),
        ("another family, a map that is none, no room", &other_family(), by_none),
        ("a second byte of 1, a map that is none, no room", &second_byte(), by_none),
        ("family 4 without the mapped form, a map that is none, no room", &not_mapped(), by_none),
        ("a map that is none, no room", &two, by_none),
        ("no room", &two, By::Map(TWO_PREFIX_ASMAP)),
        ("nobody, a map that is none, no room", &[], by_none),
        ("4,097 candidates by the old numbering", &two[..20].repeat(4097), By::OldPrefixes),
        ("another family by the old numbering, no room", &other_family(), By::OldPrefixes),
    ] {
        rows(tables, name, page(list, candidates, by, 0));
    }
}

/// Each byte that makes a candidate none, at the first, the middle and the last place of three.
fn forms(list: &mut List) {
    list.heading("pages: a candidate of another form at each end of a list, and between");
    for pair in [other_family(), second_byte(), not_mapped()] {
        for place in [0, 1, 2] {
            let mut candidates = pair[..20].repeat(3);
            candidates[20 * place..20 * (place + 1)].copy_from_slice(&pair[20..]);
            assert_eq!(page(list, &candidates, By::Map(TWO_PREFIX_ASMAP), LINE), [Err(13), Err(13)]);
        }
    }
}

/// The original's test maps and document 01's refused ones. A map taken as it is gives a page in any case, with 0 where its walk aborts.
fn reasons(list: &mut List, tables: &mut Tables) {
    list.heading("pages by the original's test maps and by document 01's refused ones");
    let four = list_of(&MIXED[..4]);
    for (name, map) in MAPS {
        let made = page(list, &four, By::Map(map), 3 * LINE);
        rows(tables, &format!("the first four of mixed by {name}"), made);
    }
    for map in EXAMPLES.map(bytes) {
        let [checked, unchecked] = page(list, &four[40..], By::Map(&map), 2 * LINE);
        assert!(checked.is_err() && unchecked.is_ok(), "{map:?}");
    }
}

/// Candidates that differ in their first three bits, so that groups meet, by maps made at random and damaged.
fn sample(list: &mut List) {
    list.heading("pages by maps made at random, and damaged");
    let random = &mut Random(20_261_119);
    for _ in 0..5 {
        let whole = shapes::random(random, 5, 12);
        let mut damaged = whole.clone();
        damaged[random.below(whole.len() as u64) as usize] ^= 1 << random.below(8);
        let count = random.below(5);
        let groups: Vec<(u32, usize)> =
            (0..count).map(|_| ((random.below(8) << 29) as u32, 1 + random.below(3) as usize)).collect();
        let candidates = spread(&groups);
        for by in [By::OldPrefixes, By::Map(&whole), By::Map(&damaged)] {
            let _ = page(list, &candidates, by, LINE * random.below(5) as usize);
        }
    }
}

pub fn cases(list: &mut List, tables: &mut Tables) {
    teaching(list, tables);
    each_count(list);
    many(list);
    rooms(list, tables);
    refusals(list, tables);
    forms(list);
    reasons(list, tables);
    sample(list);
}
