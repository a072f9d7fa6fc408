//! Scans of the occupied groups: a hit at each place of short lists, groups that hardly differ, and lists as long as they may be.
use crate::list::List;
use crate::tables::Tables;
use oracle::document::Refusal;
use oracle::scan::Scan;

/// The largest group.
const LAST: u64 = u64::MAX;

/// A group among groups, with what it shows.
const TEACHING: [(&str, u64, &[u64]); 12] = [
    ("a hit at the first group", 9, &[9, 7, 6]),
    ("between others", 7, &[9, 7, 6]),
    ("at the last", 6, &[9, 7, 6]),
    ("of two that are the same the first", 7, &[9, 7, 6, 7]),
    ("no hit", 8, &[9, 7, 6]),
    ("no groups", 8, &[]),
    ("0 is a group as any other", 0, &[5, 0]),
    ("the greatest number", LAST, &[0, LAST]),
    ("the highest bit differs", 258, &[258 + (1 << 63), 258]),
    ("the lowest bit differs", 258, &[259, 258]),
    ("the low 32 bits are the same", 258, &[258 + (1 << 32), 258]),
    ("the same modulo 4,096", 258, &[258 + 4096, 258 + 2 * 4096]),
];

/// What stands behind a colon.
fn said(made: Result<Scan, Refusal>) -> String {
    match made {
        Err(reason) => format!("refused {reason}"),
        Ok(Scan { hit: None, read }) => format!("none, {read} read"),
        Ok(Scan { hit: Some(place), read }) => format!("place {place}, {read} read"),
    }
}

fn teaching(list: &mut List, tables: &mut Tables) {
    list.heading("scans of a few occupied groups");
    for (name, group, occupied) in TEACHING {
        let groups: Vec<String> = occupied.iter().map(u64::to_string).collect();
        let made = said(list.scan(group, occupied));
        tables.row("scan", format!("{name} ({group} among [{}]): {made}", groups.join(", ")));
    }
}

/// Lists of each length, each place of each asked for; and a group that stands nowhere.
fn each_place(list: &mut List) {
    list.heading("scans of up to 20 groups, with a hit at each place and with none");
    for length in 0..=20 {
        let occupied: Vec<u64> = (1..=length).collect();
        for group in 0..=length {
            let _ = list.scan(group, &occupied);
        }
    }
    list.heading("scans of groups that each stand three times: one behind the other, and all of them again");
    let runs: Vec<u64> = (1..=9).flat_map(|group| [group; 3]).collect();
    let again: Vec<u64> = (1..=9).cycle().take(27).collect();
    for group in 1..=10 {
        let _ = list.scan(group, &runs);
        let _ = list.scan(group, &again);
    }
}

/// A group behind one that differs in a single bit, at each bit; then all of these without it.
fn each_bit(list: &mut List) {
    list.heading("scans in which a group differs in one bit from the one asked for, at each bit");
    let group = 0x0123_4567_89ab_cdef;
    let others: Vec<u64> = (0..64).map(|bit| group ^ 1 << bit).collect();
    for &other in &others {
        let _ = list.scan(group, &[other, group]);
    }
    let _ = list.scan(group, &others);
}

/// Each list with its name and the groups that it is asked for.
fn long_lists() -> [(&'static str, Vec<u64>, Vec<u64>); 7] {
    let rising = |count: u64| (1..=count).collect::<Vec<u64>>();
    let alike = |k: u64| 258 + 4096 * k;
    let all_alike = |count: u64| (1..=count).map(alike).collect::<Vec<u64>>();
    [
        ("40 groups from 4354 on, each 4,096 more", all_alike(40), [1, 17, 40, 41, 0].map(alike).to_vec()),
        ("4,096 groups from 4354 on, each 4,096 more", all_alike(4096), [1, 17, 2048, 4096, 4097, 0].map(alike).to_vec()),
        ("4,096 groups, 1 to 4096", rising(4096), vec![1, 2, 8, 9, 2048, 4095, 4096, 4097, 0, LAST]),
        ("4,096 groups, 1 to 2048 twice", [rising(2048), rising(2048)].concat(), vec![1, 2048, 2049]),
        ("4,096 groups, all of them 7", vec![7; 4096], vec![7, 8]),
        ("4,097 groups, 1 to 4097", rising(4097), vec![1, 4096, 4097, 0]),
        ("4,100 groups, 1 to 4100", rising(4100), vec![1, 0]),
    ]
}

fn longest(list: &mut List, tables: &mut Tables) {
    for (name, occupied, asked) in long_lists() {
        list.heading(&format!("scans of {name}"));
        for group in asked {
            tables.row("scan", format!("{group} among {name}: {}", said(list.scan(group, &occupied))));
        }
    }
}

pub fn cases(list: &mut List, tables: &mut Tables) {
    teaching(list, tables);
    each_place(list);
    each_bit(list);
    longest(list, tables);
}
