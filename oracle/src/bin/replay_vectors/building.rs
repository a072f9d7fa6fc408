//! Maps built from prefixes (document 02, CR 8): small lists that show what is joined and what is not; prefixes of each length, at both
//! ends of the addresses; numbers and JUMPs at the edges of their codes' sizes; outputs of each length; what is refused, first, in the
//! middle and last, and two faults at once; listings of maps built again; and lists made at random, whole and damaged.
use crate::list::List;
use crate::programs::{bits, nested, verdict};
use crate::tables::{runs, Tables};
use crate::{listings, widths};
use maps::lists::{first_of, record, Drawn};
use maps::{size_of, Random};
use oracle::asmap::{pack_le, JUMP, RETURN};
use oracle::building::{built, read, NUMBERS, WRONG_NUMBER, WRONG_PREFIX};
use oracle::codes::{operand_row, ROWS};
use oracle::document::Refusal;
use oracle::listing::{self, Prefix, RECORD};
use oracle::loads::{load, DEFAULT_SEED};
use oracle::width::Width;
use oracle::MAPS;
use std::net::{IpAddr, Ipv6Addr};

const BOTH: [u32; 2] = [32, 128];

/// Neither 32 nor 128: around them, both at once, and what would be one of them, or both, if it were cut to a byte.
const NO_WIDTHS: [u32; 12] = [0, 1, 31, 33, 64, 127, 129, 160, 256 + 32, 256 + 128, u32::MAX - 95, u32::MAX];

/// Lengths of prefixes: none, one bit, whole bytes, around words, and all bits but one.
const LENGTHS: [u32; 14] = [0, 1, 2, 7, 8, 9, 24, 31, 32, 33, 64, 65, 127, 128];

/// The least and the greatest number, those on both sides of the next size of a RETURN, and those that there are not.
const EDGES: [u32; 7] = [0, 1, 1 << 15, (1 << 15) + 1, NUMBERS[1], NUMBERS[1] + 1, u32::MAX];

/// What is shown, the number of all other addresses, and the prefixes; of IPv4 at width 32, of IPv6 at 128.
const SHOWN: [(&str, u32, &str); 27] = [
    ("one prefix", 1, "8000::/1 2"),
    ("all addresses in one prefix", 1, "::/0 2"),
    ("the number that all others have", 1, "2000::/3 1"),
    ("the halves of a prefix that have one number", 1, "::/1 2, 8000::/1 2"),
    ("the halves of a prefix that have two, and nobody the number given", 1, "::/1 2, 8000::/1 3"),
    ("quarters of which two fill a half", 1, "::/2 2, 4000::/2 2, 8000::/2 3, c000::/2 4"),
    ("quarters that fill everything", 1, "::/2 2, 4000::/2 2, 8000::/2 2, c000::/2 2"),
    ("prefixes of three lengths that fill everything", 1, "::/3 2, 2000::/3 2, 4000::/2 2, 8000::/1 2"),
    ("neighbours of one number that fill no prefix", 1, "4000::/2 2, 8000::/2 2"),
    ("a gap between two of one number", 1, "::/2 2, c000::/2 2"),
    ("a prefix with a gap that has its number", 1, "::/2 1, 8000::/1 2"),
    ("a gap between two that have its number", 1, "::/3 1, 6000::/3 1, 8000::/1 2"),
    ("a gap of another number", 1, "::/3 2, 6000::/3 2, 8000::/1 2"),
    ("the greatest number beside the least", NUMBERS[1], "8000::/1 1"),
    ("numbers of another size, which make a JUMP longer", 1, "::/2 32769, 4000::/2 33521664, 8000::/1 1"),
    ("numbers that end in the same two bytes, or in the same three", 1, "::/2 65537, 4000::/2 16777217, 8000::/1 1"),
    ("an IPv4 prefix at 32", 64_512, "10.0.0.0/8 64513"),
    ("the same at 128, in its mapped form", 64_512, "::ffff:10.0.0.0/104 64513"),
    ("an IPv4 prefix inside another", 1, "1.0.0.0/14 2, 1.2.0.0/16 3"),
    ("the same, with the rest of the other cut into prefixes", 1, "1.0.0.0/15 2, 1.2.0.0/16 3, 1.3.0.0/16 2"),
    ("an IPv4 prefix that is longer than an address", 1, "10.0.0.0/33 2"),
    ("a one past the prefix", 1, "10.0.0.1/24 2"),
    ("the first address at 32", 1, "0.0.0.0/32 2"),
    ("the last address at 32", 1, "255.255.255.255/32 2"),
    ("the first and the last address at 32", 1, "0.0.0.0/32 2, 255.255.255.255/32 2"),
    ("the last address at 128", 1, "ffff:ffff:ffff:ffff:ffff:ffff:ffff:ffff/128 2"),
    ("two addresses side by side that lie in no prefix of two", 1, "::1/128 2, ::2/128 2"),
];

/// A prefix as text: its record, and the width of its addresses.
fn of_text(text: &str) -> ([u8; RECORD], u32) {
    let (prefix, number) = text.split_once(' ').expect("a number");
    let (address, length) = prefix.split_once('/').expect("a length");
    let (first, width) = match address.parse().expect("an address") {
        IpAddr::V4(address) => (u128::from(u32::from(address)) << 96, 32),
        IpAddr::V6(address) => (u128::from(address), 128),
    };
    (record(first, length.parse().expect("a length"), number.parse().expect("a number")), width)
}

/// Just long enough, one byte longer, one shorter, and none.
fn into_outputs(list: &mut List, width: u32, given: u32, records: &[u8]) -> Result<usize, Refusal> {
    let bytes = list.build(width, given, records, needed(width, given, records))?;
    assert_eq!(list.build(width, given, records, bytes + 1), Ok(bytes));
    assert_eq!(list.build(width, given, records, bytes - 1), Err(14));
    assert_eq!(list.build(width, given, records, 0), Err(14));
    Ok(bytes)
}

/// How many bytes a map has; of records that are refused, three, which a RETURN has.
fn needed(width: u32, given: u32, records: &[u8]) -> usize {
    oracle::building::build(records, given, width).map_or(3, |map| map.len())
}

/// Refused with some room and with none: 14 comes last.
fn refused(list: &mut List, width: u32, given: u32, records: &[u8], reason: Refusal) {
    for room in [64, 0] {
        assert_eq!(list.build(width, given, records, room), Err(reason), "{records:02x?}, {given} at {width}");
    }
}

/// Instructions as check.txt has them; of many, how many there are.
fn instructions(records: &[u8], given: u32, width: u32) -> String {
    let (prefixes, _) = read(records, given, width).expect("a list as it has to be");
    let built = built(&prefixes, given).expect("a map");
    let said = |&(opcode, operand): &(u32, u32)| format!("{}{operand}", if opcode == JUMP { 'J' } else { 'R' });
    match built.0.len() {
        0..=15 => built.0.iter().map(said).collect::<Vec<String>>().join(" "),
        count => format!("{count} instructions, {} of them JUMPs", count / 2),
    }
}

/// A list that shows something: built into each output, the map checked and listed.
fn shown(list: &mut List, tables: &mut Tables, (name, given, text): (&str, u32, &str)) {
    let parsed: Vec<([u8; RECORD], u32)> = text.split(", ").map(of_text).collect();
    let (records, width) = (parsed.iter().flat_map(|(record, _)| *record).collect::<Vec<u8>>(), parsed[0].1);
    tables.row("build", format!("{name}: {text}; all others {given}"));
    match into_outputs(list, width, given, &records) {
        Err(reason) => tables.row("build", format!("  at {width}: refused {reason}")),
        Ok(bytes) => {
            tables.row("build", format!("  at {width}: {bytes} bytes, {}", instructions(&records, given, width)));
            let map = oracle::building::build(&records, given, width).expect("a map");
            list.at(width, |list| {
                assert!(verdict(list.check(&map)).starts_with("accepted"), "{name}");
                let _ = list.list(&map, |bytes| vec![bytes]);
            });
        }
    }
}

fn teaching(list: &mut List, tables: &mut Tables) {
    list.heading("no prefixes: a lone RETURN, into each output");
    for width in BOTH {
        for given in EDGES {
            let told = match into_outputs(list, width, given, &[]) {
                Ok(bytes) => format!("{bytes} bytes, {}", instructions(&[], given, width)),
                Err(reason) => format!("refused {reason}"),
            };
            if width == 128 {
                tables.row("build", format!("no prefixes; all others {given}: {told}"));
            }
        }
    }
    list.heading("small lists: outputs just long enough, longer, shorter, and none; the maps checked and listed");
    for example in SHOWN {
        shown(list, tables, example);
    }
}

/// A prefix of each length at the first address, at the last and at one of ones and zeros in turn; that one also beside its other half,
/// with the same number and with another.
fn lengths(list: &mut List) {
    for width in BOTH {
        list.heading(&format!("at {width}: a prefix of each length, alone and beside its other half"));
        for length in LENGTHS.into_iter().filter(|&length| length <= width) {
            let mut lists =
                [0, u128::MAX, u128::MAX / 3].map(|address| vec![record(first_of(address, length), length, 70_000)]).to_vec();
            if length > 0 {
                let half = 1 << (128 - length);
                let first = first_of(u128::MAX / 3, length) & !half;
                lists.extend([70_000, 2].map(|number| vec![record(first, length, 70_000), record(first | half, length, number)]));
            }
            for records in lists.iter().map(|list| list.concat()) {
                assert!(list.build(width, 1, &records, needed(width, 1, &records)).is_ok());
            }
        }
    }
}

/// Every number of `EDGES` in the first record, in the last and for all other addresses; then both ends of each size of a RETURN, behind a
/// JUMP that tells its length.
fn numbers(list: &mut List) {
    list.heading("numbers at the edges, in the first record, in the last, and for all other addresses");
    let halves = |numbers: [u32; 2]| [record(0x20 << 120, 3, numbers[0]), record(0x60 << 120, 3, numbers[1])].concat();
    for width in BOTH {
        for edge in EDGES {
            for (given, records) in
                [(7, halves([edge, 7])), (7, halves([9, edge])), (edge, halves([9, 9])), (edge, halves([edge, 9]))]
            {
                let room = needed(width, given, &records);
                let answer = list.build(width, given, &records, room);
                assert_eq!(answer.is_ok(), (NUMBERS[0]..=NUMBERS[1]).contains(&edge), "{edge}");
            }
        }
    }
    list.heading("both ends of each size of a RETURN, in the half over which a JUMP leads");
    for number in ROWS[1].edges().concat() {
        let records = record(0, 1, number);
        let _ = list.build(128, 2, &records, needed(128, 2, &records));
    }
}

/// So many prefixes that fill one, with numbers of any size. Hands back how many bits they have as instructions.
fn parts(random: &mut Random, of: Prefix, count: u64, out: &mut Vec<Prefix>) -> u64 {
    if count == 1 {
        let size = 15 + random.below(10);
        let number = (1 << size) - 32_767 + out.len() as u32 % 8;
        out.push(Prefix { number, ..of });
        return size_of(RETURN, number.into());
    }
    let length = of.length + 1;
    let zero = parts(random, Prefix { length, ..of }, count / 2, out);
    let one = parts(random, Prefix { first: of.first | 1 << (128 - length), length, ..of }, count - count / 2, out);
    size_of(JUMP, zero) + zero + one
}

/// Prefixes that fill the first half of all addresses, and have so many bits there.
fn first_half(random: &mut Random, bits: u32) -> Option<Vec<u8>> {
    (0..4_000).find_map(|_| {
        let [least, most] = [bits / 48, bits / 24].map(|count| u64::from(count.max(1)));
        let (count, mut prefixes) = (least + random.below(most - least + 1), vec![]);
        let made = parts(random, Prefix { first: 0, length: 1, number: 0 }, count, &mut prefixes);
        (made == u64::from(bits)).then(|| {
            assert_eq!(built(&prefixes, 9).expect("a map").0[0], (JUMP, bits));
            listing::records(&prefixes)
        })
    })
}

/// First halves of as many bits as the first and the last operand of each size of JUMPs, or as the next to these that there is: a RETURN
/// has 17, 19 to 33 or 34 bits, and no half has 49.
fn jumps(list: &mut List) {
    list.heading("JUMPs at the edges of their code's sizes");
    let random = &mut Random(20_261_130);
    for [first, last] in operand_row(JUMP).edges().into_iter().filter(|[_, last]| *last < 2_048) {
        let ends = [
            (first..first + 3).find_map(|bits| first_half(random, bits)),
            (last - 2..=last).rev().find_map(|bits| first_half(random, bits)),
        ];
        for records in ends.map(|end| end.expect("a half of about so many bits")) {
            let _ = list.build(32, 9, &records, needed(32, 9, &records));
        }
    }
}

/// Outputs of each length, for one map.
fn each_room(list: &mut List, tables: &mut Tables) {
    list.heading("outputs of each length");
    let (text, records) = ("8000::/1 2", record(1 << 127, 1, 2));
    let bytes = needed(128, 1, &records);
    let said =
        |answer: Result<usize, Refusal>| answer.map_or_else(|reason| format!("refused {reason}"), |bytes| format!("{bytes} bytes"));
    for (first, last, told) in runs((0..=bytes + 8).map(|room| (room, said(list.build(128, 1, &records, room))))) {
        tables.row("build", format!("{text}; all others 1, an output of {first} to {last} bytes: {told}"));
    }
}

/// Three prefixes that are as they have to be, at both widths: the first byte and the number of each.
const THREE: [(u128, u32); 3] = [(0x10, 5), (0x20, 6), (0x30, 7)];

/// A record with another number.
fn numbered(mut bytes: [u8; RECORD], number: u32) -> [u8; RECORD] {
    bytes[20..].copy_from_slice(&number.to_le_bytes());
    bytes
}

/// Every way in which one record can be wrong, with its name, where it stands in the place of the second of three. The number is right.
fn wrong_records(width: u32) -> Vec<(String, [u8; RECORD])> {
    let at = |first: u128, length: u32| record(first, length, 6);
    let top = 0x20u128 << 120;
    let zeros = (17..20).flat_map(|byte| [1, 128].map(|bit| (byte, bit))).map(|(byte, number)| {
        let mut bytes = at(top, 8);
        bytes[byte] = number;
        (format!("{number} in byte {byte}"), bytes)
    });
    let ones =
        [8, 9, 15, 31, 32, 64, 127].map(|bit| (format!("a one in bit {bit}, past the prefix"), at(top | 1 << (127 - bit), 8)));
    let longer = if width == 32 { [33, 34, 64, 128, 160, 255] } else { [129, 130, 136, 160, 192, 255] };
    zeros.chain(ones).chain(longer.map(|length| (format!("a length of {length}"), at(top, length)))).collect()
}

/// Records that are right alone and wrong behind a prefix that ends with this byte of an address, which is 0x10. Where that is a whole
/// address, no longer prefix is there.
fn wrong_behind(byte: u32, width: u32) -> Vec<(&'static str, [u8; RECORD])> {
    let at = |last: u128, length: u32| record(last << (120 - 8 * byte), 8 * byte + length, 6);
    let mut wrong = vec![
        ("the same again", numbered(at(0x10, 8), 5)),
        ("the same with another number", at(0x10, 8)),
        ("a prefix before it", at(0x08, 8)),
        ("all addresses", record(0, 0, 6)),
        ("a shorter prefix that begins there too", at(0x10, 4)),
    ];
    if 8 * byte + 8 < width {
        let ends = record(0x10ff << (112 - 8 * byte), 8 * byte + 16, 6);
        wrong.extend([("a longer prefix that begins there too", at(0x10, 9)), ("a longer prefix that ends there too", ends)]);
    }
    wrong
}

/// What is wrong alone as the first, the second and the last record; what is wrong behind another as the second and the last. The table has
/// what is refused at 128.
fn each_fault(list: &mut List, tables: &mut Tables, width: u32) {
    list.heading(&format!("at {width}: each fault of a record, first, in the middle and last"));
    let mut asked = |name: String, lists: &[Vec<u8>], reason: Refusal| {
        for records in lists {
            assert_eq!(list.build(width, 9, records, 64), Err(reason), "{name}");
        }
        if width == 128 {
            tables.row("build", format!("{name}: refused {reason}"));
        }
    };
    let [first, middle, last] = THREE.map(|(top, number)| record(top << 120, 8, number));
    let before = record(0x04 << 120, 8, 4);
    for (name, wrong) in wrong_records(width) {
        let lists = [[wrong, last].concat(), [first, wrong, last].concat(), [before, first, wrong].concat()];
        asked(format!("1000::/8 5, then 2000::/8 6 with {name}"), &lists, WRONG_PREFIX);
    }
    for (name, wrong) in wrong_behind(0, width) {
        let lists = [[first, wrong].concat(), [first, wrong, last].concat(), [before, first, wrong].concat()];
        asked(format!("1000::/8 5, then {name}"), &lists, WRONG_PREFIX);
    }
    for byte in [width / 8 - 2, width / 8 - 1] {
        let (address, length) = (0x10 << (120 - 8 * byte), 8 * byte + 8);
        for (name, wrong) in wrong_behind(byte, width) {
            let list = [record(address, length, 5), wrong].concat();
            asked(format!("{}/{length} 5, then {name}", Ipv6Addr::from(address)), &[list], WRONG_PREFIX);
        }
    }
    asked(String::from("1000::/8 5, 2000::/8 6, then the first again"), &[[first, middle, first].concat()], WRONG_PREFIX);
    for number in [0, NUMBERS[1] + 1, 1 << 31, u32::MAX] {
        let wrong = numbered(middle, number);
        let lists = [[wrong, last].concat(), [first, wrong, last].concat(), [before, first, wrong].concat()];
        asked(format!("1000::/8 5, then 2000::/8 {number}"), &lists, WRONG_NUMBER);
    }
}

/// Two faults at once, and of each pair the one that comes first.
fn order(list: &mut List) {
    list.heading(
        "two faults at once: the width, the bytes, the earlier record, 21 before 22, the number of all others, and room last",
    );
    let [first, middle, last] = THREE.map(|(top, number)| record(top << 120, 8, number));
    let (none, ones) = (numbered(middle, 0), record(0x21 << 120, 4, 6));
    for (all, given, reason) in [
        (&[first, numbered(ones, 0), last][..], 9, WRONG_PREFIX),
        (&[first, numbered(first, u32::MAX), last], 9, WRONG_PREFIX),
        (&[first, none, ones], 9, WRONG_NUMBER),
        (&[first, none, first], 9, WRONG_NUMBER),
        (&[first, ones, none], 9, WRONG_PREFIX),
        (&[middle, first, none], 9, WRONG_PREFIX),
        (&[none, first, last], 9, WRONG_NUMBER),
        (&[first, middle, ones], 0, WRONG_PREFIX),
        (&[first, middle, first], u32::MAX, WRONG_PREFIX),
        (&[first, middle, numbered(last, 0)], 0, WRONG_NUMBER),
        (&[first, middle, last], 0, WRONG_NUMBER),
        (&[], NUMBERS[1] + 1, WRONG_NUMBER),
    ] {
        let records = all.concat();
        BOTH.into_iter().for_each(|width| refused(list, width, given, &records, reason));
        refused(list, 33, given, &records, 18);
        assert_eq!(list.build(32, given, &[&records[..], &[0; 5]].concat(), 0), Err(WRONG_PREFIX));
    }
}

/// Numbers that are no width, and bytes that are no records.
fn no_lists(list: &mut List) {
    list.heading("widths that there are not");
    let right = THREE.map(|(top, number)| record(top << 120, 8, number)).concat();
    for width in NO_WIDTHS {
        refused(list, width, 9, &right, 18);
        refused(list, width, 9, &[], 18);
        assert_eq!(list.build(width, 0, &right[1..], 0), Err(18));
    }
    list.heading("record bytes that are no multiple of 24");
    for (width, bytes) in [1, 8, 16, 20, 23, 25, 47, 49, 71].into_iter().flat_map(|bytes| BOTH.map(|width| (width, bytes))) {
        refused(list, width, 9, &right[..bytes], WRONG_PREFIX);
        assert_eq!(list.build(width, 0, &vec![0xff; bytes], 64), Err(WRONG_PREFIX));
    }
}

/// What a map lists, built again: as it is, which is refused where it has the number 0, and without the prefixes that have it.
fn listed(list: &mut List, map: &[u8], width: u32) {
    let Ok(prefixes) = Width::of(width).and_then(|width| listing::list_bits(map, width)) else { return };
    let numbered: Vec<Prefix> = prefixes.iter().copied().filter(|prefix| prefix.number != 0).collect();
    if numbered.len() < prefixes.len() {
        assert_eq!(list.build(width, 64_512, &listing::records(&prefixes), 64), Err(WRONG_NUMBER));
    }
    let records = listing::records(&numbered);
    assert!(list.build(width, 64_512, &records, needed(width, 64_512, &records)).is_ok());
}

fn listings(list: &mut List) {
    list.heading("what maps list, built again: the original's test maps, those of the listings, and loads");
    let texts = listings::TEXTS.map(|(_, text)| pack_le(&bits(text)));
    let loads = [1, 5, 32].map(|pairs| load(DEFAULT_SEED, pairs).expect("a load").bytes());
    for map in MAPS.iter().map(|(_, map)| map.to_vec()).chain(texts).chain(loads).chain([nested(128)]) {
        listed(list, &map, 128);
    }
    list.heading("what maps list at 32, built again");
    let texts = widths::TEXTS.map(|(_, text)| pack_le(&bits(text)));
    for map in texts.into_iter().chain([load(DEFAULT_SEED, 32).expect("a load").bytes()]) {
        listed(list, &map, 32);
    }
}

/// All prefixes of one length, with numbers in turn, so that none, some and all of them join; and without one of them.
fn filled(list: &mut List) {
    list.heading("all prefixes of one length, and all but one");
    for width in BOTH {
        for (length, numbers) in [(1, 2), (2, 3), (3, 1), (3, 2), (4, 5), (5, 7)] {
            let prefix = |place: u32| record(u128::from(place) << (128 - length), length, 1 + place / 2 % numbers);
            let all: Vec<[u8; RECORD]> = (0..1 << length).map(prefix).collect();
            let missing = all.len() / 3;
            for records in [all.concat(), all[1..].concat(), [&all[..missing], &all[missing + 1..]].concat().concat()] {
                let _ = list.build(width, 3, &records, needed(width, 3, &records));
            }
        }
    }
}

/// A list with a byte or a bit changed, two records exchanged, one twice, or its end lost.
fn damaged(random: &mut Random, records: &[u8]) -> Vec<u8> {
    let mut copy = records.to_vec();
    let place = random.below(copy.len() as u64) as usize;
    let start = place - place % RECORD;
    match random.below(5) {
        0 => copy.truncate(place),
        1 => copy.extend_from_within(start..start + RECORD),
        2 if start + 2 * RECORD <= copy.len() => copy[start..start + 2 * RECORD].rotate_left(RECORD),
        3 => copy[start + 16] = copy[start + 16].wrapping_add(1),
        _ => copy[place] ^= 1 << random.below(8),
    }
    copy
}

fn sample(list: &mut List) {
    list.heading("lists made at random, and damaged");
    let random = &mut Random(20_261_131);
    for round in 0..56 {
        let width = BOTH[round % 2];
        let drawn = Drawn { width, numbers: 1 + random.below(3) };
        let count = 1 + random.below(9);
        let records = match round % 8 {
            0 => drawn.near(random, count),
            1 | 2 => drawn.spread(random, count as usize, [1, 24]),
            _ => drawn.tree(random, count),
        };
        let given = 1 + random.below(3) as u32;
        let _ = list.build(width, given, &records, needed(width, given, &records) + 3);
        let copy = damaged(random, &records);
        let _ = list.build(width, given, &copy, needed(width, given, &copy) + 3);
    }
    let many = Drawn { width: 32, numbers: 40_000 }.spread(random, 64, [20, 24]);
    assert!(list.build(32, 1, &many, needed(32, 1, &many)).is_ok());
}

pub fn cases(list: &mut List, tables: &mut Tables) {
    teaching(list, tables);
    each_room(list, tables);
    lengths(list);
    filled(list);
    numbers(list);
    jumps(list);
    BOTH.into_iter().for_each(|width| each_fault(list, tables, width));
    order(list);
    no_lists(list);
    listings(list);
    sample(list);
}
