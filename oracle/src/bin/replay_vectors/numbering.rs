//! Groups, picks and pages without a map, by both numberings: what document 02 (CR 7) says of IPv4, mapped and IPv6 addresses, everything
//! that is not quite mapped, occupied groups with the numbers of either, and every refusal in its order.
use crate::list::{List, Picking};
use crate::pages::{self, page};
use crate::peers::{self, candidate, list_of, not_mapped, other_family, second_byte, twenty_one, Case, MIXED, NONE};
use crate::tables::Tables;
use maps::Random;
use oracle::asmap::TWO_PREFIX_ASMAP;
use oracle::page::LINE;
use oracle::picks::{By, Groups, IPV4_GROUPS};
use std::net::Ipv6Addr;

/// Both numberings with their names in a table.
const NUMBERINGS: [(&str, By); 2] = [("the new numbering", By::Prefixes), ("the old numbering", By::OldPrefixes)];

/// Each end of the two ranges of numbers, addresses around the mapped ones, and other forms that hold an IPv4 address.
const EDGES: [&str; 30] = [
    "1.2.0.0:8333",
    "[::ffff:1.2.0.0]:8333",
    "[0:102::]:8333",
    "1.2.255.255:8333",
    "[::ffff:1.2.255.255]:8333",
    "1.3.0.0:8333",
    "1.1.255.255:8333",
    "2.1.0.0:8333",
    "0.0.0.0:8333",
    "[::ffff:0.0.0.0]:8333",
    "[::]:8333",
    "0.1.0.0:8333",
    "1.0.0.0:8333",
    "[0:1::]:8333",
    "255.255.255.255:8333",
    "[::ffff:255.255.255.255]:8333",
    "[0:ffff::]:8333",
    "[1::]:8333",
    "[ffff:ffff::]:8333",
    "[ffff:ffff:ffff:ffff:ffff:ffff:ffff:ffff]:8333",
    "[::fffe:ffff:ffff]:8333",
    "[::1:0:0:0]:8333",
    "[::1.2.0.0]:8333",
    "[::ffff:0:102:0]:8333",
    "[64:ff9b::102:0]:8333",
    "[2002:102::]:8333",
    "[0:0:ffff:102::]:8333",
    "[0:ffff:102::]:8333",
    "0.0.0.0:0",
    "[::ffff:0.0.0.0]:0",
];

fn edges(list: &mut List, tables: &mut Tables) {
    list.heading("groups without a map: IPv4, mapped and IPv6 addresses at each end of their numbers, by both numberings");
    for text in EDGES {
        peers::group(list, &candidate(text), TWO_PREFIX_ASMAP);
        peers::group_row(tables, "TWO_PREFIX_ASMAP", text, &candidate(text), TWO_PREFIX_ASMAP);
    }
}

/// A group by both numberings through every call that has one.
fn without_a_map(list: &mut List, candidate: &[u8]) {
    list.prefix_group(candidate);
    for (_, by) in NUMBERINGS {
        list.group(by, candidate, &[]);
        list.group_unchecked(by, candidate, &[]);
    }
}

/// Addresses that differ from a mapped one in a bit of its front, or in all bits of a byte of it: none is mapped.
fn fronts(list: &mut List) {
    list.heading("groups without a map: 1.2.3.4 mapped, with one bit of the front turned over, and with one byte of it");
    let mapped = candidate("[::ffff:1.2.3.4]:8333");
    for place in 2..14 {
        for flip in (0..8).map(|bit| 1 << bit).chain([0xff]) {
            let mut other = mapped.clone();
            other[place] ^= flip;
            let address: [u8; 16] = other[2..18].try_into().expect("16 bytes");
            assert_eq!(Ipv6Addr::from(address).to_ipv4_mapped(), None);
            assert!(Groups::new(By::Prefixes).group(&other).is_ok_and(|group| group < IPV4_GROUPS));
            list.group(By::Prefixes, &other, &[]);
            list.group_unchecked(By::Prefixes, &other, &[]);
            if flip == 0x80 || flip == 1 {
                list.prefix_group(&other);
                list.group(By::OldPrefixes, &other, &[]);
            }
        }
    }
    list.heading("groups without a map: family 4 with such a front is no candidate");
    for place in 2..14 {
        let mut other = mapped.clone();
        other[0] = 4;
        other[place] ^= if place % 2 == 0 { 1 } else { 0x80 };
        without_a_map(list, &other);
    }
}

/// Each bit of the two bytes alone and all but it, in both forms: a is the upper half of the number and b the lower.
fn two_bytes(list: &mut List) {
    list.heading("groups without a map: each bit of the first two bytes of an IPv4 address alone and all but it, in both forms");
    for bit in 0..16 {
        for [a, b] in [(1u16 << bit).to_be_bytes(), (!(1u16 << bit)).to_be_bytes()] {
            for text in [format!("{a}.{b}.0.0:1"), format!("[::ffff:{a}.{b}.255.255]:65535")] {
                let bytes = candidate(&text);
                list.group(By::Prefixes, &bytes, &[]);
                list.group_unchecked(By::Prefixes, &bytes, &[]);
                list.prefix_group(&bytes);
            }
        }
    }
}

/// IPv4 alone and mapped, of the same prefix and of others, and IPv6 with the numbers that IPv4 had; some stand there twice.
const DUAL: [&str; 12] = [
    "1.2.3.4:8333",
    "[::ffff:1.2.3.4]:8333",
    "[0:102::1]:8333",
    "[::ffff:3.4.0.1]:8333",
    "[::ffff:1.2.9.9]:8333",
    "[::ffff:3.4.0.1]:8333",
    "0.0.0.1:8333",
    "[::1]:8333",
    "8.8.8.8:8333",
    "[0:102::2]:8333",
    "1.2.3.4:8333",
    "[::ffff:8.8.8.8]:8333",
];

/// The groups of 1.2.0.0, 0.0.0.0 and 8.8.0.0 as either numbering has them: the old ones are also those of IPv6 addresses here.
const OCCUPIED: [(&str, &[u64]); 4] = [
    ("", &[]),
    (", 258 and 0 occupied", &[258, 0]),
    (", 4294967554 and 4294967296 occupied", &[4_294_967_554, 4_294_967_296]),
    (", 258, 4294969352 and 0 occupied", &[258, 4_294_969_352, 0]),
];

fn picks(list: &mut List, tables: &mut Tables) {
    let dual = list_of(&DUAL);
    peers::name_row(tables, "dual", &DUAL);
    for (numbering, by) in NUMBERINGS {
        for (taken, occupied) in OCCUPIED {
            let name = &format!("dual by {numbering}{taken}");
            peers::each_max(list, tables, &Case { name, list: &dual, occupied, by, map: NONE });
            list.heading(&format!("picks: {name}, through the other call"));
            for max in [0, 1, 3, 5, 8, 11, usize::MAX] {
                let inputs = Picking { list: &dual, occupied, max, by, map: NONE, rooms: [12, 12] };
                list.pick_unchecked(&inputs).expect("nothing that is refused");
            }
        }
    }
}

/// One address in its two forms, and IPv6 at both ends of its numbers.
const TEN_DIGITS: [&str; 7] = [
    "[::ffff:255.255.255.255]:8333",
    "0.0.0.0:8333",
    "[ffff:ffff::]:8333",
    "255.255.0.0:8333",
    "[::ffff:0.0.9.9]:8333",
    "[3b9a:ca00::]:8333",
    "[::]:8333",
];

/// An address of each prefix of twelve, in both forms, and IPv6 of the same numbers but for the 33rd bit.
fn many() -> Vec<u8> {
    let texts = (0..12).flat_map(|k| {
        let (a, b) = (7 * k, 8 * k);
        [format!("{a}.{b}.1.1:1"), format!("[::ffff:{a}.{b}.2.2]:1"), format!("[0:{:x}::]:1", 256 * a + b)]
    });
    texts.flat_map(|text| candidate(&text)).collect()
}

fn all_pages(list: &mut List, tables: &mut Tables) {
    let (dual, digits) = (list_of(&DUAL), list_of(&TEN_DIGITS));
    list.heading("pages of IPv4, mapped and IPv6 addresses, by both numberings");
    for (numbering, by) in NUMBERINGS {
        for (name, candidates) in [("dual", &dual), ("numbers of ten digits, of IPv6 and of IPv4", &digits)] {
            let [made, other] = page(list, candidates, by, candidates.len() / 20 * LINE);
            assert_eq!(made, other, "{name}");
            pages::row(tables, &format!("{name}, by {numbering}"), &made);
        }
        let [made, _] = page(list, &many(), by, 24 * LINE);
        assert_eq!(made.map(|page| page.len()), Ok(if matches!(by, By::Prefixes) { 24 * LINE } else { 12 * LINE }));
    }
    list.heading("pages of these into outputs of each length around what they need, by both numberings");
    for (_, by) in NUMBERINGS {
        let [made, _] = page(list, &digits, by, 7 * LINE);
        let needed = made.expect("room for all").len();
        for room in [0, 1, LINE, needed - LINE, needed - 1, needed, needed + 1, needed + LINE] {
            let _ = page(list, &digits, by, room);
        }
    }
}

/// Each refusal with all that comes after it wrong too, where it can be: length, count, form, room.
fn refused_picks(list: &mut List, tables: &mut Tables) {
    list.heading("picks without a map that are refused, each with all that is looked at later wrong too, by both numberings");
    let (mixed, wrong) = (list_of(&MIXED), other_family()[20..].to_vec());
    let (most, more) = (wrong.repeat(4096), wrong.repeat(4097));
    let [full, over] = [4096, 4097].map(|count| vec![0; count]);
    for (numbering, by) in NUMBERINGS {
        for (name, candidates, occupied, rooms) in [
            ("19 bytes, 4,097 occupied groups, no room", &mixed[..19], &over[..], [0, 0]),
            ("21 bytes, 4,097 occupied groups, no room", &twenty_one(), &over, [0, 0]),
            ("4,097 candidates of another family and a byte, no room", &[&more[..], &[0]].concat(), &[], [0, 0]),
            ("4,097 candidates of another family, no room", &more, &[], [0, 0]),
            ("one of another family, 4,097 occupied groups, no room", &wrong, &over, [0, 0]),
            ("nobody, 4,097 occupied groups", &[], &over, [0, 0]),
            ("4,096 candidates of another family, 4,096 occupied groups, no room", &most, &full, [0, 0]),
            ("another family, no room", &other_family(), &[], [0, 0]),
            ("a second byte of 1, no room", &second_byte(), &[], [0, 0]),
            ("family 4 without the mapped form, no room", &not_mapped(), &[], [0, 0]),
            ("a place too few", &mixed, &full, [2, 3]),
            ("a group too few", &mixed, &full, [3, 2]),
            ("outputs just long enough", &mixed, &full, [3, 3]),
        ] {
            let inputs = Picking { list: candidates, occupied, max: 3, by, map: NONE, rooms };
            let made = [list.pick(&inputs), list.pick_unchecked(&inputs)].map(|made| made.err());
            assert_eq!(made[0], made[1], "{name}");
            let said = made[0].map_or("picked".into(), |reason| format!("refused {reason}"));
            tables.row("pick", format!("{name}, by {numbering}, max 3: {said}"));
        }
    }
}

fn refused_pages(list: &mut List, tables: &mut Tables) {
    list.heading("pages without a map that are refused, each with all that is looked at later wrong too, by both numberings");
    let (two, wrong) = (list_of(&MIXED[..2]), other_family()[20..].to_vec());
    let (most, more) = (wrong.repeat(4096), wrong.repeat(4097));
    for (numbering, by) in NUMBERINGS {
        for (name, candidates) in [
            ("19 bytes, no room", &two[..19]),
            ("21 bytes, no room", &twenty_one()),
            ("4,097 candidates of another family and a byte, no room", &[&more[..], &[0]].concat()),
            ("4,097 candidates of another family, no room", &more),
            ("4,096 candidates of another family, no room", &most),
            ("another family, no room", &other_family()),
            ("a second byte of 1, no room", &second_byte()),
            ("family 4 without the mapped form, no room", &not_mapped()),
            ("no room", &two),
            ("nobody, no room", &[]),
        ] {
            let [made, other] = page(list, candidates, by, 0);
            assert_eq!(made, other, "{name}");
            pages::row(tables, &format!("{name}, by {numbering}"), &made);
        }
    }
}

/// An address with small numbers in front, so that groups meet, in each of the three forms.
fn drawn(random: &mut Random) -> Vec<u8> {
    let [a, b] = [0; 2].map(|_| random.below(3));
    let port = 1 + random.below(2);
    let text = match random.below(4) {
        0 => format!("{a}.{b}.0.{}:{port}", random.below(2)),
        1 => format!("[::ffff:{a}.{b}.0.{}]:{port}", random.below(2)),
        2 => format!("[0:{:x}::]:{port}", 256 * a + b),
        _ => format!("[::{:x}:{a}:{b}]:{port}", 0xffff ^ random.below(2)),
    };
    candidate(&text)
}

/// Drawn lists, with groups occupied that some of them have by either numbering.
fn sample(list: &mut List) {
    list.heading("picks and pages without a map of candidates drawn in all forms, by both numberings");
    let random = &mut Random(20_261_121);
    for round in 0..14 {
        let candidates: Vec<u8> = (0..1 + random.below(14)).flat_map(|_| drawn(random)).collect();
        let occupied: Vec<u64> = (0..random.below(5)).map(|_| IPV4_GROUPS * random.below(2) + 256 * random.below(3)).collect();
        let max = random.below(16) as usize;
        for (_, by) in NUMBERINGS {
            let inputs = Picking { list: &candidates, occupied: &occupied, max, by, map: &[], rooms: [15, 15] };
            let _ = if round % 2 == 0 { list.pick(&inputs) } else { list.pick_unchecked(&inputs) };
            let _ = page(list, &candidates, by, LINE * (1 + random.below(14) as usize));
        }
    }
}

pub fn cases(list: &mut List, tables: &mut Tables) {
    edges(list, tables);
    fronts(list);
    two_bytes(list);
    picks(list, tables);
    all_pages(list, tables);
    refused_picks(list, tables);
    refused_pages(list, tables);
    sample(list);
}
