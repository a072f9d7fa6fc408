//! Maps built from prefixes, by hand on a few lists, and on many by other ways than `building` has: a trie into which records are put one
//! by one and whose leaves of one number are joined from below, and a table of all addresses of few bits; both written by the writer that
//! the trees of maps have. Refusals by a way of their own too, over the bits of records as text.
use maps::lists::{damaged, number_at_an_edge, record, Drawn};
use maps::{Node, Random, Tree};
use oracle::asmap::{pack_le, LONE_RETURN_ASMAP};
use oracle::building::{build, built, hold, joined, read, stretches, MOST_BYTES, NUMBERS, TOO_LONG, WRONG_NUMBER, WRONG_PREFIX};
use oracle::document::Refusal;
use oracle::listing::{list_bits, records, Prefix, RECORD};
use oracle::width::{Width, W128, W32};

const WIDTHS: [Width; 2] = [W32, W128];

/// A trie of address bits. Where nothing was put the given number stands.
enum Trie {
    Leaf(u32),
    Fork(Box<[Trie; 2]>),
}

use Trie::{Fork, Leaf};

impl Trie {
    /// Puts a number where these bits lead: leaves on the way become forks.
    fn put(&mut self, bits: &[bool], number: u32) {
        let Some((&bit, rest)) = bits.split_first() else {
            *self = Leaf(number);
            return;
        };
        if let Leaf(before) = *self {
            *self = Fork(Box::new([Leaf(before), Leaf(before)]));
        }
        if let Fork(halves) = self {
            halves[usize::from(bit)].put(rest, number);
        }
    }

    /// Planted with leaves of one number joined from below.
    fn plant(&self, tree: &mut Tree) -> (usize, Option<u32>) {
        let halves = match self {
            Leaf(number) => return (tree.push(Node::Return(*number)), Some(*number)),
            Fork(halves) => halves,
        };
        let [zero, one] = [&halves[0], &halves[1]].map(|half| half.plant(tree));
        if zero.1.is_some() && zero.1 == one.1 {
            return zero;
        }
        (tree.push(Node::Jump(zero.0, one.0)), None)
    }
}

fn bits_of(bytes: &[u8]) -> Vec<bool> {
    bytes.iter().flat_map(|byte| (0..8).rev().map(move |k| byte >> k & 1 == 1)).collect()
}

fn planted(list: &[u8], given: u32) -> (Tree, usize) {
    let mut trie = Leaf(given);
    for bytes in list.chunks(RECORD) {
        let number = u32::from_le_bytes(bytes[20..].try_into().expect("4 bytes"));
        trie.put(&bits_of(&bytes[..16])[..usize::from(bytes[16])], number);
    }
    let mut tree = Tree::default();
    let (root, _) = trie.plant(&mut tree);
    (tree, root)
}

fn by_trie(list: &[u8], given: u32) -> Vec<u8> {
    let (tree, root) = planted(list, given);
    tree.bytes(root)
}

/// By a number for each value of the first so many bits, as the sentence has it: one number, or both halves.
fn by_table(numbers: &[u32], tree: &mut Tree) -> usize {
    if numbers.iter().all(|&number| number == numbers[0]) {
        return tree.push(Node::Return(numbers[0]));
    }
    let [zero, one] = [&numbers[..numbers.len() / 2], &numbers[numbers.len() / 2..]].map(|half| by_table(half, tree));
    tree.push(Node::Jump(zero, one))
}

fn prefixes(list: &[u8]) -> Vec<Prefix> {
    list.chunks(RECORD).map(Prefix::of_record).collect()
}

/// A list of one of the shapes, and a given number that some records have too.
fn drawn(random: &mut Random, width: Width) -> (Vec<u8>, u32) {
    let bits = width.bits();
    let drawn = Drawn { width: bits, numbers: 1 + random.below(4) };
    let most = 1 << random.below(7);
    let count = random.below(most);
    let least = random.below(u64::from(bits) + 1) as u32;
    let list = match random.below(3) {
        0 => drawn.tree(random, count),
        1 => drawn.near(random, count),
        _ => drawn.spread(random, count as usize, [least, bits]),
    };
    (list, 1 + random.below(4) as u32)
}

#[test]
fn drawn_lists_by_a_trie_and_by_the_original() {
    let random = &mut Random(20_261_124);
    let mut joins = 0;
    for round in 0..4_000 {
        let width = WIDTHS[round % 2];
        let (list, given) = drawn(random, width);
        let map = build(&list, given, width.bits()).expect("a list as it has to be");
        assert_eq!(map, by_trie(&list, given), "{list:02x?}, {given}");
        let prefixes = prefixes(&list);
        hold(&map, &prefixes, given, width, random);
        let all = stretches(&prefixes, given);
        joins += usize::from(joined(&all).len() < all.len());
    }
    assert!(joins > 1_000, "only {joins} lists had something to join");
}

/// Prefixes of up to 10 bits, so that a table of all values of these bits says it all.
#[test]
fn short_prefixes_by_a_table_of_all_addresses() {
    let random = &mut Random(20_261_125);
    for round in 0..3_000 {
        let width = WIDTHS[round % 2];
        let (most, given) = (random.below(11) as u32, 1 + random.below(3) as u32);
        let count = random.below(1 << most) as usize + 1;
        let least = random.below(u64::from(most) + 1) as u32;
        let list = Drawn { width: width.bits(), numbers: 3 }.spread(random, count, [least, most]);
        let mut numbers = vec![given; 1 << most];
        for prefix in prefixes(&list) {
            let first = prefix.first.checked_shr(128 - most).unwrap_or(0) as usize;
            numbers[first..first + (1 << (most - prefix.length))].fill(prefix.number);
        }
        let mut tree = Tree::default();
        let root = by_table(&numbers, &mut tree);
        assert_eq!(build(&list, given, width.bits()), Ok(tree.bytes(root)), "{list:02x?}, {given}");
    }
}

/// Both halves, where it has more than one address.
fn halved(prefix: Prefix, width: Width) -> Vec<Prefix> {
    if prefix.length == width.bits() {
        return vec![prefix];
    }
    let length = prefix.length + 1;
    vec![Prefix { length, ..prefix }, Prefix { first: prefix.first | 1 << (128 - length), length, ..prefix }]
}

/// The same said in other records builds the same map: what has the given number left out, a record halved, all gaps filled, and what the
/// map lists.
#[test]
fn the_map_goes_by_what_the_records_mean() {
    let random = &mut Random(20_261_126);
    for round in 0..2_000 {
        let width = WIDTHS[round % 2];
        let (list, given) = drawn(random, width);
        let map = build(&list, given, width.bits()).expect("a list as it has to be");
        let all = prefixes(&list);
        let without: Vec<Prefix> = all.iter().copied().filter(|prefix| prefix.number != given).collect();
        let halved = all.iter().flat_map(|&prefix| halved(prefix, width)).collect();
        let listed = list_bits(&map, width).expect("an accepted map");
        for (name, list) in [("without", without), ("halved", halved), ("listed", listed.clone())] {
            assert_eq!(build(&records(&list), given, width.bits()), Ok(map.clone()), "{name}: {all:x?}, {given}");
        }
        let other = 1 + random.below(u64::from(NUMBERS[1])) as u32;
        assert_eq!(build(&records(&listed), other, width.bits()), Ok(map), "all addresses are listed: {all:x?}, {given}");
    }
}

/// No JUMP has two RETURNs of one number.
#[test]
fn nothing_is_left_to_join() {
    let random = &mut Random(20_261_127);
    for round in 0..1_000 {
        let width = WIDTHS[round % 2];
        let (list, given) = drawn(random, width);
        let map = build(&list, given, width.bits()).expect("a list as it has to be");
        let listed = list_bits(&map, width).expect("an accepted map");
        for pair in listed.windows(2) {
            let twins = pair[0].length == pair[1].length && pair[0].first ^ pair[1].first == 1 << (128 - pair[0].length);
            assert!(!twins || pair[0].number != pair[1].number, "{pair:x?} can be joined: {list:02x?}, {given}");
        }
    }
}

fn one(first: u128, length: u32, number: u32) -> Vec<u8> {
    record(first << 120, length, number).to_vec()
}

/// Bits as text: opcode, size, number.
fn bits(text: &str) -> Vec<u8> {
    pack_le(&text.bytes().filter(|&c| c != b' ').map(|c| c == b'1').collect::<Vec<bool>>())
}

#[test]
fn by_hand() {
    for width in [32, 128] {
        let build = |list: &[Vec<u8>], given| build(&list.concat(), given, width);
        assert_eq!(build(&[], 1), Ok(LONE_RETURN_ASMAP.to_vec()));
        assert_eq!(build(&[one(0, 0, 1)], 7), Ok(LONE_RETURN_ASMAP.to_vec()));
        assert_eq!(build(&[one(0x20, 3, 1)], 1), Ok(LONE_RETURN_ASMAP.to_vec()));
        // JUMP 17, RETURN 2, RETURN 1: the half with bit 0 is the given one.
        let halves = bits("10 0 00000  0 0 000000000000001  0 0 000000000000000");
        assert_eq!(build(&[one(0x80, 1, 1)], 2), Ok(halves.clone()));
        assert_eq!(build(&[one(0x00, 1, 2)], 1), Ok(halves.clone()));
        assert_eq!(build(&[one(0x00, 1, 2), one(0x80, 1, 1)], 9), Ok(halves.clone()));
        assert_eq!(build(&[one(0x00, 2, 2), one(0x40, 2, 2), one(0x80, 1, 1)], 9), Ok(halves.clone()));
        assert_eq!(build(&[one(0x00, 2, 2), one(0x80, 2, 1), one(0xc0, 2, 1)], 2), Ok(halves));
        // The first half is a JUMP of 8 bits and two RETURNs of 17: JUMP 42 has 25 of 17 + 0 to 31.
        let nested = bits("10 0 11001  10 0 00000  0 0 000000000000001  0 0 000000000000010  0 0 000000000000000");
        assert_eq!(build(&[one(0x40, 2, 3), one(0x80, 1, 1)], 2), Ok(nested));
        // Two neighbours of one number that fill no prefix are not joined.
        let middle = bits(
            "10 0 11001  10 0 00000  0 0 000000000000000  0 0 000000000000001  10 0 00000  0 0 000000000000001  0 0 000000000000000",
        );
        assert_eq!(build(&[one(0x40, 2, 2), one(0x80, 2, 2)], 1), Ok(middle));
    }
}

#[test]
fn the_longest_prefixes() {
    for width in WIDTHS {
        let bits = width.bits();
        for first in [0, u128::MAX << (128 - bits), 0x5555u128 << 112] {
            let list = record(first, bits, 1);
            let (prefixes, _) = read(&list, 2, bits).expect("a list as it has to be");
            let built = built(&prefixes, 2).expect("a map");
            assert_eq!(built.0.len(), 2 * bits as usize + 1, "a JUMP for each bit, and a RETURN more");
            hold(&built.bytes(), &prefixes, 2, width, &mut Random(1));
        }
    }
}

/// What is wrong with a list, from its records as text: every fault with the place of its record, of which the first counts, and in a
/// record 21 before 22. Two records are compared with each other wherever they stand.
fn refused(list: &[u8], given: u32, width: u32) -> Option<Refusal> {
    if width != 32 && width != 128 {
        return Some(18);
    }
    if list.len() % RECORD != 0 {
        return Some(21);
    }
    let text = |bytes: &[u8]| -> String { bits_of(&bytes[..16]).into_iter().map(|bit| if bit { '1' } else { '0' }).collect() };
    let all: Vec<&[u8]> = list.chunks(RECORD).collect();
    let mut faults = vec![];
    for (place, bytes) in all.iter().enumerate() {
        let (address, length) = (text(bytes), usize::from(bytes[16]));
        let past = address.get(length..).is_some_and(|past| past.contains('1'));
        let against = |before: &&[u8]| {
            let (other, shared) = (text(before), length.min(usize::from(before[16])).min(128));
            other >= address || other[..shared] == address[..shared]
        };
        if bytes[17] | bytes[18] | bytes[19] > 0 || length > width as usize || past || all[..place].iter().any(against) {
            faults.push((place, 21));
        }
        if u32::from_le_bytes(bytes[20..].try_into().expect("4 bytes")).wrapping_sub(1) >= 33_521_664 {
            faults.push((place, 22));
        }
    }
    faults.extend((given == 0 || given > 33_521_664).then_some((all.len(), 22)));
    faults.into_iter().min().map(|(_, reason)| reason)
}

#[test]
fn damaged_lists_by_their_text() {
    let random = &mut Random(20_261_128);
    let mut counts = [0; 4];
    for round in 0..20_000 {
        let width = WIDTHS[round % 2];
        let (list, _) = drawn(random, width);
        let list = if random.percent(90) { damaged(random, &list) } else { list };
        let given = if random.percent(20) { number_at_an_edge(random) } else { 1 + random.below(3) as u32 };
        let width = if random.percent(5) { random.below(256) as u32 } else { width.bits() };
        let answer = read(&list, given, width).err();
        assert_eq!(answer, refused(&list, given, width), "{list:02x?}, {given}, {width}");
        assert_eq!(build(&list, given, width).err(), answer);
        counts
            [[None, Some(18), Some(WRONG_PREFIX), Some(WRONG_NUMBER)].iter().position(|&known| known == answer).expect("known")] +=
            1;
    }
    assert!(counts.iter().all(|&count| count > 400), "too few of an answer: {counts:?}");
}

/// Each fault alone and two at once: the width, the length, the earlier record, 21 before 22 in a record, the given number.
#[test]
fn refusals_by_hand() {
    let answer = |list: &[Vec<u8>], given, width| build(&list.concat(), given, width).err();
    let [a, b, c] = [one(0x10, 8, 5), one(0x20, 8, 6), one(0x30, 8, 7)];
    assert_eq!(answer(&[a.clone(), b.clone(), c.clone()], 1, 32), None);
    let (none, huge) = (one(0x20, 8, 0), one(0x20, 8, NUMBERS[1] + 1));
    let (long, ones) = (one(0x20, 129, 6), one(0x28, 4, 6));
    for list in [[&a, &b, &c], [&c, &b, &a], [&none, &long, &ones]].map(|list| list.map(Vec::clone)) {
        assert_eq!(answer(&list, 0, 33), Some(18));
        assert_eq!(answer(&[&list[..], &[vec![0]]].concat(), 0, 128), Some(21));
    }
    for wrong in [&long, &ones, &a, &one(0x10, 7, 6), &one(0x10, 9, 6), &one(0x00, 3, 6), &one(0x20, 8 + 128, 6)] {
        assert_eq!(answer(&[a.clone(), wrong.clone(), c.clone()], 0, 128), Some(21), "{wrong:02x?}");
        assert_eq!(answer(&[a.clone(), wrong.clone(), none.clone()], 1, 128), Some(21), "{wrong:02x?}");
    }
    for wrong in [&none, &huge] {
        assert_eq!(answer(&[a.clone(), wrong.clone(), c.clone()], 1, 128), Some(22));
        assert_eq!(answer(&[a.clone(), wrong.clone(), a.clone()], 1, 128), Some(22), "an earlier record comes first");
        assert_eq!(answer(&[b.clone(), wrong.clone()], 1, 128), Some(21), "21 before 22 in a record");
    }
    for given in [0, NUMBERS[1] + 1, u32::MAX] {
        assert_eq!(answer(&[a.clone(), c.clone()], given, 32), Some(22));
        assert_eq!(answer(&[c.clone(), a.clone()], given, 32), Some(21));
        assert_eq!(answer(&[], given, 32), Some(22));
    }
    assert_eq!(answer(&[record(0x0a << 120, 33, 1).to_vec()], 1, 32), Some(21));
    assert_eq!(answer(&[record(0x0a << 120, 33, 1).to_vec()], 1, 128), None);
    assert_eq!(answer(&[record(0x0a << 120 | 1, 8, 1).to_vec()], 1, 32), Some(21));
}

/// Records of all bits that share few: each has about a hundred JUMPs of its own.
#[test]
fn a_map_over_the_limit_is_refused() {
    let random = &mut Random(20_261_129);
    let list = Drawn { width: 128, numbers: 1 }.spread(random, 32_768, [128, 128]);
    assert_eq!(build(&list, NUMBERS[1], 128), Err(TOO_LONG));
    let (tree, root) = planted(&list, NUMBERS[1]);
    assert!(tree.bits(root) > 8 * MOST_BYTES as u64);
    let some = &list[..2_000 * RECORD];
    assert_eq!(build(some, NUMBERS[1], 128), Ok(by_trie(some, NUMBERS[1])));
}
