//! Draws and loads (document 02, CR 6): draws in a row and after numbers that show where each bit goes; loads around each limit, from seeds
//! at both ends, into outputs of each length; and loads as the maps that they are, checked and walked at both widths, unpacked and listed.
use crate::list::List;
use crate::programs::{verdict, walked};
use crate::tables::Tables;
use maps::Random;
use oracle::asmap::{DEFAULT, MATCH};
use oracle::loads::{self, other_at, Load, DEFAULT_SEED, MAX_PAIRS, MOST_BYTES, NO_LOAD};
use oracle::records;
use std::net::Ipv6Addr;

const LAST: u64 = u64::MAX;

/// None, few, around 32, and as many as there may be.
const PAIRS: [u64; 11] = [0, 1, 2, 7, 8, 31, 32, 33, 64, 127, MAX_PAIRS];

/// Too many: by one and by two, and what would be few if it were cut to a byte, to four, or to seven.
const TOO_MANY: [u64; 9] = [129, 130, 256, 256 + 128, 1 << 32, (1 << 32) + 1, (1 << 56) + 2, 1 << 63, LAST];

/// Each with how many bytes more than needed one of its outputs has.
const SEEDS: [(u64, Option<usize>); 4] = [(DEFAULT_SEED, Some(1)), (2, Some(16)), (1 << 63, None), (LAST, None)];

fn load(seed: u64, pairs: u64) -> Load {
    loads::load(seed, pairs).expect("a load")
}

/// So many draws in a row from a seed.
fn in_a_row(list: &mut List, seed: u64, count: usize) -> Vec<u64> {
    let next = |s: &u64| Some(list.draw(*s).expect("no draw is 0"));
    std::iter::successors(Some(seed), next).skip(1).take(count).collect()
}

/// The draw is made by xors alone, so what each bit by itself leads to says it all; the numbers of more bits are those in which bits meet.
fn draws(list: &mut List, tables: &mut Tables) {
    list.heading("the draw after 0, which there is not, and draws in a row from seed 1");
    assert_eq!(list.draw(0), Err(NO_LOAD));
    tables.row("loads", String::from("after 0: refused 20"));
    tables.row("loads", format!("from {DEFAULT_SEED}, the default seed"));
    for draw in in_a_row(list, DEFAULT_SEED, 16).into_iter().take(12) {
        tables.row("loads", format!("  {draw}: number {}, bit {}", 1 + draw % 65_536, draw % 2));
    }
    for seed in [2, LAST] {
        list.heading(&format!("draws in a row from seed {seed}"));
        in_a_row(list, seed, 8);
    }
    list.heading("the draw after each power of two");
    for bit in 0..64 {
        let _ = list.draw(1 << bit);
    }
    list.heading("draws after numbers of many bits");
    let patterns = [0x55, 0xaa, 0x0f, 0xf0, 0x80, 0x01].map(|byte| u64::from_le_bytes([byte; 8]));
    let ends = [7, 13, 17, 32, 47, 51, 57, 63].into_iter().flat_map(|bits| [(1u64 << bits) - 1, LAST << bits]);
    patterns.into_iter().chain(ends).chain([0x0123_4567_89ab_cdef, LAST - 1]).for_each(|s| {
        let _ = list.draw(s);
    });
    list.heading("draws after numbers made at random");
    let random = &mut Random(20_261_122);
    (0..16).for_each(|_| {
        let _ = list.draw(random.next());
    });
}

/// Just long enough, one byte shorter, and none; `longer` is how many more one more output has.
fn into_outputs(list: &mut List, seed: u64, pairs: u64, longer: Option<usize>) {
    let bytes = load(seed, pairs).bytes().len();
    assert_eq!(list.load(seed, pairs, bytes), Ok(bytes));
    assert_eq!(list.load(seed, pairs, bytes - 1), Err(14));
    assert_eq!(list.load(seed, pairs, 0), Err(14));
    if let Some(more) = longer {
        assert_eq!(list.load(seed, pairs, bytes + more), Ok(bytes));
    }
}

fn loads(list: &mut List) {
    for (seed, longer) in SEEDS {
        let more = if longer.is_some() { ", longer" } else { "" };
        list.heading(&format!("loads from seed {seed}: outputs just long enough, a byte shorter{more}, and none"));
        for pairs in PAIRS {
            into_outputs(list, seed, pairs, longer);
        }
    }
    list.heading("loads from seeds made at random");
    let random = &mut Random(20_261_123);
    for pairs in [0, 1, 3, 12, 40, 100, MAX_PAIRS] {
        into_outputs(list, random.next(), pairs, None);
    }
}

/// From seeds whose first draw is known: the number at each end of the two sizes that it can have, in a RETURN and in a DEFAULT.
fn edges(list: &mut List) {
    list.heading("loads whose first number is at an edge of its code's sizes: 1, 32768, 32769 and 65536");
    for low in [0, 32_767, 32_768, 65_535] {
        for (high, pairs) in [(1, 0), (0x0123_4567_89ab, 0), (2, 1)] {
            let seed = loads::seed_of(high << 16 | low);
            let bytes = load(seed, pairs).bytes().len();
            assert_eq!(list.load(seed, pairs, bytes), Ok(bytes));
        }
    }
}

/// With room for every load, and with none: 20 comes before 14.
fn refused(list: &mut List) {
    list.heading("loads of too many pairs, and from seed 0, into outputs with room for every load, for a byte, and for none");
    let too_many = TOO_MANY.into_iter().flat_map(|pairs| [DEFAULT_SEED, LAST].map(|seed| (seed, pairs)));
    let from_0 = PAIRS.into_iter().chain(TOO_MANY).map(|pairs| (0, pairs));
    for (seed, pairs) in too_many.chain(from_0) {
        for room in [MOST_BYTES, 0] {
            assert_eq!(list.load(seed, pairs, room), Err(NO_LOAD), "{pairs} pairs from {seed}");
        }
    }
    assert_eq!(list.load(0, 0, 1), Err(NO_LOAD));
}

fn said(&(opcode, operand): &(u32, u32)) -> String {
    let name = match opcode {
        DEFAULT => "DEFAULT",
        MATCH => "MATCH",
        _ => "RETURN",
    };
    format!("{name} {operand}")
}

/// The smallest ones in words and in bytes.
fn spelled(tables: &mut Tables) {
    for pairs in 0..3 {
        let made = load(DEFAULT_SEED, pairs);
        let instructions: Vec<String> = made.0.iter().map(said).collect();
        let bytes: Vec<String> = made.bytes().iter().map(|byte| format!("{byte:02x}")).collect();
        let name = if pairs == 1 { String::from("1 pair") } else { format!("{pairs} pairs") };
        tables.row("loads", format!("{name} from 1: {}", instructions.join(", ")));
        tables.row("loads", format!("  {} bytes: {}", bytes.len(), bytes.join(" ")));
    }
}

/// The load's own address, and those that differ at the first, the middle and the last pair.
fn addresses(made: &Load) -> Vec<(String, [u8; 16])> {
    let (own, pairs) = (made.address([0; 16]), made.pairs());
    let others = [1, pairs / 2, pairs].map(|pair| (format!("another bit at pair {pair}"), other_at(own, pair - 1)));
    [(format!("{}, its own address", Ipv6Addr::from(own)), own)].into_iter().chain(others).collect()
}

/// Check and walks; at 32 by the first four bytes of an address, which are all that 32 pairs ask for.
fn as_maps(list: &mut List, tables: &mut Tables) {
    list.heading("loads checked and walked, at both widths");
    for pairs in [32, 33, MAX_PAIRS] {
        let made = load(DEFAULT_SEED, pairs);
        let map = made.bytes();
        let check = verdict(list.check(&map));
        let [narrow, wide] = [32, 128].map(|width| list.at(width, |list| verdict(list.check(&map))));
        assert_eq!(check, wide);
        tables.row("loads", format!("{pairs} pairs from 1: {} bytes; check: at 32 {narrow}; at 128 {wide}", map.len()));
        for (name, address) in addresses(&made) {
            tables.row("loads", format!("  {name}: {}", walked(list.walk(&map, &address))));
            if pairs <= 33 {
                let narrow = walked(list.at(32, |list| list.walk(&map, &address[..4])));
                tables.row("loads", format!("    at 32: {narrow}"));
            }
        }
    }
    list.heading("small loads unpacked, packed again and listed");
    for pairs in [0, 1, 2, 5] {
        let map = load(DEFAULT_SEED, pairs).bytes();
        let records = records::unpack(&map).expect("an accepted map");
        list.unpack(&map, records.len());
        list.pack(&records, map.len());
        let _ = list.list(&map, |bytes| vec![bytes]);
    }
}

pub fn cases(list: &mut List, tables: &mut Tables) {
    draws(list, tables);
    loads(list);
    edges(list);
    refused(list);
    spelled(tables);
    as_maps(list, tables);
}
