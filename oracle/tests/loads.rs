//! The generator and the loads by other ways than `loads` has: draws on a row of 64 bits and in numbers of 128 with the modulus written out,
//! instructions by the writer that the trees of maps have. What comes out is held to the original as a map.
use maps::{BitWriter, Random, DEFAULT, MATCH, RETURN};
use oracle::asmap::{pack_le, sanity_check, AsMap};
use oracle::codes::word;
use oracle::document::{check, End, Verdict};
use oracle::loads::{draws, hold, load, next_draw, seed_of, DEFAULT_SEED, MOST_BYTES, NO_LOAD};
use oracle::records;

const LAST: u64 = u64::MAX;

/// The lowest first.
fn row(s: u64) -> Vec<bool> {
    (0..64).map(|k| s >> k & 1 == 1).collect()
}

/// Where two rows differ.
fn differ(a: &[bool], b: &[bool]) -> Vec<bool> {
    a.iter().zip(b).map(|(a, b)| a != b).collect()
}

/// Each bit so many places up; what leaves the row at its end is lost.
fn up(row: &[bool], places: usize) -> Vec<bool> {
    [&vec![false; places], &row[..64 - places]].concat()
}

/// Each bit so many places down.
fn down(row: &[bool], places: usize) -> Vec<bool> {
    [&row[places..], &vec![false; places]].concat()
}

fn by_rows(s: u64) -> u64 {
    let s = row(s);
    let s = differ(&s, &up(&s, 13));
    let s = differ(&s, &down(&s, 7));
    word(&differ(&s, &up(&s, 17)))
}

/// Xor as a + b - 2 × (the bits that both have).
fn by_wide_numbers(s: u64) -> u64 {
    let modulus = 1u128 << 64;
    let xored = |a: u128, b: u128| a + b - 2 * (a & b);
    let s = u128::from(s);
    let s = xored(s, s * 8_192 % modulus);
    let s = xored(s, (s - s % 128) / 128);
    xored(s, s * 131_072 % modulus) as u64
}

/// The number whose draw this is: a step is undone from the end at which its bits do not change on.
fn undone(draw: u64) -> u64 {
    let undo = |row: Vec<bool>, order: Vec<usize>, from: fn(usize) -> Option<usize>| {
        let mut s = row;
        for place in order {
            if let Some(other) = from(place).filter(|&other| other < 64) {
                s[place] ^= s[other];
            }
        }
        s
    };
    let s = undo(row(draw), (0..64).collect(), |place| place.checked_sub(17));
    let s = undo(s, (0..64).rev().collect(), |place| Some(place + 7));
    word(&undo(s, (0..64).collect(), |place| place.checked_sub(13)))
}

/// Each power of two, each number below one, patterns, and drawn numbers.
fn numbers() -> Vec<u64> {
    let powers = (0..64).flat_map(|k| [1 << k, (1u64 << k) - 1, !(1 << k)]);
    let random = &mut Random(20_261_119);
    let patterns = [LAST, 0x5555_5555_5555_5555, 0xaaaa_aaaa_aaaa_aaaa, 0x0123_4567_89ab_cdef];
    let drawn: Vec<u64> = (0..2_000).map(|_| random.next()).collect();
    powers.chain(patterns).chain(drawn).filter(|&s| s != 0).collect()
}

#[test]
fn a_draw_by_rows_of_bits_and_by_wide_numbers() {
    for s in numbers() {
        let draw = next_draw(s).expect("a draw");
        assert_eq!(draw, by_rows(s), "after {s}");
        assert_eq!(draw, by_wide_numbers(s), "after {s}");
    }
}

#[test]
fn the_first_draws_from_the_default_seed() {
    assert_eq!(DEFAULT_SEED, 1);
    let first = [1_082_269_761, 1_152_992_998_833_853_505, 11_177_516_664_432_764_457];
    assert_eq!(draws(1, 3), Ok(first.to_vec()));
    let (mut rows, mut wide) = (1, 1);
    for draw in draws(1, 10_000).expect("draws") {
        (rows, wide) = (by_rows(rows), by_wide_numbers(wide));
        assert_eq!([draw, draw], [rows, wide]);
    }
    // By hand: 1 becomes 1 + 2^13 = 8193, with 8193 / 128 = 64 xored 8257, and 8257 × 2^17 lies above that.
    assert_eq!(first[0], 8257 + 8257 * 131_072);
}

/// So no draw is 0 but after 0, and no two numbers have one draw.
#[test]
fn a_draw_can_be_undone() {
    assert_eq!(undone(0), 0);
    for s in numbers() {
        assert_eq!(undone(next_draw(s).expect("a draw")), s);
        assert_eq!(next_draw(seed_of(s)), Ok(s));
    }
}

#[test]
fn refused_are_seed_0_and_more_than_128_pairs() {
    assert_eq!(next_draw(0), Err(NO_LOAD));
    assert_eq!(draws(0, 1), Err(NO_LOAD));
    for seed in [1, 2, LAST] {
        assert_eq!(load(seed, 128).map(|load| load.pairs()), Ok(128));
        for pairs in [129, 130, 256, 1 << 32, (1 << 32) + 1, LAST] {
            assert_eq!(load(seed, pairs), Err(NO_LOAD), "{pairs} pairs from {seed}");
        }
    }
    for pairs in [0, 1, 127, 128, 129, LAST] {
        assert_eq!(load(0, pairs), Err(NO_LOAD), "{pairs} pairs from 0");
    }
}

/// By the second draw and the second writer.
fn written(seed: u64, pairs: usize) -> (Vec<u8>, usize) {
    let (mut s, mut out) = (seed, BitWriter::default());
    let mut draw = || {
        s = by_rows(s);
        u128::from(s)
    };
    for _ in 0..pairs {
        out.instruction(DEFAULT, (draw() % 65_536 + 1) as u64);
        out.instruction(MATCH, if draw() % 2 == 1 { 3 } else { 2 });
    }
    out.instruction(RETURN, (draw() % 65_536 + 1) as u64);
    (out.bytes, out.len)
}

fn seeds() -> Vec<u64> {
    let random = &mut Random(20_261_120);
    [1, 2, 1 << 63, LAST].into_iter().chain((0..8).map(|_| random.next())).collect()
}

#[test]
fn loads_by_another_writer() {
    for seed in seeds() {
        for pairs in (0..=3).chain([31, 32, 33, 127, 128]) {
            let (bytes, bits) = written(seed, pairs);
            let made = load(seed, pairs as u64).expect("a load");
            assert_eq!(made.bytes(), bytes, "{pairs} pairs from {seed}");
            assert_eq!(made.0.len(), 2 * pairs + 1);
            assert!((24 * pairs + 17..=26 * pairs + 19).contains(&bits), "{bits} bits, {pairs} pairs from {seed}");
            assert!((3..=MOST_BYTES).contains(&bytes.len()), "{} bytes, {pairs} pairs from {seed}", bytes.len());
            assert!(pairs < 128 || bytes.len() > 380, "{} bytes, {pairs} pairs from {seed}", bytes.len());
        }
    }
}

/// The draws modulo 65,536 are 8257, 5185 and 9769. Each code is spelled in bits: opcode, size, number.
#[test]
fn the_first_loads_by_hand() {
    let made = |pairs| load(DEFAULT_SEED, pairs).expect("a load");
    let bits = |text: &str| pack_le(&text.bytes().filter(|&c| c != b' ').map(|c| c == b'1').collect::<Vec<bool>>());
    assert_eq!(made(0).0, [(RETURN, 8258)]);
    assert_eq!(made(0).bytes(), bits("0 0 010000001000001"));
    assert_eq!(made(0).bytes(), [0x08, 0x04, 0x01]);
    assert_eq!(made(1).0, [(DEFAULT, 8258), (MATCH, 3), (RETURN, 9770)]);
    assert_eq!(made(1).bytes(), bits("111 0 010000001000001 110 0 1 0 0 010011000101001"));
}

/// From seeds whose first draw is known: the least and the greatest number, and those on both sides of the next size.
#[test]
fn numbers_at_the_edges_of_their_sizes() {
    for (low, number, bits) in [(0, 1, 17), (32_767, 32_768, 17), (32_768, 32_769, 19), (65_535, 65_536, 19)] {
        for high in [1, 0x0123_4567_89ab, (1 << 48) - 1] {
            let made = load(seed_of(high << 16 | low), 0).expect("a load");
            assert_eq!(made.0, [(RETURN, number)]);
            assert_eq!(written(seed_of(high << 16 | low), 0), (made.bytes(), bits));
        }
    }
}

/// What pack makes of their records, and what unpack makes of them.
#[test]
fn loads_are_packed_instructions() {
    for seed in seeds() {
        for pairs in [0, 1, 33, 128] {
            let made = load(seed, pairs).expect("a load");
            let records = records::unpack(&made.bytes()).expect("an accepted map");
            let told: Vec<(u32, u32)> = records
                .chunks(16)
                .map(|record| (u32::from(record[0]), u32::from_le_bytes(record[4..8].try_into().expect("4 bytes"))))
                .collect();
            assert_eq!(told, made.0);
            assert_eq!(records::pack(&records), Ok(made.bytes()));
        }
    }
}

#[test]
fn loads_are_held_to_the_original() {
    let random = &mut Random(20_261_121);
    for seed in seeds() {
        for pairs in 0..=128 {
            let made = load(seed, pairs).expect("a load");
            hold(&made, random);
            assert!(sanity_check(&made.bytes()));
        }
    }
}

/// What 129 pairs would be is a map that the original refuses too: there are 128 bits to match.
#[test]
fn no_address_has_bits_for_129_pairs() {
    let (bytes, _) = written(1, 129);
    assert!(!sanity_check(&bytes));
    assert_eq!(check(&bytes), Verdict::Refused(8));
}

#[test]
fn an_address_that_differs_has_the_number_before_it() {
    let made = load(DEFAULT_SEED, 3).expect("a load");
    let original = AsMap::from_bytes(made.bytes()).expect("a map that is accepted");
    // The second, the fourth and the sixth draw are odd.
    assert_eq!(made.address([0; 16])[0], 0b1110_0000);
    for (first_byte, number, count, bits) in [(0b0110_0000, 8258, 2, 1), (0b1010_0000, 9770, 4, 2), (0b1100_0000, 37_478, 6, 3)] {
        let mut address = [0; 16];
        address[0] = first_byte;
        assert_eq!(original.interpret_ip16(&address), number);
        assert_eq!(made.walked(&address), (End::Differed, number, count, bits));
    }
    let own = made.address([255; 16]);
    assert_eq!(own, [255; 16]);
    assert_eq!(original.interpret_ip16(&own), 40_562);
    assert_eq!(made.walked(&own), (End::Returned, 40_562, 7, 3));
}
