//! Loads (document 02, CR 6): the draws, what a load is made of, that it is accepted and walked through, and what is refused.
use corbastrigo::*;

/// The draw after `s`, by its definition.
fn drawn(mut s: u64) -> u64 {
    s ^= s.wrapping_mul(1 << 13);
    s ^= s / (1 << 7);
    s ^ s.wrapping_mul(1 << 17)
}

/// The draws from a seed on, by the crate's generator.
fn draws(seed: u64) -> impl Iterator<Item = u64> {
    let first = Generator::seeded(seed).expect("a seed that is not 0").next();
    std::iter::successors(Some(first), |draw| Some(draw.next())).map(Generator::draw)
}

/// Seeds of every width: each bit alone, the bits below it, and those with many.
fn seeds() -> impl Iterator<Item = u64> {
    (0..64).flat_map(|bit| [1 << bit, u64::MAX >> bit]).chain(draws(1).take(40))
}

/// The opcodes and operands of a load, by its definition.
fn expected(seed: u64, pairs: usize) -> Vec<(u32, u32)> {
    let mut s = seed;
    let mut next = || {
        s = drawn(s);
        s
    };
    let mut listed = Vec::new();
    for _ in 0..pairs {
        listed.push((3, 1 + (next() % 65_536) as u32));
        listed.push((2, 2 + (next() % 2) as u32));
    }
    listed.push((0, 1 + (next() % 65_536) as u32));
    listed
}

/// The instructions that a map lists, which stand one behind the other.
fn listed(map: &[u8]) -> Vec<(u32, u32)> {
    let mut place = 0;
    let records = unpack(map).expect("accepted");
    let read = instructions(&records).map(|instruction| {
        assert_eq!(instruction.place, place);
        place += instruction.size;
        (instruction.opcode, instruction.operand)
    });
    read.collect()
}

#[test]
fn the_draws_are_those_of_the_definition_and_never_end() {
    assert_eq!(Generator::DEFAULT_SEED, 1);
    let first: Vec<u64> = draws(Generator::DEFAULT_SEED).take(4).collect();
    assert_eq!(first, [1_082_269_761, 1_152_992_998_833_853_505, 11_177_516_664_432_764_457, 17_678_023_832_001_937_445]);
    for seed in seeds() {
        let mut s = seed;
        for draw in draws(seed).take(300) {
            // A state that the library refused would stand still, and 0 is the one that it refuses.
            assert!(draw != 0 && draw != s, "{draw} after {s}");
            s = drawn(s);
            assert_eq!(draw, s);
        }
    }
}

#[test]
fn a_generator_is_a_value() {
    let generator = Generator::seeded(7).expect("a seed that is not 0");
    let copy = generator;
    assert_eq!((generator.draw(), generator.next(), copy.next().draw()), (7, copy.next(), drawn(7)));
    assert_ne!(generator, generator.next());
    assert_eq!(Generator::seeded(0), Err(Refusal::Load));
}

#[test]
fn a_load_lists_what_was_drawn_and_is_padded_with_zeros() {
    for seed in seeds() {
        for pairs in [0, 1, 2, 31, 127, 128] {
            let map = load(seed, pairs).expect("a load");
            assert_eq!(listed(&map), expected(seed, pairs), "{pairs} pairs from {seed}");
            assert_eq!(pack(&unpack(&map).expect("accepted")), Ok(map));
        }
    }
}

#[test]
fn a_load_is_accepted_and_its_address_walks_through_all_of_it() {
    for pairs in 0..=MAX_PAIRS {
        for seed in [1, 2, 1 << 63, u64::MAX] {
            let map = load(seed, pairs).expect("a load");
            let count = 2 * pairs as u32 + 1;
            let check = sanity_check(&map).expect("accepted");
            assert_eq!((check.count, check.depth), (count, 0));
            let number = expected(seed, pairs)[2 * pairs].1;
            let address = load_address(seed, pairs).expect("a load");
            let walk = interpret(&map, &address).expect("16 bytes");
            assert_eq!((walk.end, walk.number, walk.count, walk.bits), (End::Returned, number, count, pairs as u8));
            // The bits behind those of the MATCHes are 0, and nothing asks for them.
            let (bits, rest) = (u128::from_be_bytes(address), u128::MAX.checked_shr(pairs as u32).unwrap_or(0));
            assert_eq!(bits & rest, 0);
            assert_eq!(interpret(&map, &(bits | rest).to_be_bytes()), Ok(walk));
        }
    }
}

#[test]
fn an_address_that_differs_in_a_bit_leaves_there_with_the_default() {
    let (map, instructions) = (load(1, 128).expect("a load"), expected(1, 128));
    let address = u128::from_be_bytes(load_address(1, 128).expect("a load"));
    for place in 0..128 {
        let walk = interpret(&map, &(address ^ 1 << (127 - place)).to_be_bytes()).expect("16 bytes");
        let default = instructions[2 * place].1;
        assert_eq!((walk.end, walk.number, walk.count), (End::Differed, default, 2 * place as u32 + 2));
    }
}

#[test]
fn a_load_of_at_most_32_pairs_is_a_map_of_four_byte_addresses_too() {
    for pairs in [0, 1, 32] {
        let map = AsMap4::checked(load(1, pairs).expect("a load")).expect("accepted");
        let [a, b, c, d, ..] = load_address(1, pairs).expect("a load");
        let walk = map.walk([a, b, c, d].into());
        assert_eq!((walk.end, walk.count), (End::Returned, 2 * pairs as u32 + 1));
    }
    assert_eq!(sanity_check_bits(&load(1, 33).expect("a load"), 32), Err(Refusal::NoBits));
    assert!(sanity_check_bits(&load(1, 33).expect("a load"), 128).is_ok());
}

#[test]
fn a_load_is_a_map_as_others_are() {
    let map = AsMap::load(1, 128).expect("a load");
    assert_eq!(map.as_bytes(), load(1, 128).expect("a load"));
    assert_eq!(AsMap::load(1, 0).map(|map| map.len()), Ok(3));
    assert_eq!((AsMap::load(0, 1), AsMap::load(1, 129)), (Err(Refusal::Load), Err(Refusal::Load)));
}

#[test]
fn seed_and_pairs_are_refused_first_then_the_room_and_nothing_is_written() {
    let mut out = [0xee; LOAD_BYTES];
    for room in [0, 1, LOAD_BYTES] {
        for pairs in [0, 1, 128, 129, usize::MAX] {
            assert_eq!(load_into(0, pairs, &mut out[..room]), Err(Refusal::Load));
        }
        for (seed, pairs) in [(1, 129), (u64::MAX, 256), (1, 1 << 32), (1, usize::MAX)] {
            assert_eq!(load_into(seed, pairs, &mut out[..room]), Err(Refusal::Load));
            assert_eq!((load(seed, pairs), load_address(seed, pairs)), (Err(Refusal::Load), Err(Refusal::Load)));
        }
    }
    for pairs in 0..=MAX_PAIRS {
        let len = load(1, pairs).expect("a load").len();
        assert_eq!(load_into(1, pairs, &mut out[..len - 1]), Err(Refusal::OutputTooShort));
        assert_eq!(load_into(1, pairs, &mut []), Err(Refusal::OutputTooShort));
    }
    assert_eq!(out, [0xee; LOAD_BYTES]);
    assert_eq!((load(0, 0), load_address(0, 0)), (Err(Refusal::Load), Err(Refusal::Load)));
    assert_eq!(Refusal::Load.to_string(), "the seed is 0, or there are more than 128 pairs (refusal 20)");
}

#[test]
fn an_output_of_just_the_length_will_do_and_the_rest_of_a_longer_one_remains() {
    for seed in seeds() {
        for pairs in [0, 1, 64, 128] {
            let map = load(seed, pairs).expect("a load");
            let bits: usize = instructions(&unpack(&map).expect("accepted")).map(|read| read.size as usize).sum();
            assert!(map.len() == bits.div_ceil(8) && bits <= 26 * pairs + 19 && 26 * MAX_PAIRS + 19 <= 8 * LOAD_BYTES);
            let mut out = vec![0xee; map.len()];
            assert_eq!(load_into(seed, pairs, &mut out), Ok(map.len()));
            assert_eq!(out, map);
            let mut out = [0xee; LOAD_BYTES + 1];
            assert_eq!(load_into(seed, pairs, &mut out), Ok(map.len()));
            assert!(out.starts_with(&map) && out[map.len()..].iter().all(|&byte| byte == 0xee));
        }
    }
}
