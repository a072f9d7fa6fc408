//! Document 02's generator and its loads (CR 6), from its sentences: plain arithmetic modulo 2^64, and instructions by the original's
//! writers. The original has neither, but a load is a map to it as any other: `hold` asks its check and its walk.
use crate::asmap::{pack_le, sanity_check_bits, AsMap, DEFAULT, MATCH, RETURN};
use crate::codes::instruction;
use crate::document::{check_bits, walk, End, Refusal, Verdict};
use crate::width::{W128, W32};
use maps::Random;

/// "A DEFAULT_SEED of 1."
pub const DEFAULT_SEED: u64 = 1;

pub const MAX_PAIRS: u64 = 128;

/// "20 for seed 0, also from the seeded start, or n over 128."
pub const NO_LOAD: Refusal = 20;

/// The longest load: 128 pairs of 26 bits and a RETURN of 19.
pub const MOST_BYTES: usize = 419;

/// The draw after s, which is the seed or the draw before: "s is xored with s × 2^13, with s / 2^7 rounded down, then with s × 2^17, all
/// modulo 2^64 and each from the s just made, and the draw is s".
pub fn next_draw(s: u64) -> Result<u64, Refusal> {
    if s == 0 {
        return Err(NO_LOAD);
    }
    let s = s ^ s.wrapping_mul(1 << 13);
    let s = s ^ (s / (1 << 7));
    Ok(s ^ s.wrapping_mul(1 << 17))
}

/// The number whose draw this is. A step is undone from what it made: xored with the shift of what is known so far, more bits are known.
pub fn seed_of(draw: u64) -> u64 {
    let undone = |made: u64, shift: fn(u64) -> u64| (0..64).fold(made, |s, _| made ^ shift(s));
    let s = undone(draw, |s| s.wrapping_mul(1 << 17));
    let s = undone(s, |s| s / (1 << 7));
    undone(s, |s| s.wrapping_mul(1 << 13))
}

/// So many draws in a row, the first after the seed.
pub fn draws(seed: u64, count: usize) -> Result<Vec<u64>, Refusal> {
    let mut s = seed;
    let next = |_| {
        s = next_draw(s)?;
        Ok(s)
    };
    (0..count).map(next).collect()
}

/// "1 + draw mod 65,536."
fn number(draw: u64) -> u32 {
    1 + (draw % 65_536) as u32
}

/// "Each MATCH bit is draw mod 2", behind the one with which every operand of a MATCH begins.
fn one_bit(draw: u64) -> u32 {
    0b10 + (draw % 2) as u32
}

/// Its instructions in the order written: opcode and operand.
#[derive(Clone, Debug, PartialEq)]
pub struct Load(pub Vec<(u32, u32)>);

/// "A load of n pairs is n times DEFAULT and a one-bit MATCH, then RETURN", a draw for each.
pub fn load(seed: u64, pairs: u64) -> Result<Load, Refusal> {
    if seed == 0 || pairs > MAX_PAIRS {
        return Err(NO_LOAD);
    }
    let drawn = draws(seed, 2 * pairs as usize + 1)?;
    let (last, before) = drawn.split_last().expect("a draw for the RETURN");
    let pairs = before.chunks(2).flat_map(|pair| [(DEFAULT, number(pair[0])), (MATCH, one_bit(pair[1]))]);
    Ok(Load(pairs.chain([(RETURN, number(*last))]).collect()))
}

impl Load {
    pub fn pairs(&self) -> usize {
        self.0.len() / 2
    }

    pub fn bytes(&self) -> Vec<u8> {
        pack_le(&self.0.iter().flat_map(|&(opcode, operand)| instruction(opcode, operand)).collect::<Vec<bool>>())
    }

    /// The bit that the MATCH of a pair asks for.
    fn asked(&self, pair: usize) -> bool {
        self.0[2 * pair + 1].1 == 0b11
    }

    /// An address that walks the whole load: the bits asked for, in order, and behind them those of another address.
    pub fn address(&self, behind: [u8; 16]) -> [u8; 16] {
        (0..self.pairs())
            .fold(behind, |address, pair| if bit(&address, pair) == self.asked(pair) { address } else { other_at(address, pair) })
    }

    /// How an address walks, from the load's shape alone: to the first pair whose bit differs, which leaves that pair's number, or to the
    /// RETURN. The kind of end, the number, the instructions and the address bits read.
    pub fn walked(&self, address: &[u8; 16]) -> (End, u32, u32, usize) {
        let differs = (0..self.pairs()).find(|&pair| bit(address, pair) != self.asked(pair));
        match differs {
            Some(pair) => (End::Differed, self.0[2 * pair].1, 2 * pair as u32 + 2, pair + 1),
            None => (End::Returned, self.0[2 * self.pairs()].1, 2 * self.pairs() as u32 + 1, self.pairs()),
        }
    }
}

/// An address bit, the first highest in the first byte.
fn bit(address: &[u8; 16], place: usize) -> bool {
    address[place / 8] >> (7 - place % 8) & 1 == 1
}

/// An address with one bit turned over.
pub fn other_at(mut address: [u8; 16], place: usize) -> [u8; 16] {
    address[place / 8] ^= 1 << (7 - place % 8);
    address
}

/// Holds a load to the original: its check takes it at 128 and, of up to 32 pairs, at 32; its walk has the RETURN's number for the addresses
/// that have the bits asked for, the number of a pair for those that differ there first, and what the shape says for drawn ones.
pub fn hold(load: &Load, random: &mut Random) {
    let (map, pairs) = (load.bytes(), load.pairs());
    let accepted = Verdict::Accepted { count: 2 * pairs as u32 + 1, depth: 0 };
    for (width, fits) in [(W128, true), (W32, pairs <= 32)] {
        assert_eq!(sanity_check_bits(&map, width.bits() as i32), fits, "the original's verdict on {load:?} at {width:?}");
        assert_eq!(check_bits(&map, width), if fits { accepted } else { Verdict::Refused(8) }, "{load:?} at {width:?}");
    }
    let original = AsMap::from_bytes(map.clone()).expect("a map that the check accepts");
    let held = |address: [u8; 16]| {
        let shape = load.walked(&address);
        let walk = walk(&map, &address);
        assert_eq!(original.interpret_ip16(&address), shape.1, "the original's number for {address:02x?} by {load:?}");
        assert_eq!((walk.end, walk.number, walk.count, walk.bits), shape, "{address:02x?} by {load:?}");
        shape.0
    };
    for behind in [[0; 16], [255; 16], random.address()] {
        assert_eq!(held(load.address(behind)), End::Returned, "the load's own address by {load:?}");
    }
    for pair in 0..pairs {
        assert_eq!(held(other_at(load.address(random.address()), pair)), End::Differed, "pair {pair} of {load:?}");
    }
    (0..4).for_each(|_| {
        held(random.address());
    });
}
