use crate::Refusal;
use corbastrigo_sys as sys;
use std::iter;

/// Bytes that are enough for every load.
pub const LOAD_BYTES: usize = sys::LOAD_BYTES;

/// What draws the numbers of a [`load`], by a seed: everyone who starts at the same seed draws the same.
///
/// Its state s goes on to the next draw so: it is xored with s × 2^13, then with s / 2^7 rounded down, then with s × 2^17, modulo 2^64 and each
/// time from the s just made. It never comes to 0, from where it would not go on.
///
/// ```
/// use corbastrigo::{Generator, Refusal};
///
/// let first = Generator::seeded(Generator::DEFAULT_SEED)?.next();
/// assert_eq!((first.draw(), first.next().draw()), (1_082_269_761, 1_152_992_998_833_853_505));
/// assert_eq!(Generator::seeded(0), Err(Refusal::Load));
/// # Ok::<(), Refusal>(())
/// ```
#[derive(Clone, Copy, Debug, PartialEq, Eq, Hash)]
pub struct Generator {
    state: u64,
}

impl Generator {
    /// The seed where nobody names another.
    pub const DEFAULT_SEED: u64 = sys::DEFAULT_SEED;

    /// A generator that nothing was drawn from. Refusal 20 for the seed 0.
    pub fn seeded(seed: u64) -> Result<Generator, Refusal> {
        next_draw(seed)?;
        Ok(Generator { state: seed })
    }

    /// The generator after one draw more.
    #[must_use]
    pub fn next(self) -> Generator {
        // No state is 0, which alone is refused.
        Generator { state: next_draw(self.state).unwrap_or(self.state) }
    }

    /// What was drawn last; the seed, where nothing was.
    pub fn draw(self) -> u64 {
        self.state
    }
}

/// The draw after another, or after a seed.
fn next_draw(s: u64) -> Result<u64, Refusal> {
    let mut draw = 0;
    // SAFETY: the number is borrowed for the call and is nobody else's.
    let answer = unsafe { sys::corbastrigo_next_draw(s, &mut draw) };
    Refusal::check(answer)?;
    Ok(draw)
}

/// Writes the [`load`] of a seed and a number of pairs. The bytes written, or 20, then 14. Bytes past what is written remain; [`LOAD_BYTES`]
/// are always enough.
pub fn load_into(seed: u64, pairs: usize, out: &mut [u8]) -> Result<usize, Refusal> {
    let mut written = 0;
    // SAFETY: the slice gives its own pointer and length and is borrowed alone, and the number is nobody else's.
    let answer = unsafe { sys::corbastrigo_load(seed, pairs, out.as_mut_ptr(), out.len(), &mut written) };
    Refusal::check(answer)?;
    Ok(written)
}

/// The load of a seed and a number of pairs: a map to measure with that everyone can make again from these two numbers.
///
/// It is so many pairs of a DEFAULT and a MATCH of one bit, then a RETURN. Each takes a draw of the [`Generator`], in the order written: of a
/// DEFAULT and of the RETURN the number is 1 + draw mod 65,536, of a MATCH the bit is draw mod 2. [`sanity_check`](crate::sanity_check)
/// accepts every load; with at most 32 pairs it is accepted at width 32 too. The address that walks through all of its 2 × pairs + 1
/// instructions is [`load_address`]. Refusal 20 for the seed 0, or more than 128 pairs ([`MAX_PAIRS`](crate::MAX_PAIRS)).
///
/// [`AsMap::load`](crate::AsMap::load) gives it as a map that groups and picks take.
///
/// ```
/// use corbastrigo::{instructions, load, unpack, Generator, Refusal};
///
/// let map = load(Generator::DEFAULT_SEED, 2)?;
/// assert_eq!(map, [0x27, 0x10, 0x9c, 0x27, 0xa3, 0x9c, 0x42, 0x32, 0x05]);
/// let listed: Vec<(u32, u32)> = instructions(&unpack(&map)?).map(|read| (read.opcode, read.operand)).collect();
/// assert_eq!(listed, [(3, 8_258), (2, 3), (3, 9_770), (2, 3), (0, 37_478)]);
/// assert_eq!(load(1, 129), Err(Refusal::Load));
/// # Ok::<(), Refusal>(())
/// ```
pub fn load(seed: u64, pairs: usize) -> Result<Vec<u8>, Refusal> {
    let mut out = vec![0; LOAD_BYTES];
    let written = load_into(seed, pairs, &mut out)?;
    out.truncate(written);
    Ok(out)
}

/// The address that walks through every instruction of a [`load`]: its first bits are those of the MATCHes, and zeros follow. Every other
/// address with the same first bits does so too. Refusal 20, as of the load.
///
/// ```
/// use corbastrigo::{interpret, load, load_address, End, Refusal};
///
/// let address = load_address(1, 128)?;
/// let walk = interpret(&load(1, 128)?, &address)?;
/// assert_eq!((walk.end, walk.count, walk.bits), (End::Returned, 257, 128));
/// # Ok::<(), Refusal>(())
/// ```
pub fn load_address(seed: u64, pairs: usize) -> Result<[u8; 16], Refusal> {
    if pairs > crate::MAX_PAIRS {
        return Err(Refusal::Load);
    }
    // The draws of the MATCHes are every second one.
    let draws = iter::successors(Some(Generator::seeded(seed)?.next().next()), |draw| Some(draw.next().next()));
    let bits = draws.take(pairs).map(|draw| u128::from(draw.draw() % 2));
    Ok(bits.enumerate().fold(0, |address, (place, bit)| address | bit << (127 - place)).to_be_bytes())
}
