//! A walk once more, step by step, for display. What a walk comes to is what the library's proved `interpret` says; the replay reads each
//! instruction with the library's decoder, and [`replay`] hands out none that does not come to the same.
use crate::failure::Failure;
use crate::words;
use corbastrigo::{codes, End, Refusal, Walk};

/// The default in force: its number, and the bit of the map at which it was set.
#[derive(Clone, Copy, Debug, PartialEq, Eq)]
pub struct InForce {
    pub number: u32,
    pub place: usize,
}

/// An instruction that was read whole, as the walk met it.
#[derive(Clone, Debug)]
pub struct Step {
    /// The bit of the map at which it starts.
    pub place: usize,
    pub opcode: u32,
    pub operand: u32,
    /// The first of the address bits that it looks at, and those bits, none for RETURN and DEFAULT.
    pub first_bit: usize,
    pub bits: String,
    /// The default in force when it was met.
    pub default: Option<InForce>,
    pub next: Next,
}

/// What happens after a step, and for a JUMP or MATCH what would have happened otherwise.
#[derive(Clone, Debug)]
pub enum Next {
    /// A RETURN ends the walk.
    Returns,
    /// A DEFAULT is set; the walk goes on at this bit.
    Sets(usize),
    /// A JUMP: the walk goes on at `place`; with the other address bit it would have gone on at `other`.
    Jumps { place: usize, other: usize },
    /// A MATCH: all bits are equal, and the walk goes on at this bit.
    Equals(usize),
    /// A MATCH: its last bit looked at differs. With equal bits the walk would have gone on at this bit.
    Differs(usize),
    /// The JUMP or MATCH needs more address bits than are left.
    TooFewBits { needed: usize, left: usize },
}

/// A walk whose steps were seen.
#[derive(Clone, Debug)]
pub struct Replay {
    /// What the library says of it.
    pub walk: Walk,
    /// Why its number is 0, where it is.
    pub why_zero: Option<String>,
    /// Where no whole instruction could be read, if that ended it.
    pub cut: Option<Cut>,
}

/// An instruction that the map's end cuts.
#[derive(Clone, Copy, Debug)]
pub struct Cut {
    /// The bit of the map at which it starts, or would: the map's end, or past it, is such a bit too.
    pub place: usize,
    /// Its opcode, where that is whole and the operand is cut; none where the opcode is cut.
    pub opcode: Option<u32>,
}

/// Replays a walk that the library made by these address bytes, of whichever width, and hands out each step.
pub fn replay(map: &[u8], address: &[u8], walk: Walk, mut see: impl FnMut(Step)) -> Result<Replay, Failure> {
    let mut state = State { map, address, place: 0, bit: 0, count: 0, default: None };
    // Every step leads onward in the map, so that this ends.
    let end = loop {
        let step = match state.step() {
            Ok(step) => step,
            Err(cut) => break Ending::Cut(cut),
        };
        let ending = Ending::of(&step);
        see(step);
        if let Some(ending) = ending {
            break ending;
        }
    };
    let (kind, number) = end.answer();
    let (count, bits) = (state.count, state.bit as u8);
    if (kind, number, count, bits) != (walk.end, walk.number, walk.count, walk.bits) {
        return Err(Failure::new(format!(
            "the steps come to {kind:?}, number {number}, {count} instructions and {bits} bits, but the library's walk to {walk:?}; \
             please report this with the map and the address"
        )));
    }
    let cut = if let Ending::Cut(cut) = end { Some(cut) } else { None };
    Ok(Replay { walk, why_zero: (number == 0).then(|| end.why_zero(map)), cut })
}

/// How the steps end.
enum Ending {
    Returned(u32),
    Differed(Option<InForce>),
    TooFewBits { opcode: u32, place: usize, needed: usize, left: usize },
    Cut(Cut),
}

impl Ending {
    /// The end that a step makes, if it makes one.
    fn of(step: &Step) -> Option<Ending> {
        match step.next {
            Next::Returns => Some(Ending::Returned(step.operand)),
            Next::Differs(_) => Some(Ending::Differed(step.default)),
            Next::TooFewBits { needed, left } => Some(Ending::TooFewBits { opcode: step.opcode, place: step.place, needed, left }),
            Next::Sets(_) | Next::Jumps { .. } | Next::Equals(_) => None,
        }
    }

    /// The kind of end and the number.
    fn answer(&self) -> (End, u32) {
        match self {
            Ending::Returned(number) => (End::Returned, *number),
            Ending::Differed(default) => (End::Differed, default.map_or(0, |default| default.number)),
            Ending::TooFewBits { .. } => (End::TooFewBits, 0),
            Ending::Cut(Cut { opcode: None, .. }) => (End::CutOpcode, 0),
            Ending::Cut(Cut { opcode: Some(_), .. }) => (End::CutOperand, 0),
        }
    }

    /// What a number 0 comes from. It is none of a RETURN's or a DEFAULT's: those begin at 1.
    fn why_zero(&self, map: &[u8]) -> String {
        let end = map.len() * 8;
        match self {
            Ending::Returned(number) => format!("the map returns {number}"),
            Ending::Differed(_) => String::from(words::NO_DEFAULT),
            Ending::TooFewBits { opcode, place, needed, left } => format!(
                "the walk was aborted: the {} at bit {place} needs {needed} of the address bits, and {left} are left",
                words::opcode(*opcode)
            ),
            Ending::Cut(Cut { place, opcode: Some(opcode) }) => {
                format!("the walk was aborted: the map ends within the operand of the {} at bit {place}", words::opcode(*opcode))
            }
            Ending::Cut(Cut { place, .. }) if *place < end => {
                format!("the walk was aborted: the map ends within the opcode at bit {place}")
            }
            Ending::Cut(Cut { place, .. }) => {
                format!("the walk was aborted: it came to bit {place} for an opcode, and the map ends at bit {end}")
            }
        }
    }
}

/// Where a walk stands.
struct State<'a> {
    map: &'a [u8],
    /// As many bytes as the walk was by: 4 or 16.
    address: &'a [u8],
    place: usize,
    bit: usize,
    count: u32,
    default: Option<InForce>,
}

impl State<'_> {
    /// The next step, or what is cut where no whole instruction is left to read.
    fn step(&mut self) -> Result<Step, Cut> {
        let (place, first_bit, default) = (self.place, self.bit, self.default);
        let (opcode, operand, size) = codes::decode_instruction(self.map, place).map_err(|refusal| self.cut(refusal))?;
        self.place += size;
        self.count += 1;
        let next = match opcode {
            words::RETURN => Next::Returns,
            words::JUMP => self.jump(operand),
            words::MATCH => self.compare(&words::match_bits(operand)),
            _ => {
                self.default = Some(InForce { number: operand, place });
                Next::Sets(self.place)
            }
        };
        let bits = (first_bit..self.bit).map(|bit| self.address_bit(bit)).collect();
        Ok(Step { place, opcode, operand, first_bit, bits, default, next })
    }

    /// What is cut of the instruction here, by the library's refusal to read it.
    fn cut(&self, refusal: Refusal) -> Cut {
        let whole = if refusal == Refusal::CutOperand { codes::decode_type(self.map, self.place).ok() } else { None };
        Cut { place: self.place, opcode: whole.map(|opcode| opcode.value) }
    }

    fn jump(&mut self, operand: u32) -> Next {
        if self.bits_left() == 0 {
            return Next::TooFewBits { needed: 1, left: 0 };
        }
        let (zero, one) = (self.place, self.place + operand as usize);
        let (place, other) = if self.address_bit(self.bit) == '1' { (one, zero) } else { (zero, one) };
        self.bit += 1;
        self.place = place;
        Next::Jumps { place, other }
    }

    fn compare(&mut self, wanted: &str) -> Next {
        let left = self.bits_left();
        if wanted.len() > left {
            return Next::TooFewBits { needed: wanted.len(), left };
        }
        for bit in wanted.chars() {
            let found = self.address_bit(self.bit);
            self.bit += 1;
            if found != bit {
                return Next::Differs(self.place);
            }
        }
        Next::Equals(self.place)
    }

    fn bits_left(&self) -> usize {
        8 * self.address.len() - self.bit
    }

    /// An address bit, from 0, the highest of the first byte first.
    fn address_bit(&self, bit: usize) -> char {
        if self.address[bit / 8] >> (7 - bit % 8) & 1 == 1 {
            '1'
        } else {
            '0'
        }
    }
}

#[cfg(test)]
mod tests {
    use super::*;
    use corbastrigo::interpret_bits;
    use proptest::collection::vec;
    use proptest::prelude::any;
    use proptest::strategy::{Strategy, ValueTree};
    use proptest::test_runner::TestRunner;

    /// A walk by the library, replayed.
    fn walked(map: &[u8], address: &[u8]) -> Replay {
        let walk = interpret_bits(map, address, 8 * address.len() as u32).expect("walked");
        replay(map, address, walk, drop).expect("the replay agrees")
    }

    #[test]
    fn replays_agree_with_the_library_on_any_bytes() {
        let mut runner = TestRunner::deterministic();
        // Few ones make RETURNs likely, many ones MATCHes and DEFAULTs.
        let bytes = (vec(any::<u8>(), 0..256), vec(any::<u8>(), 256), 0..3_usize);
        let mut met = [[0; 5]; 2];
        for _ in 0..10_000 {
            let (a, b, kind) = bytes.new_tree(&mut runner).expect("bytes").current();
            let map: Vec<u8> = a.iter().zip(b).map(|(a, b)| [a & b, *a, a | b][kind]).collect();
            let address = any::<[u8; 16]>().new_tree(&mut runner).expect("an address").current();
            for (ends, length) in met.iter_mut().zip([16, 4]) {
                let replay = walked(&map, &address[..length]);
                let kinds = [End::Returned, End::Differed, End::TooFewBits, End::CutOpcode, End::CutOperand];
                ends[kinds.iter().position(|&kind| kind == replay.walk.end).expect("a kind that is known")] += 1;
                assert_eq!(replay.why_zero.is_some(), replay.walk.number == 0);
                assert!(!replay.walk.end.is_abort() || replay.walk.number == 0);
            }
        }
        // No drawn map is long enough to use up an address; `every_zero_says_why` has those that are.
        for [returned, differed, _, cut_opcode, cut_operand] in met {
            assert!(returned > 1_000 && differed > 1_000 && cut_opcode > 100 && cut_operand > 100, "{met:?}");
        }
    }

    #[test]
    fn a_replay_that_differs_is_no_answer() {
        let map = [0, 0, 0];
        let walk = interpret_bits(&map, &[0; 16], 128).expect("walked");
        let edits: [fn(&mut Walk); 4] = [|w| w.number = 2, |w| w.count = 2, |w| w.bits = 1, |w| w.end = End::Differed];
        for edit in edits {
            let mut wrong = walk;
            edit(&mut wrong);
            let failure = replay(&map, &[0; 16], wrong, drop).expect_err("differs");
            assert!(matches!(failure, Failure::Said(message) if message.contains("please report")));
        }
        assert_eq!(walked(&map, &[0; 16]).walk, walk);
        // An abort of another kind is another answer.
        for (map, other) in [(&[0x00][..], End::CutOpcode), (&[0x8b], End::CutOperand), (&[], End::TooFewBits)] {
            let walk = interpret_bits(map, &[0; 16], 128).expect("walked");
            assert!(replay(map, &[0; 16], walk, drop).is_ok() && walk.end != other);
            let mut wrong = walk;
            wrong.end = other;
            assert!(replay(map, &[0; 16], wrong, drop).is_err());
        }
    }

    #[test]
    fn every_zero_says_why() {
        let why = |map: &[u8]| walked(map, &[0xff; 16]).why_zero.expect("0");
        // A MATCH of a 0, then RETURN 1.
        assert_eq!(why(&[0x03, 0, 0]), "the walk differed before any DEFAULT was met");
        // A MATCH without its bits, a RETURN and a DEFAULT without their numbers, a JUMP that is not whole.
        assert_eq!(why(&[0xfb]), "the walk was aborted: the map ends within the operand of the MATCH at bit 0");
        assert_eq!(why(&[0x00]), "the walk was aborted: the map ends within the operand of the RETURN at bit 0");
        assert_eq!(why(&[0x07, 0x00]), "the walk was aborted: the map ends within the operand of the DEFAULT at bit 0");
        assert_eq!(why(&[0x05]), "the walk was aborted: the map ends within the operand of the JUMP at bit 0");
        // A MATCH of two ones, and behind it the first bit of an opcode.
        assert_eq!(why(&[0xeb]), "the walk was aborted: the map ends within the opcode at bit 7");
        assert_eq!(why(&[]), "the walk was aborted: it came to bit 0 for an opcode, and the map ends at bit 0");
        // A JUMP of 17 bits past the end.
        assert_eq!(why(&[1]), "the walk was aborted: it came to bit 25 for an opcode, and the map ends at bit 8");
        // A MATCH of eight ones for each byte of the address, and one of one more.
        let ones = codes::encode_instruction(2, 511).expect("an instruction");
        let one = codes::encode_instruction(2, 3).expect("an instruction");
        for bytes in [16, 4] {
            let past = packed(&[&vec![ones; bytes][..], &[one]].concat());
            assert_eq!(
                walked(&past, &[0xff; 16][..bytes]).why_zero.expect("0"),
                format!("the walk was aborted: the MATCH at bit {} needs 1 of the address bits, and 0 are left", bytes * ones.len)
            );
        }
    }

    /// Codes as a map's bytes.
    fn packed(words: &[codes::Bits]) -> Vec<u8> {
        let bits: Vec<bool> = words.iter().flat_map(|word| (0..word.len).map(|bit| word.bits >> bit & 1 == 1)).collect();
        bits.chunks(8).map(|byte| byte.iter().rev().fold(0, |sum, &bit| sum << 1 | u8::from(bit))).collect()
    }
}
