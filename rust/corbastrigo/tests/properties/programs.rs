//! Sane programs as trees, grown from draws that can be shrunk. The library packs them; how their walks end and which prefixes they tell
//! apart is told here by the tree alone, without a bit of the map being read.
use corbastrigo::codes::encode_instruction;
use corbastrigo::{pack, End, Instruction, Prefix};
use proptest::prelude::*;

pub const RETURN: u32 = 0;
pub const JUMP: u32 = 1;
pub const MATCH: u32 = 2;
pub const DEFAULT: u32 = 3;

/// The greatest AS number of the row.
pub const MOST_ASN: u32 = 33_521_664;

#[derive(Clone, Debug)]
pub enum Program {
    Return(u32),
    Jump(Box<Program>, Box<Program>),
    Match(u32, Box<Program>),
    Default(u32, Box<Program>),
}

use Program::{Default, Jump, Match, Return};

/// What stands straight before an instruction, as far as it matters to the check.
#[derive(Clone, Copy, PartialEq)]
enum Before {
    Default,
    ShortMatch,
    Other,
}

/// The address bits that a MATCH compares.
fn length(operand: u32) -> u32 {
    operand.ilog2()
}

/// An AS number from a draw: as often of few bits as of many.
fn asn(draw: u32) -> u32 {
    1 + (draw >> (draw % 24)) % MOST_ASN
}

/// How often each opcode is drawn, of 16 times: RETURN, JUMP, MATCH, and DEFAULT the rest.
type Shape = [u64; 3];

/// The opcode and the number of a draw. The smallest draw is a RETURN, so that programs shrink to one.
fn drawn(shape: Shape, draw: u64) -> (u32, u32) {
    let number = (draw >> 32) as u32;
    let mut rest = draw % 16;
    for (opcode, times) in [RETURN, JUMP, MATCH].into_iter().zip(shape) {
        if rest < times {
            return (opcode, number);
        }
        rest -= times;
    }
    (DEFAULT, number)
}

/// The program that draws make over so many address bits. A draw that the check would refuse where it comes is passed over.
fn grown(draws: &mut impl Iterator<Item = (u32, u32)>, left: u32, before: Before) -> Program {
    while let Some((opcode, draw)) = draws.next() {
        let operand = 2 + draw % 510;
        match opcode {
            RETURN => return Return(asn(draw)),
            JUMP if left > 0 => {
                let zero = grown(draws, left - 1, Before::Other);
                return Jump(Box::new(zero), Box::new(grown(draws, left - 1, Before::Other)));
            }
            MATCH if length(operand) <= left && (length(operand) == 8 || before != Before::ShortMatch) => {
                let next = if length(operand) < 8 { Before::ShortMatch } else { Before::Other };
                return Match(operand, Box::new(grown(draws, left - length(operand), next)));
            }
            DEFAULT if before != Before::Default => {
                return match grown(draws, left, Before::Default) {
                    // No RETURN may follow a DEFAULT.
                    lone @ Return(_) => lone,
                    then => Default(asn(draw), Box::new(then)),
                };
            }
            _ => {}
        }
    }
    Return(1)
}

/// Programs of every shape: bushes, runs that use all 128 address bits, and jumps in jumps.
pub fn programs() -> impl Strategy<Value = Program> {
    programs_of(128)
}

/// The same over so many address bits.
pub fn programs_of(width: u32) -> impl Strategy<Value = Program> {
    let shapes = prop::sample::select(vec![[4, 6, 4], [1, 1, 10], [1, 12, 2]]);
    (shapes, prop::collection::vec(any::<u64>(), 0..150))
        .prop_map(move |(shape, draws)| grown(&mut draws.iter().map(|&draw| drawn(shape, draw)), width, Before::Other))
}

impl Program {
    pub fn jump(zero: Program, one: Program) -> Program {
        Jump(Box::new(zero), Box::new(one))
    }

    pub fn default(number: u32, then: Program) -> Program {
        Default(number, Box::new(then))
    }

    /// The same program with another number at one of its RETURNs and DEFAULTs.
    pub fn renumbered(&self, place: prop::sample::Index, number: u32) -> Program {
        let mut program = self.clone();
        let mut numbers = program.numbers();
        let place = place.index(numbers.len());
        *numbers[place] = number;
        program
    }

    /// The numbers of its RETURNs and DEFAULTs, in order.
    fn numbers(&mut self) -> Vec<&mut u32> {
        match self {
            Return(number) => vec![number],
            Jump(zero, one) => zero.numbers().into_iter().chain(one.numbers()).collect(),
            Match(_, then) => then.numbers(),
            Default(number, then) => std::iter::once(number).chain(then.numbers()).collect(),
        }
    }

    fn parts(&self) -> Vec<&Program> {
        match self {
            Return(_) => vec![],
            Jump(zero, one) => vec![zero, one],
            Match(_, then) | Default(_, then) => vec![then],
        }
    }

    /// The most jumps that are open at a time: a jump is open up to its target, which is where its second branch starts.
    pub fn depth(&self) -> u8 {
        match self {
            Jump(zero, one) => (1 + zero.depth()).max(one.depth()),
            _ => self.parts().iter().map(|part| part.depth()).max().unwrap_or(0),
        }
    }

    /// Its instructions in order, the first at a place. A JUMP goes by the bits of its first branch, whose places go by the JUMP's own
    /// length: so the branch is listed from 0 and moved.
    fn listed(&self, place: u32) -> Vec<Instruction> {
        let behind: Vec<Vec<Instruction>> = self.parts().iter().map(|part| part.listed(0)).collect();
        let (opcode, operand) = match self {
            Return(number) => (RETURN, *number),
            Jump(_, _) => (JUMP, end(&behind[0])),
            Match(operand, _) => (MATCH, *operand),
            Default(number, _) => (DEFAULT, *number),
        };
        let size = encode_instruction(opcode, operand).expect("within its row").len as u32;
        let mut out = vec![Instruction { opcode, operand, place, size }];
        for part in behind {
            let from = end(&out);
            out.extend(part.into_iter().map(|instruction| Instruction { place: from + instruction.place, ..instruction }));
        }
        out
    }

    pub fn instructions(&self) -> Vec<Instruction> {
        self.listed(0)
    }

    pub fn records(&self) -> Vec<u8> {
        self.instructions().into_iter().flat_map(Instruction::record).collect()
    }

    pub fn map(&self) -> Vec<u8> {
        pack(&self.records()).expect("every record is right")
    }

    /// How the walk by an address ends: the kind, the number, the count and the address bits read.
    pub fn walk(&self, address: &[u8; 16]) -> (End, u32, u32, u8) {
        let (mut at, mut default, mut count, mut read) = (self, 0, 1, 0);
        loop {
            at = match at {
                Return(number) => return (End::Returned, *number, count, read),
                Default(number, then) => {
                    default = *number;
                    then
                }
                Jump(zero, one) => {
                    read += 1;
                    if bit(address, read - 1) == 1 {
                        one
                    } else {
                        zero
                    }
                }
                Match(operand, then) => {
                    for place in (0..length(*operand)).rev() {
                        read += 1;
                        if bit(address, read - 1) != operand >> place & 1 {
                            return (End::Differed, default, count, read);
                        }
                    }
                    then
                }
            };
            count += 1;
        }
    }

    /// The prefixes that it tells apart, in order.
    pub fn prefixes(&self) -> Vec<Prefix> {
        self.prefixes_below(0, 0, 0)
    }

    /// The prefixes of what begins with so many bits of an address, with a default.
    fn prefixes_below(&self, address: u128, length: u8, default: u32) -> Vec<Prefix> {
        match self {
            Return(number) => vec![prefix(address, length, *number)],
            Default(number, then) => then.prefixes_below(address, length, *number),
            Jump(zero, one) => {
                let mut out = zero.prefixes_below(address, length + 1, default);
                out.extend(one.prefixes_below(address | one_at(length), length + 1, default));
                out
            }
            Match(operand, then) => then.prefixes_behind(*operand, address, length, default),
        }
    }

    /// Its prefixes behind a MATCH, with those of the sides that differ: what begins with a 0 comes before what begins with a 1.
    fn prefixes_behind(&self, operand: u32, mut address: u128, mut length: u8, default: u32) -> Vec<Prefix> {
        let (mut before, mut after) = (vec![], vec![]);
        for place in (0..self::length(operand)).rev() {
            let one = address | one_at(length);
            length += 1;
            if operand >> place & 1 == 1 {
                before.push(prefix(address, length, default));
                address = one;
            } else {
                after.push(prefix(one, length, default));
            }
        }
        before.extend(self.prefixes_below(address, length, default));
        before.extend(after.into_iter().rev());
        before
    }

    /// An address that goes through the program: at each JUMP the bit that it has, at each MATCH the bits that are asked for, but the
    /// other bit at one place. Without this hardly any address gets past the first MATCH.
    pub fn led(&self, mut address: [u8; 16], but: u8) -> [u8; 16] {
        let (mut at, mut read) = (self, 0);
        loop {
            at = match at {
                Return(_) => return address,
                Default(_, then) => then,
                Jump(zero, one) => {
                    read += 1;
                    if bit(&address, read - 1) == 1 {
                        one
                    } else {
                        zero
                    }
                }
                Match(operand, then) => {
                    for place in (0..length(*operand)).rev() {
                        let asked = operand >> place & 1;
                        if bit(&address, read) != if read == but { 1 - asked } else { asked } {
                            address[usize::from(read / 8)] ^= 0x80 >> (read % 8);
                        }
                        read += 1;
                    }
                    then
                }
            };
        }
    }
}

fn prefix(address: u128, length: u8, number: u32) -> Prefix {
    Prefix { address: address.to_be_bytes(), length, number }
}

/// A one at a place of an address, from the highest down.
fn one_at(place: u8) -> u128 {
    1 << (127 - place)
}

/// The bit after the last of some instructions.
fn end(instructions: &[Instruction]) -> u32 {
    instructions.last().map_or(0, |last| last.place + last.size)
}

/// The bit of an address at a place, from the highest down.
fn bit(address: &[u8; 16], place: u8) -> u32 {
    u32::from(address[usize::from(place / 8)] >> (7 - place % 8) & 1)
}

/// A program and addresses, most of which get far in it.
pub fn walked_programs() -> impl Strategy<Value = (Program, Vec<[u8; 16]>)> {
    walked(programs())
}

/// The same of other programs.
pub fn walked(programs: impl Strategy<Value = Program>) -> impl Strategy<Value = (Program, Vec<[u8; 16]>)> {
    let but = prop_oneof![Just(u8::MAX), 0..30u8, 0..128u8];
    (programs, prop::collection::vec((any::<[u8; 16]>(), but), 1..12)).prop_map(|(program, addresses)| {
        let led = addresses.into_iter().map(|(address, but)| program.led(address, but)).collect();
        (program, led)
    })
}
