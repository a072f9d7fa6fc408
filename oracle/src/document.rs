//! Document 01's check and walk, worked through step by step from its text, on the original's decoders. They say what the original
//! does not: reasons, counts, depth, kinds of end and bits. Where the original has a say, `bin/replay_vectors` holds them to it. Both take
//! how many bits an address has (document 02, CR 3); document 01 has 128. Both tell a cut opcode from a cut operand (document 02, CR 5);
//! the original has one mark for both.
use crate::asmap::*;
use crate::width::{Width, W128};

/// A number of document 01's table.
pub type Refusal = u32;

/// Where the map's end cuts an opcode, and where it cuts an operand: "both stand where 4 stood".
pub const CUT_OPCODE: Refusal = 4;
pub const CUT_OPERAND: Refusal = 19;

#[derive(Clone, Copy, Debug, PartialEq)]
pub enum Verdict {
    Accepted { count: u32, depth: usize },
    Refused(u32),
}

/// One step of the check: on, or the answer.
struct Check<'a> {
    map: &'a [u8],
    pos: usize,
    left: u32,
    previous: u32,
    short_before: bool,
    open: Vec<(usize, u32)>,
    count: u32,
    depth: usize,
}

impl Check<'_> {
    fn end(&self) -> usize {
        8 * self.map.len()
    }

    fn at_or_past_innermost(&self, place: usize) -> bool {
        self.open.last().is_some_and(|&(target, _)| place >= target)
    }

    fn number(&mut self) -> Result<(), Verdict> {
        if self.previous == DEFAULT {
            return Err(Verdict::Refused(5));
        }
        match decode_asn(&mut self.pos, self.map) {
            INVALID => Err(Verdict::Refused(CUT_OPERAND)),
            _ => Ok(()),
        }
    }

    fn step_return(&mut self) -> Result<(), Verdict> {
        self.number()?;
        self.count += 1;
        let Some((target, saved)) = self.open.pop() else {
            let padding = self.pos..self.end();
            let one = padding.clone().any(|bit| self.map[bit / 8] >> (bit % 8) & 1 == 1);
            if padding.len() > 7 || one {
                return Err(Verdict::Refused(6));
            }
            return Err(Verdict::Accepted { count: self.count, depth: self.depth });
        };
        if self.pos != target {
            return Err(Verdict::Refused(7));
        }
        self.left = saved;
        self.previous = JUMP;
        Ok(())
    }

    fn step_jump(&mut self) -> Result<(), Verdict> {
        let operand = decode_jump(&mut self.pos, self.map);
        if operand == INVALID {
            return Err(Verdict::Refused(CUT_OPERAND));
        }
        if self.left == 0 {
            return Err(Verdict::Refused(8));
        }
        let target = self.pos + operand as usize;
        if self.at_or_past_innermost(target) {
            return Err(Verdict::Refused(9));
        }
        self.left -= 1;
        self.open.push((target, self.left));
        self.depth = self.depth.max(self.open.len());
        self.count += 1;
        self.previous = JUMP;
        Ok(())
    }

    fn step_match(&mut self, short_before: bool) -> Result<(), Verdict> {
        let operand = decode_match(&mut self.pos, self.map);
        if operand == INVALID {
            return Err(Verdict::Refused(CUT_OPERAND));
        }
        let length = bit_width(operand) - 1;
        if length < 8 && short_before {
            return Err(Verdict::Refused(10));
        }
        if length > self.left {
            return Err(Verdict::Refused(8));
        }
        self.left -= length;
        self.short_before = length < 8;
        self.count += 1;
        self.previous = MATCH;
        Ok(())
    }

    fn step_default(&mut self) -> Result<(), Verdict> {
        self.number()?;
        self.count += 1;
        self.previous = DEFAULT;
        Ok(())
    }

    fn step(&mut self) -> Result<(), Verdict> {
        if self.pos == self.end() {
            return Err(Verdict::Refused(2));
        }
        if self.at_or_past_innermost(self.pos) {
            return Err(Verdict::Refused(3));
        }
        let short_before = std::mem::replace(&mut self.short_before, false);
        match decode_type(&mut self.pos, self.map) {
            RETURN => self.step_return(),
            JUMP => self.step_jump(),
            MATCH => self.step_match(short_before),
            DEFAULT => self.step_default(),
            _ => Err(Verdict::Refused(CUT_OPCODE)),
        }
    }
}

/// The check over 128 address bits.
pub fn check(map: &[u8]) -> Verdict {
    check_bits(map, W128)
}

pub fn check_bits(map: &[u8], width: Width) -> Verdict {
    check_stop_bits(map, width).0
}

/// The check, and the bit at which it stands when it accepts or refuses: before that step reads anything.
pub fn check_stop(map: &[u8]) -> (Verdict, usize) {
    check_stop_bits(map, W128)
}

pub fn check_stop_bits(map: &[u8], width: Width) -> (Verdict, usize) {
    let (previous, short_before) = (JUMP, false);
    let mut check = Check { map, pos: 0, left: width.bits(), previous, short_before, open: vec![], count: 0, depth: 0 };
    loop {
        let place = check.pos;
        if let Err(verdict) = check.step() {
            return (verdict, place);
        }
    }
}

/// How a walk ends.
#[derive(Clone, Copy, Debug, PartialEq)]
pub enum End {
    Returned,
    Differed,
    /// A JUMP or a MATCH needs more address bits than are left.
    TooFewBits,
    CutOpcode,
    CutOperand,
}

impl End {
    /// The kind of end as a number: a cut has its refusal's.
    pub fn number(self) -> u8 {
        match self {
            End::Returned => 1,
            End::Differed => 2,
            End::TooFewBits => 3,
            End::CutOpcode => 4,
            End::CutOperand => 19,
        }
    }

    pub fn name(self) -> &'static str {
        match self {
            End::Returned => "return",
            End::Differed => "difference",
            End::TooFewBits => "too few bits",
            End::CutOpcode => "cut opcode",
            End::CutOperand => "cut operand",
        }
    }

    /// Whether the walk was aborted, which gives the number 0.
    pub fn aborts(self) -> bool {
        !matches!(self, End::Returned | End::Differed)
    }

    fn of_cut(reason: Refusal) -> End {
        match reason {
            CUT_OPCODE => End::CutOpcode,
            _ => End::CutOperand,
        }
    }

    /// The refusal that the check has for what ended the walk, where the map's end cut it.
    pub fn cut(self) -> Option<Refusal> {
        match self {
            End::CutOpcode => Some(CUT_OPCODE),
            End::CutOperand => Some(CUT_OPERAND),
            _ => None,
        }
    }
}

#[derive(Debug)]
pub struct Walk {
    pub end: End,
    pub number: u32,
    pub count: u32,
    pub bits: usize,
    /// The bit at which the instruction stands that ends it.
    pub place: usize,
}

/// The opcode and the operand at a place, or which of them is cut. At the map's end and past it that is the opcode.
pub fn instruction_at(pos: &mut usize, map: &[u8]) -> Result<(u32, u32), Refusal> {
    let opcode = decode_type(pos, map);
    let operand = match opcode {
        JUMP => decode_jump(pos, map),
        MATCH => decode_match(pos, map),
        RETURN | DEFAULT => decode_asn(pos, map),
        _ => return Err(CUT_OPCODE),
    };
    match operand {
        INVALID => Err(CUT_OPERAND),
        _ => Ok((opcode, operand)),
    }
}

/// The walk of any map by 16 address bytes.
pub fn walk(map: &[u8], address: &[u8; 16]) -> Walk {
    walk_all(map, address)
}

/// The walk of any map by an address of a width: 4 or 16 bytes, "any other length is 11".
pub fn walk_bits(map: &[u8], address: &[u8], width: Width) -> Result<Walk, Refusal> {
    match address.len() == width.bytes() {
        true => Ok(walk_all(map, address)),
        false => Err(11),
    }
}

/// The walk begun with as many bits as the address has.
fn walk_all(map: &[u8], address: &[u8]) -> Walk {
    let bit = |u: usize| address[u / 8] as u32 >> (7 - u % 8) & 1;
    let bits = 8 * address.len();
    let (mut pos, mut used, mut default, mut count) = (0, 0, 0, 0);
    loop {
        let place = pos;
        let ended = |end, number, count, bits| Walk { end, number, count, bits, place };
        let (opcode, operand) = match instruction_at(&mut pos, map) {
            Err(reason) => return ended(End::of_cut(reason), 0, count, used),
            Ok(instruction) => instruction,
        };
        count += 1;
        match opcode {
            RETURN => return ended(End::Returned, operand, count, used),
            DEFAULT => default = operand,
            JUMP if used == bits => return ended(End::TooFewBits, 0, count, used),
            JUMP => {
                pos += operand as usize * bit(used) as usize;
                used += 1;
            }
            _ => {
                let length = bit_width(operand) as usize - 1;
                if used + length > bits {
                    return ended(End::TooFewBits, 0, count, used);
                }
                for k in (0..length).rev() {
                    used += 1;
                    if bit(used - 1) != operand >> k & 1 {
                        return ended(End::Differed, default, count, used);
                    }
                }
            }
        }
    }
}
