//! The text form of a map: one instruction a line, indented by open jumps, and back.
use crate::words::{self, JUMP, MATCH, RETURN};
use corbastrigo::Instruction;

/// Opcode and operand as a list has them.
pub fn worded(opcode: u32, operand: u32) -> String {
    let name = words::opcode(opcode);
    match opcode {
        MATCH => format!("{name} {}", words::match_bits(operand)),
        _ => format!("{name} {operand}"),
    }
}

/// What an opcode takes in a list, for whoever wrote something else.
pub fn wanted(opcode: u32) -> &'static str {
    match opcode {
        MATCH => "MATCH takes 1 to 8 address bits, each 0 or 1, as in MATCH 00001010",
        _ => range(opcode),
    }
}

/// The range of an opcode's operand, in words. The library decides.
pub fn range(opcode: u32) -> &'static str {
    match opcode {
        JUMP => "JUMP takes the number of bits to skip, 17 to 2147483632",
        MATCH => "MATCH takes an operand of 2 to 511: a one, and below it 1 to 8 address bits",
        RETURN => "RETURN takes an AS number, 1 to 33521664",
        _ => "DEFAULT takes an AS number, 1 to 33521664",
    }
}

/// A jump whose target the list has not reached.
struct Open {
    place: u32,
    target: u64,
}

/// An instruction with what the list says of it.
pub struct Listed {
    pub instruction: Instruction,
    /// The jumps that are open where it starts.
    pub open_jumps: usize,
    /// The place of the JUMP whose target it is.
    pub target_of: Option<u32>,
}

impl Listed {
    /// Where a JUMP goes by a 1.
    pub fn target(&self) -> Option<u64> {
        let Instruction { opcode, operand, place, size } = self.instruction;
        (opcode == JUMP).then(|| u64::from(place) + u64::from(size) + u64::from(operand))
    }

    /// The line of the list; its comment stands at a column, or behind what is longer.
    pub fn line(&self, column: usize) -> String {
        let indent = 2 * self.open_jumps;
        let text = format!("{:indent$}{}", "", worded(self.instruction.opcode, self.instruction.operand));
        let to = self.target().map_or(String::new(), |target| format!("; by a 1 to bit {target}"));
        let from = self.target_of.map_or(String::new(), |place| format!("; by a 1 from bit {place}"));
        format!("{text:<column$}  # bit {}{from}{to}", self.instruction.place)
    }
}

/// The instructions of an accepted map with their open jumps. Of another map it would say something, but nothing true.
pub fn listed(instructions: impl Iterator<Item = Instruction>) -> impl Iterator<Item = Listed> {
    let mut open: Vec<Open> = Vec::new();
    instructions.map(move |instruction| {
        // In an accepted map a jump closes where its target starts, and never two at one place.
        let reached = open.last().is_some_and(|jump| jump.target == u64::from(instruction.place));
        let target_of = if reached { open.pop().map(|jump| jump.place) } else { None };
        let listed = Listed { instruction, open_jumps: open.len(), target_of };
        if let Some(target) = listed.target() {
            open.push(Open { place: instruction.place, target });
        }
        listed
    })
}

/// The column of the comments: behind the deepest line, but not so far to the right that nobody sees them.
pub fn column(depth: u8) -> usize {
    16 + 2 * usize::from(depth).min(20)
}

/// An operand in decimal. A number that 32 bits cannot hold is out of every opcode's range, and so is the greatest that they can: that one
/// goes to the library, which refuses it.
fn number(word: &str) -> Option<u32> {
    let digits = !word.is_empty() && word.bytes().all(|byte| byte.is_ascii_digit());
    digits.then(|| word.parse().unwrap_or(u32::MAX))
}

/// The operand of a MATCH of these bits, likewise.
fn match_operand(bits: &str) -> Option<u32> {
    let binary = !bits.is_empty() && bits.bytes().all(|byte| byte == b'0' || byte == b'1');
    binary.then(|| u32::from_str_radix(&format!("1{bits}"), 2).unwrap_or(u32::MAX))
}

/// Opcode and operand of a line, nothing for one that is blank or only a comment, or what was expected in it.
pub fn parsed(line: &str) -> Result<Option<(u32, u32)>, String> {
    let text = line.split('#').next().unwrap_or_default();
    let mut words = text.split_whitespace();
    let Some(name) = words.next() else {
        return Ok(None);
    };
    let Some(opcode) = (0..4).find(|&opcode| words::opcode(opcode).eq_ignore_ascii_case(name)) else {
        return Err(format!("{name:?} is no opcode; expected RETURN, JUMP, MATCH or DEFAULT"));
    };
    let Some(word) = words.next() else {
        return Err(format!("{} without an operand; {}", words::opcode(opcode), wanted(opcode)));
    };
    if let Some(more) = words.next() {
        return Err(format!("{more:?} after the operand; expected one instruction a line, and comments behind #"));
    }
    let operand = if opcode == MATCH { match_operand(word) } else { number(word) };
    operand.map(|operand| Some((opcode, operand))).ok_or_else(|| format!("{word:?} is no operand; {}", wanted(opcode)))
}
