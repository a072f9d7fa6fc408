//! Single codes and instructions: read at a bit of a map (refusal 1; where the map's end cuts what is read, 4 of an opcode and 19 of an
//! operand), written as bits (refusal 15).
//!
//! ```
//! use corbastrigo::{codes, Refusal};
//!
//! // 01 is a JUMP by 17: two bits of opcode, six of operand.
//! assert_eq!(codes::decode_instruction(&[1], 0)?, (1, 17, 8));
//! let operand = codes::decode_jump(&[1], 2)?;
//! assert_eq!((operand.value, operand.next), (17, 8));
//! let written = codes::encode_jump(17)?;
//! assert_eq!((written.bits, written.len), (0, 6));
//! assert_eq!(codes::encode_jump(16), Err(Refusal::OutOfRange));
//!
//! // From the map's end on each is cut: an opcode as an opcode, an operand as an operand.
//! assert_eq!(codes::decode_type(&[1], 8), Err(Refusal::CutOpcode));
//! assert_eq!(codes::decode_jump(&[1], 8), Err(Refusal::CutOperand));
//! # Ok::<(), Refusal>(())
//! ```
use crate::Refusal;
use corbastrigo_sys as sys;

/// A code that was read.
#[derive(Clone, Copy, Debug, PartialEq, Eq)]
pub struct Code {
    /// Its value.
    pub value: u32,
    /// The bit after it.
    pub next: usize,
}

/// A code as it is written, the first bit lowest.
#[derive(Clone, Copy, Debug, PartialEq, Eq)]
pub struct Bits {
    /// The bits; those past the length are 0.
    pub bits: u64,
    /// How many there are.
    pub len: usize,
}

fn decode(call: sys::Decode, map: &[u8], at: usize) -> Result<Code, Refusal> {
    let mut code = Code { value: 0, next: 0 };
    // SAFETY: each `Decode` of the library takes a slice and two numbers to write, which are `code`'s own.
    let answer = unsafe { call(map.as_ptr(), map.len(), at, &mut code.value, &mut code.next) };
    Refusal::check(answer)?;
    Ok(code)
}

fn encode(call: sys::Encode, value: u32) -> Result<Bits, Refusal> {
    let mut word = Bits { bits: 0, len: 0 };
    // SAFETY: each `Encode` of the library takes a number and two numbers to write, which are `word`'s own.
    let answer = unsafe { call(value, &mut word.bits, &mut word.len) };
    Refusal::check(answer)?;
    Ok(word)
}

/// An opcode: RETURN 0, JUMP 1, MATCH 2, DEFAULT 3.
pub fn decode_type(map: &[u8], at: usize) -> Result<Code, Refusal> {
    decode(sys::corbastrigo_decode_type, map, at)
}

/// An AS number, 1 to 33,521,664.
pub fn decode_asn(map: &[u8], at: usize) -> Result<Code, Refusal> {
    decode(sys::corbastrigo_decode_asn, map, at)
}

/// A MATCH operand, 2 to 511.
pub fn decode_match(map: &[u8], at: usize) -> Result<Code, Refusal> {
    decode(sys::corbastrigo_decode_match, map, at)
}

/// A JUMP operand, 17 to 2,147,483,632.
pub fn decode_jump(map: &[u8], at: usize) -> Result<Code, Refusal> {
    decode(sys::corbastrigo_decode_jump, map, at)
}

/// An opcode, 0 to 3, as it is written.
pub fn encode_type(value: u32) -> Result<Bits, Refusal> {
    encode(sys::corbastrigo_encode_type, value)
}

/// An AS number, 1 to 33,521,664, as it is written.
pub fn encode_asn(value: u32) -> Result<Bits, Refusal> {
    encode(sys::corbastrigo_encode_asn, value)
}

/// A MATCH operand, 2 to 511, as it is written.
pub fn encode_match(value: u32) -> Result<Bits, Refusal> {
    encode(sys::corbastrigo_encode_match, value)
}

/// A JUMP operand, 17 to 2,147,483,632, as it is written.
pub fn encode_jump(value: u32) -> Result<Bits, Refusal> {
    encode(sys::corbastrigo_encode_jump, value)
}

/// The instruction that starts at a bit: its opcode, operand and length in bits. Where the map's end cuts it the refusal tells in which of
/// the two: 4, the opcode, also at the map's end or past it; 19, the operand.
pub fn decode_instruction(map: &[u8], at: usize) -> Result<(u32, u32, usize), Refusal> {
    let (mut opcode, mut operand, mut size) = (0, 0, 0);
    // SAFETY: the slice gives its own pointer and length; the three numbers are borrowed for the call and are nobody else's.
    let answer = unsafe { sys::corbastrigo_decode_instruction(map.as_ptr(), map.len(), at, &mut opcode, &mut operand, &mut size) };
    Refusal::check(answer)?;
    Ok((opcode, operand, size))
}

/// An instruction as it is written, at most 57 bits.
pub fn encode_instruction(opcode: u32, operand: u32) -> Result<Bits, Refusal> {
    let mut word = Bits { bits: 0, len: 0 };
    // SAFETY: the two numbers to write are `word`'s own.
    let answer = unsafe { sys::corbastrigo_encode_instruction(opcode, operand, &mut word.bits, &mut word.len) };
    Refusal::check(answer)?;
    Ok(word)
}
