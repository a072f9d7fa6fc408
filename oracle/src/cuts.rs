//! What the map's end cuts of an instruction (document 02, CR 5), told by counting and without a decoder: how many bits its two codes need,
//! which their leading ones say, and how many are left. The original's decoders have one mark for both cuts; that there is a cut just where
//! they say so is held here, for every check and every walk.
use crate::codes::{operand_row, Row, ROWS};
use crate::document::{instruction_at, Refusal, Verdict, Walk, CUT_OPCODE, CUT_OPERAND};

/// No instruction has more bits.
const LONGEST: usize = 57;

/// How many bits the code has that these bits begin with; none where they end before it does.
fn length(row: &Row, bits: &[bool]) -> Option<usize> {
    let last = row.sizes.len() - 1;
    let ones = bits.iter().take(last).take_while(|&&bit| bit).count();
    // The last size has no bit that says so.
    let stop = usize::from(ones < last);
    let length = ones + stop + usize::from(row.sizes[ones]);
    (length <= bits.len()).then_some(length)
}

/// The refusal of the instruction at a place, or none where it is whole.
pub fn cut_at(map: &[u8], place: usize) -> Option<Refusal> {
    let bits: Vec<bool> = (place..8 * map.len()).take(LONGEST).map(|bit| map[bit / 8] >> (bit % 8) & 1 == 1).collect();
    let cut = match length(&ROWS[0], &bits) {
        None => Some(CUT_OPCODE),
        Some(opcode) => {
            // The codes of the four opcodes are 0, 10, 110 and 111: an opcode is how many ones its code has.
            let ones = bits[..opcode].iter().filter(|&&bit| bit).count();
            length(operand_row(ones as u32), &bits[opcode..]).is_none().then_some(CUT_OPERAND)
        }
    };
    let mut next = place;
    assert_eq!(instruction_at(&mut next, map).err(), cut, "the original's decoders at bit {place} of {map:02x?}");
    cut
}

/// Holds a check to the cut at the place where it stops: what it says before it looks for an operand, or for an opcode, needs none.
pub fn hold_check(map: &[u8], verdict: Verdict, place: usize) {
    let cut = cut_at(map, place);
    let held = match verdict {
        Verdict::Refused(2) => place == 8 * map.len(),
        Verdict::Refused(3) => place < 8 * map.len(),
        Verdict::Refused(5) => cut != Some(CUT_OPCODE),
        Verdict::Refused(CUT_OPCODE | CUT_OPERAND) => Verdict::Refused(cut.unwrap_or(0)) == verdict,
        _ => cut.is_none(),
    };
    assert!(held, "{verdict:?} at bit {place} of {map:02x?}, where the map's end cuts {cut:?}");
}

/// Holds a walk to the cut at the instruction that ends it. An aborted one has the number 0.
pub fn hold_walk(map: &[u8], walk: &Walk) {
    assert_eq!(walk.end.cut(), cut_at(map, walk.place), "{walk:?} of {map:02x?}");
    assert!(!walk.end.aborts() || walk.number == 0, "{walk:?} of {map:02x?}");
}
