//! Counting comparisons and telling differences.
use oracle::document::{End, Verdict, CUT_OPCODE, CUT_OPERAND};
use std::collections::HashMap;
use std::fmt::Debug;

#[derive(Default)]
pub struct Tally {
    pub compared: u64,
    pub different: u64,
    pub accepted: u64,
    pub refused: u64,
    /// Of the refused maps, those cut in an opcode and those cut in an operand.
    pub cut: [u64; 2],
    /// The walks by how they ended: two that give a number, then what aborts.
    pub ended: [u64; 5],
    told: HashMap<String, u64>,
}

/// The most differences that are told of a call.
const TOLD: u64 = 5;

impl Tally {
    /// Counts a map.
    pub fn verdict(&mut self, verdict: Verdict) {
        match verdict {
            Verdict::Accepted { .. } => self.accepted += 1,
            Verdict::Refused(reason) => {
                self.refused += 1;
                self.cut[0] += u64::from(reason == CUT_OPCODE);
                self.cut[1] += u64::from(reason == CUT_OPERAND);
            }
        }
    }

    /// Counts a walk.
    pub fn end(&mut self, end: End) {
        let place = match end {
            End::Returned => 0,
            End::Differed => 1,
            End::TooFewBits => 2,
            End::CutOpcode => 3,
            End::CutOperand => 4,
        };
        self.ended[place] += 1;
    }

    /// Whether two results are equal; the input is told where they are not.
    pub fn same<T: PartialEq + Debug>(&mut self, call: &str, input: &dyn Debug, ours: T, theirs: T) {
        self.compared += 1;
        if ours == theirs {
            return;
        }
        self.different += 1;
        let told = self.told.entry(call.to_string()).or_default();
        *told += 1;
        if *told <= TOLD {
            println!("scale: {call} of {}: ours {}, theirs {}", cut(input), cut(&ours), cut(&theirs));
        }
    }
}

fn cut(value: &dyn Debug) -> String {
    let mut text = format!("{value:02x?}");
    text.truncate(600);
    text
}
