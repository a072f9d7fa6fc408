use std::fmt;

/// The one table of refusals: each with its name, its number and its words.
macro_rules! refusals {
    ($($name:ident = $number:literal: $words:literal,)*) => {
        /// Why a call was refused. A refused call wrote nothing.
        ///
        /// The names are those of `include/corbastrigo.h`. Versions to come add to them, so a `match` needs a last arm for the rest.
        ///
        /// ```
        /// use corbastrigo::{sanity_check, Refusal};
        ///
        /// let refusal = sanity_check(&[0xfb]).unwrap_err();
        /// assert_eq!(refusal, Refusal::CutOperand);
        /// assert_eq!(refusal.number(), 19);
        /// assert_eq!(refusal.to_string(), "an operand is cut by the map's end (refusal 19)");
        /// ```
        #[derive(Clone, Copy, PartialEq, Eq, Hash)]
        #[non_exhaustive]
        pub enum Refusal {
            $(#[doc = concat!($number, ": ", $words, ".")] $name,)*
            /// A number that this version has no name for. Ask for it by [`Refusal::number`]: a version to come may name it.
            Other(u8),
        }

        impl Refusal {
            /// Every refusal that has a name, by its number.
            pub const NAMED: &'static [Refusal] = &[$(Refusal::$name,)*];

            /// The refusal of a number; `None` for 0, which says that a call is done.
            pub fn from_number(number: u8) -> Option<Refusal> {
                match number {
                    0 => None,
                    $($number => Some(Refusal::$name),)*
                    other => Some(Refusal::Other(other)),
                }
            }

            /// The number, which stays the same in every version: 1 to 22 of those that have a name.
            pub fn number(self) -> u8 {
                match self {
                    $(Refusal::$name => $number,)*
                    Refusal::Other(number) => number,
                }
            }

            /// The reason in words.
            pub fn reason(self) -> &'static str {
                match self {
                    $(Refusal::$name => $words,)*
                    Refusal::Other(_) => "a reason that this version does not know",
                }
            }

            fn name(self) -> &'static str {
                match self {
                    $(Refusal::$name => stringify!($name),)*
                    Refusal::Other(_) => "Other",
                }
            }
        }
    };
}

refusals! {
    MapTooLong = 1: "the map has more than 16,777,216 bytes",
    MapEnds = 2: "the map ends where an instruction must start",
    PastTarget = 3: "an instruction starts at or past the innermost open jump's target",
    CutOpcode = 4: "an opcode is cut by the map's end",
    AfterDefault = 5: "a RETURN or a DEFAULT comes straight after a DEFAULT",
    Padding = 6: "more than 7 bits, or a bit that is 1, follow the last RETURN",
    NotAtTarget = 7: "a RETURN does not end at the innermost open jump's target",
    NoBits = 8: "an instruction uses more address bits than are left",
    TargetsCross = 9: "a jump's target lies at or past the innermost open jump's target",
    ShortMatches = 10: "a MATCH shorter than 8 comes straight after a MATCH shorter than 8",
    AddressLength = 11: "the address does not have 16 bytes, or 4 at width 32",
    TooMany = 12: "more than 4,096 candidates or occupied groups",
    Candidate = 13: "a candidate is not 20 bytes of a known form",
    OutputTooShort = 14: "the output is too short",
    OutOfRange = 15: "the opcode or operand is out of its range",
    Record = 16: "a record's length, zeros, place or size is wrong",
    RelayLength = 17: "the address has a length that its network does not have",
    Width = 18: "the width is neither 32 nor 128",
    CutOperand = 19: "an operand is cut by the map's end",
    Load = 20: "the seed is 0, or there are more than 128 pairs",
    Prefix = 21: "record bytes no multiple of 24, or a prefix out of order, overlapping, longer than the width, with ones past it or wrong zeros",
    Number = 22: "a number that is not within 1 to 33,521,664",
}

impl Refusal {
    /// What a call answered, as a result: 0 is done.
    pub(crate) fn check(answer: u8) -> Result<(), Refusal> {
        Refusal::from_number(answer).map_or(Ok(()), Err)
    }
}

impl fmt::Display for Refusal {
    fn fmt(&self, f: &mut fmt::Formatter<'_>) -> fmt::Result {
        write!(f, "{} (refusal {})", self.reason(), self.number())
    }
}

/// The name, the number and the words: this is what a `main` that answers a `Result` prints.
impl fmt::Debug for Refusal {
    fn fmt(&self, f: &mut fmt::Formatter<'_>) -> fmt::Result {
        write!(f, "{} (refusal {}: {})", self.name(), self.number(), self.reason())
    }
}

impl std::error::Error for Refusal {}
