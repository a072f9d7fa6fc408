//! How many bits an address has (document 02, CR 3). Addresses of either width stand in a u128 from its highest bit on, as their bytes do
//! in front of a record: with 32 bits the other 96 are zeros.
use crate::document::Refusal;

#[derive(Clone, Copy, Debug, PartialEq)]
pub struct Width(u32);

/// IPv4 addresses by themselves, not in their mapped form.
pub const W32: Width = Width(32);
pub const W128: Width = Width(128);

impl Width {
    /// "18, first of all, for a width that is neither."
    pub fn of(number: u32) -> Result<Width, Refusal> {
        [W32, W128].into_iter().find(|width| width.0 == number).ok_or(18)
    }

    pub fn bits(self) -> u32 {
        self.0
    }

    pub fn bytes(self) -> usize {
        self.0 as usize / 8
    }
}
