//! Words that several subcommands use.
use crate::failure::Failure;
use crate::files::{self, Lines};
use crate::out::Out;
use crate::width::Width;
use std::net::IpAddr;
use std::path::Path;

/// The addresses of a width that were asked for, in order; `-` stands for those on standard input, one a line, blank lines left out.
pub fn addresses(asked: &[String], width: Width) -> Addresses<'_> {
    Addresses { asked: asked.iter(), lines: None, width }
}

/// See [`addresses`].
pub struct Addresses<'a> {
    asked: std::slice::Iter<'a, String>,
    lines: Option<Lines>,
    width: Width,
}

impl Addresses<'_> {
    /// Whether the next address may have to be waited for: what is answered so far should go out first.
    pub fn waits(&self) -> bool {
        self.lines.as_ref().is_some_and(Lines::waits)
    }

    /// The next address of standard input, while there is one.
    fn next_line(&mut self) -> Option<Result<IpAddr, Failure>> {
        let (lines, width) = (self.lines.as_mut()?, self.width);
        let line = lines.find(|line| !matches!(line, Ok(line) if line.trim().is_empty()));
        match line {
            Some(line) => Some(line.and_then(|line| width.address(line.trim()).map_err(|failure| lines.at_line(failure)))),
            None => {
                self.lines = None;
                None
            }
        }
    }
}

impl Iterator for Addresses<'_> {
    type Item = Result<IpAddr, Failure>;

    fn next(&mut self) -> Option<Result<IpAddr, Failure>> {
        loop {
            if let Some(address) = self.next_line() {
                return Some(address);
            }
            let word = self.asked.next()?;
            if word != "-" {
                return Some(self.width.address(word));
            }
            match files::lines(Path::new("-")) {
                Ok(lines) => self.lines = Some(lines),
                Err(failure) => return Some(Err(failure)),
            }
        }
    }
}

/// Answers each address that was asked for, in turn. Answers go out before the next address is waited for.
pub fn each_address(
    asked: &[String],
    width: Width,
    out: &mut Out,
    mut answer: impl FnMut(IpAddr, &mut Out) -> Result<(), Failure>,
) -> Result<(), Failure> {
    let mut addresses = addresses(asked, width);
    while let Some(address) = addresses.next() {
        answer(address?, out)?;
        if addresses.waits() {
            out.finish()?;
        }
    }
    Ok(())
}

/// The characters of the addresses' column: those of the longest, or, where they are yet to come, of any that can be.
pub fn column(asked: &[String], width: Width) -> usize {
    let shown = |word: &String| match word.as_str() {
        "-" => width.longest_address(),
        word => width.address(word).map_or(0, |address| address.to_string().len()),
    };
    asked.iter().map(shown).max().unwrap_or(width.longest_address())
}

pub const RETURN: u32 = 0;
pub const JUMP: u32 = 1;
pub const MATCH: u32 = 2;

/// An opcode's name. The library reads no other than these four.
pub fn opcode(opcode: u32) -> &'static str {
    match opcode {
        RETURN => "RETURN",
        JUMP => "JUMP",
        MATCH => "MATCH",
        _ => "DEFAULT",
    }
}

/// The bits that a MATCH compares: those of its operand below the leading one, the highest first.
pub fn match_bits(operand: u32) -> String {
    format!("{operand:b}").split_off(1)
}

/// What a number 0 comes from. Of an accepted map it comes from nothing else.
pub const NO_DEFAULT: &str = "the walk differed before any DEFAULT was met";

/// A count with its noun.
pub fn counted(count: u64, one: &str, many: &str) -> String {
    format!("{} {}", grouped(count), if count == 1 { one } else { many })
}

/// A number with a comma before every three digits.
pub fn grouped(number: impl Into<u128>) -> String {
    let digits = number.into().to_string();
    let mut text = String::new();
    for (place, digit) in digits.chars().enumerate() {
        if place > 0 && (digits.len() - place) % 3 == 0 {
            text.push(',');
        }
        text.push(digit);
    }
    text
}

#[cfg(test)]
mod tests {
    use super::*;

    #[test]
    fn digits_are_grouped_by_three() {
        let found = [0u64, 12, 999, 1_000, 16_777_216, 10_737_418_240].map(grouped);
        assert_eq!(found, ["0", "12", "999", "1,000", "16,777,216", "10,737,418,240"]);
    }

    #[test]
    fn a_match_compares_what_is_below_the_leading_one() {
        assert_eq!([2, 3, 256, 511].map(match_bits), ["0", "1", "00000000", "11111111"]);
    }
}
