//! Lists in files, an entry a line: candidates, occupied groups, and prefixes with their numbers.
use crate::failure::Failure;
use crate::files::{self, input_name};
use crate::width::Width;
use corbastrigo::{Prefix, Refusal, MAX_CANDIDATES};
use std::net::SocketAddr;
use std::path::Path;

/// What the lines of a file hold. Blank lines, and what stands behind `#`, are left out.
pub fn entries<T>(
    path: &Path,
    parse: impl Fn(&str) -> Result<T, Failure>,
) -> Result<impl Iterator<Item = Result<T, Failure>>, Failure> {
    let mut lines = files::lines(path)?;
    Ok(std::iter::from_fn(move || loop {
        let line = match lines.next()? {
            Ok(line) => line,
            Err(failure) => return Some(Err(failure)),
        };
        let entry = line.split('#').next().unwrap_or_default().trim();
        if !entry.is_empty() {
            return Some(parse(entry).map_err(|failure| lines.at_line(failure)));
        }
    }))
}

/// The candidates of a file. One past the limit is enough for the library to refuse them.
pub fn candidates(path: &Path) -> Result<Vec<SocketAddr>, Failure> {
    entries(path, candidate)?.take(MAX_CANDIDATES + 1).collect()
}

/// A candidate as text.
fn candidate(word: &str) -> Result<SocketAddr, Failure> {
    if word.contains('%') {
        return Err(Failure::new(format!("{word:?} has a zone behind %, which holds on one machine only; leave it out")));
    }
    word.parse()
        .map_err(|_| Failure::new(format!("{word:?} is no candidate; write 1.2.3.4:8333 or [2001:db8::1]:8333, with the port")))
}

/// A group as text.
pub fn group(word: &str) -> Result<u64, Failure> {
    word.parse().map_err(|_| Failure::new(format!("{word:?} is no group; write its number in decimal, as `asmap group` shows it")))
}

/// The prefix and the number of a line, as `asmap list` writes them and `asmap diff` begins its lines; nothing for one that is blank or only a
/// comment.
pub fn prefix(line: &str, width: Width) -> Result<Option<Prefix>, Failure> {
    let mut words = line.split('#').next().unwrap_or_default().split_whitespace();
    let Some(network) = words.next() else {
        return Ok(None);
    };
    let (address, length) = width.prefix(network)?;
    let number = words.next().ok_or_else(|| Failure::new(format!("{network} without a number; write {network} AS64496")))?;
    let number = number
        .strip_prefix("AS")
        .ok_or_else(|| Failure::new(format!("{number:?} is no number; write AS and the number in decimal, as in AS64496")))
        .and_then(as_number)?;
    match words.next() {
        Some(more) => Err(Failure::new(format!("{more:?} behind the number; write one prefix a line, and comments behind #"))),
        None => Ok(Some(Prefix { address, length, number })),
    }
}

/// A number in decimal that 32 bits hold. Which of them a map can have is the library's to say.
fn as_number(digits: &str) -> Result<u32, Failure> {
    let decimal = digits.bytes().all(|byte| byte.is_ascii_digit()).then(|| digits.parse().ok()).flatten();
    decimal
        .ok_or_else(|| Failure::new(format!("AS{digits} is no number; write AS and a number of 32 bits in decimal, as in AS64496")))
}

/// What to ask oneself of a list of too many occupied groups.
pub const SO_MANY_GROUPS: &str = "are so many peers connected?";

/// The "no" to a list that is too long.
pub fn refused(list: &Path, refusal: Refusal, hint: &str) -> Failure {
    Failure::No(format!("{} is refused, {}: {}; {hint}", input_name(list), refusal.number(), refusal.reason()))
}

#[cfg(test)]
mod tests {
    use super::*;

    fn width(bits: u32) -> Width {
        Width::asked(bits).expect("a width")
    }

    /// What a line comes to, at 128 bits.
    fn read(line: &str) -> Result<Option<(u128, u8, u32)>, String> {
        match prefix(line, width(128)) {
            Ok(read) => Ok(read.map(|prefix| (u128::from_be_bytes(prefix.address), prefix.length, prefix.number))),
            Err(Failure::Said(message)) => Err(message),
            Err(other) => panic!("{other:?}"),
        }
    }

    #[test]
    fn a_line_holds_a_prefix_and_its_number_or_nothing() {
        let mapped = 0xffff_0102_0000;
        for (line, wanted) in [
            ("1.2.0.0/16 AS1", Some((mapped, 112, 1))),
            ("  1.2.0.0/16\tAS1 # was AS2", Some((mapped, 112, 1))),
            ("::ffff:1.2.0.0/112 AS1", Some((mapped, 112, 1))),
            ("0.0.0.0/0 AS4294967295", Some((0xffff_0000_0000, 96, u32::MAX))),
            ("::/0 AS0", Some((0, 0, 0))),
            ("2001:db8::/32 AS007", Some((0x2001_0db8 << 96, 32, 7))),
            // Ones behind the length are the library's to refuse.
            ("1.2.0.0/8 AS1", Some((mapped, 104, 1))),
            ("", None),
            ("  # 1.2.0.0/16 AS1", None),
        ] {
            assert_eq!(read(line), Ok(wanted), "{line:?}");
        }
    }

    #[test]
    fn a_line_that_holds_something_else_is_named_with_what_was_expected() {
        let forms = "write 1.2.0.0/16 or 2001:db8::/32";
        for (line, wanted) in [
            ("1.2.0.0 AS1", format!("\"1.2.0.0\" is no prefix; {forms}")),
            ("1.2.0.0/33 AS1", format!("\"1.2.0.0/33\" is no prefix; {forms}")),
            ("2001:db8::/129 AS1", format!("\"2001:db8::/129\" is no prefix; {forms}")),
            ("1.2.0.0/+8 AS1", format!("\"1.2.0.0/+8\" is no prefix; {forms}")),
            ("1.2.0.0/ AS1", format!("\"1.2.0.0/\" is no prefix; {forms}")),
            ("1.2/16 AS1", format!("\"1.2/16\" is no prefix; {forms}")),
            ("fe80::%1/64 AS1", format!("\"fe80::%1/64\" is no prefix; {forms}")),
            ("AS1 1.2.0.0/16", format!("\"AS1\" is no prefix; {forms}")),
            ("1.2.0.0/16", String::from("1.2.0.0/16 without a number; write 1.2.0.0/16 AS64496")),
            ("1.2.0.0/16 1", String::from("\"1\" is no number; write AS and the number in decimal, as in AS64496")),
            ("1.2.0.0/16 as1", String::from("\"as1\" is no number; write AS and the number in decimal, as in AS64496")),
            ("1.2.0.0/16 AS", String::from("AS is no number; write AS and a number of 32 bits in decimal, as in AS64496")),
            ("1.2.0.0/16 AS-1", String::from("AS-1 is no number; write AS and a number of 32 bits in decimal, as in AS64496")),
            (
                "1.2.0.0/16 AS4294967296",
                String::from("AS4294967296 is no number; write AS and a number of 32 bits in decimal, as in AS64496"),
            ),
            ("1.2.0.0/16 AS1 AS2", String::from("\"AS2\" behind the number; write one prefix a line, and comments behind #")),
        ] {
            assert_eq!(read(line), Err(wanted), "{line:?}");
        }
    }

    #[test]
    fn at_32_a_prefix_has_its_own_four_bytes_and_is_of_ipv4() {
        let read = prefix("1.2.0.0/16 AS7", width(32)).expect("a line").expect("a prefix");
        assert_eq!((read.address[..4].to_vec(), read.address[4..].to_vec(), read.length), (vec![1, 2, 0, 0], vec![0; 12], 16));
        let failure = prefix("2001:db8::/32 AS7", width(32)).expect_err("IPv6");
        let wanted = "\"2001:db8::/32\" is no IPv4 prefix, and a map of width 32 has no others; write 1.2.0.0/16";
        assert!(matches!(&failure, Failure::Said(message) if message == wanted), "{failure:?}");
    }
}
