//! Two maps that are read and compared. One that the check refuses is told with its reason and place, and nothing else is then said of
//! either.
use crate::check::{refusal_lines, refusal_object};
use crate::failure::Failure;
use crate::files::{self, MapFile};
use crate::width::Width;
use corbastrigo::{compare_bits, interpret_bits, sanity_check_bits, CompareError, Refusal};
use serde_json::Value;
use std::net::IpAddr;
use std::path::{Path, PathBuf};

/// A map's file and what was read of it.
struct Side {
    path: PathBuf,
    file: MapFile,
}

impl Side {
    fn read(path: &Path, width: Width) -> Result<Side, Failure> {
        Ok(Side { path: path.to_path_buf(), file: files::read_map(path, width)? })
    }

    fn name(&self) -> String {
        files::shown(&self.path)
    }

    /// The number that the bytes of an address are sent to.
    fn number(&self, address: &[u8]) -> Result<u32, Failure> {
        // The comparison accepted the map, so nothing is left to refuse; if it were, that would not say that anything differs.
        let walk = interpret_bits(&self.file.bytes, address, self.file.width.bits());
        walk.map(|walk| walk.number).map_err(|refusal| Failure::new(format!("{} is not walked: {refusal}", self.name())))
    }
}

/// Two maps of one width, both read.
pub struct Pair {
    old: Side,
    new: Side,
    pub width: Width,
}

impl Pair {
    pub fn read(old: &Path, new: &Path, width: Width) -> Result<Pair, Failure> {
        Ok(Pair { old: Side::read(old, width)?, new: Side::read(new, width)?, width })
    }

    /// Their names, the old one's first.
    pub fn names(&self) -> [String; 2] {
        [self.old.name(), self.new.name()]
    }

    /// Their bytes, the old one's first. They were read to the limit and a byte further, no more.
    pub fn bytes(&self) -> [&[u8]; 2] {
        [&self.old.file.bytes, &self.new.file.bytes]
    }

    /// The numbers that an address is sent to, by the old map and by the new one.
    pub fn numbers(&self, address: IpAddr) -> Result<(u32, u32), Failure> {
        let address = self.width.bytes(address);
        Ok((self.old.number(&address)?, self.new.number(&address)?))
    }

    /// The library's comparison as records, or the maps that the check refuses: one of them, or both.
    pub fn compare(&self) -> Result<Result<Vec<u8>, Vec<Refused<'_>>>, Failure> {
        let ([old, new], bits) = (self.bytes(), self.width.bits());
        let refused = |which, side, refusal| Refused { which, side, refusal };
        let (first, second) = match compare_bits(old, new, bits) {
            Ok(records) => return Ok(Ok(records)),
            // The library looks no further than the old map; an operator wants to know of both.
            Err(CompareError::Old(refusal)) => (Some(refusal), sanity_check_bits(new, bits).err()),
            Err(CompareError::New(refusal)) => (None, Some(refusal)),
            Err(other) => return Err(Failure::new(format!("no memory for the comparison: {}", other.refusal()))),
        };
        let first = first.map(|refusal| refused("old", &self.old, refusal));
        Ok(Err(first.into_iter().chain(second.map(|refusal| refused("new", &self.new, refusal))).collect()))
    }
}

/// A map that the check refuses, and which of the two it is.
pub struct Refused<'a> {
    pub which: &'static str,
    side: &'a Side,
    refusal: Refusal,
}

impl Refused<'_> {
    /// The number and its words.
    pub fn reason(&self) -> String {
        format!("refused, {}: {}", self.refusal.number(), self.refusal.reason())
    }

    /// What `asmap check` says of it, as lines.
    pub fn lines(&self) -> Vec<String> {
        refusal_lines(&self.side.name(), &self.side.file, self.refusal, &format!("refused {}", self.refusal.number()))
    }

    /// What `asmap check` says of it, as an object, with which map it is.
    pub fn object(&self) -> Value {
        let mut object = refusal_object(&self.side.name(), &self.side.file, self.refusal);
        object["kind"] = "refused".into();
        object["which"] = self.which.into();
        object
    }
}
