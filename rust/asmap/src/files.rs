//! Files that are read. Nothing is read past the limit.
use crate::failure::Failure;
use crate::width::Width;
use corbastrigo::{sanity_check_bits, AsMap, Refusal, MAX_MAP_BYTES};
use std::fs::File;
use std::io::{self, BufRead, BufReader, Read};
use std::path::Path;

/// A file's name as it is shown.
pub fn shown(path: &Path) -> String {
    path.display().to_string()
}

/// An input as it is named in messages; `-` is standard input.
pub fn input_name(path: &Path) -> String {
    if path == Path::new("-") {
        return String::from("standard input");
    }
    shown(path)
}

fn failed(path: &Path, error: &io::Error) -> Failure {
    Failure::new(format!("{} cannot be read: {error}", input_name(path)))
}

/// What was read of a map file.
pub struct MapFile {
    /// Its bytes, at most one more than the limit: that is enough for the library to refuse it.
    pub bytes: Vec<u8>,
    /// The size that the file has, or what was read of it where it tells none (a pipe).
    pub size: u64,
    /// How many bits its addresses are taken to have. The bytes do not tell.
    pub width: Width,
}

/// Reads a map file: one byte past the limit at most.
pub fn read_map(path: &Path, width: Width) -> Result<MapFile, Failure> {
    let file = File::open(path).map_err(|error| failed(path, &error))?;
    let told = file.metadata().map_err(|error| failed(path, &error))?;
    if told.is_dir() {
        return Err(Failure::new(format!("{} is a directory; give the file of a map", shown(path))));
    }
    let mut bytes = Vec::new();
    file.take(MAX_MAP_BYTES as u64 + 1).read_to_end(&mut bytes).map_err(|error| failed(path, &error))?;
    let size = told.len().max(bytes.len() as u64);
    Ok(MapFile { bytes, size, width })
}

/// Reads a file, or standard input where the name is `-`. Nothing where it has more bytes than the limit, which is not read past.
pub fn read_within(path: &Path, limit: usize) -> Result<Option<Vec<u8>>, Failure> {
    let said = |error: io::Error| failed(path, &error);
    let reader: Box<dyn Read> = if path == Path::new("-") {
        Box::new(io::stdin())
    } else {
        let file = File::open(path).map_err(said)?;
        if file.metadata().map_err(said)?.len() > limit as u64 {
            return Ok(None);
        }
        Box::new(file)
    };
    let mut bytes = Vec::new();
    reader.take(limit as u64 + 1).read_to_end(&mut bytes).map_err(said)?;
    Ok((bytes.len() <= limit).then_some(bytes))
}

/// Reads a map file and has it checked. A refused map is a "no" that says what to do.
pub fn checked_file(path: &Path, width: Width) -> Result<MapFile, Failure> {
    let file = read_map(path, width)?;
    match sanity_check_bits(&file.bytes, width.bits()) {
        Ok(_) => Ok(file),
        Err(refusal) => Err(refused(path, refusal, width)),
    }
}

/// The same for groups, which are by maps of 128 bits.
pub fn checked_map(path: &Path) -> Result<AsMap, Failure> {
    let file = read_map(path, Width::MAPPED)?;
    AsMap::checked(file.bytes).map_err(|refusal| refused(path, refusal, file.width))
}

/// The "no" to a map that the check refuses.
pub fn refused(path: &Path, refusal: Refusal, width: Width) -> Failure {
    let (name, option) = (shown(path), width.option());
    Failure::No(format!(
        "{name} is refused, {}: {}; `asmap check {option}{name}` says where and what usually causes it",
        refusal.number(),
        refusal.reason()
    ))
}

/// The most bytes of a line. No address, candidate or instruction comes near it, and what is longer is not read whole.
const MOST_LINE: usize = 4_096;

/// The lines of a file, or of standard input where the name is `-`.
pub fn lines(path: &Path) -> Result<Lines, Failure> {
    let (name, reader): (String, Box<dyn Read>) = if path == Path::new("-") {
        (String::from("standard input"), Box::new(io::stdin()))
    } else {
        (shown(path), Box::new(File::open(path).map_err(|error| failed(path, &error))?))
    };
    Ok(Lines { name, reader: BufReader::new(reader), number: 0 })
}

/// See [`lines`]. A line that is too long or not UTF-8 is a failure that names it.
pub struct Lines {
    name: String,
    reader: BufReader<Box<dyn Read>>,
    number: u64,
}

impl Lines {
    /// Whether the next line may have to be waited for.
    pub fn waits(&self) -> bool {
        !self.reader.buffer().contains(&b'\n')
    }

    /// Whether the first byte that is no blank is this one, as far as the first part of the file tells.
    pub fn starts_with(&mut self, byte: u8) -> Result<bool, Failure> {
        let part = self.reader.fill_buf().map_err(|error| Failure::new(format!("{} cannot be read: {error}", self.name)))?;
        Ok(part.trim_ascii_start().first() == Some(&byte))
    }

    /// All that is left. Nothing where it has more bytes than the limit, which is not read past.
    pub fn rest(self, limit: usize) -> Result<Option<Vec<u8>>, Failure> {
        let mut bytes = Vec::new();
        let read = self.reader.take(limit as u64 + 1).read_to_end(&mut bytes);
        read.map_err(|error| Failure::new(format!("{} cannot be read: {error}", self.name)))?;
        Ok((bytes.len() <= limit).then_some(bytes))
    }

    /// A failure of the last line, which is named.
    pub fn at_line(&self, failure: Failure) -> Failure {
        match failure {
            Failure::Said(message) => Failure::Said(format!("{}: line {}: {message}", self.name, self.number)),
            other => other,
        }
    }

    /// The bytes of the next line without its end, or none at the file's end.
    fn next_bytes(&mut self) -> Result<Option<Vec<u8>>, Failure> {
        let mut bytes = Vec::new();
        let limited = self.reader.by_ref().take(MOST_LINE as u64 + 1).read_until(b'\n', &mut bytes);
        limited.map_err(|error| Failure::new(format!("{} cannot be read: {error}", self.name)))?;
        self.number += 1;
        if bytes.is_empty() {
            return Ok(None);
        }
        if bytes.len() > MOST_LINE && !bytes.ends_with(b"\n") {
            return Err(self.at_line(Failure::new(format!("it has more than {MOST_LINE} bytes"))));
        }
        let end = [&b"\r\n"[..], b"\n"].into_iter().find(|end| bytes.ends_with(end)).unwrap_or_default();
        bytes.truncate(bytes.len() - end.len());
        Ok(Some(bytes))
    }
}

impl Iterator for Lines {
    type Item = Result<String, Failure>;

    fn next(&mut self) -> Option<Result<String, Failure>> {
        let bytes = self.next_bytes().transpose()?;
        Some(bytes.and_then(|bytes| String::from_utf8(bytes).map_err(|_| self.at_line(Failure::new("it is not UTF-8 text")))))
    }
}
