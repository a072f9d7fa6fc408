//! Output files: each is there whole or not at all, and none is written over an input.
use crate::failure::Failure;
use crate::files::shown;
use crate::out::{bar, progress, Out};
use indicatif::ProgressBar;
use std::ffi::OsString;
use std::fmt;
use std::fs::{self, File, Metadata};
use std::io::{self, BufWriter, IsTerminal, Write};
use std::os::fd::AsFd;
use std::os::unix::fs::MetadataExt;
use std::path::{Path, PathBuf};

/// What is told of an input, `-` being standard input.
fn input_told(input: &Path) -> io::Result<Metadata> {
    if input == Path::new("-") {
        return File::from(io::stdin().as_fd().try_clone_to_owned()?).metadata();
    }
    fs::metadata(input)
}

/// Whether an output that is there is one of the inputs, by whatever name: links and a redirected standard input are seen through.
fn is_input(output: &Metadata, inputs: &[&Path]) -> bool {
    let is = |input: &&Path| input_told(input).is_ok_and(|input| (input.dev(), input.ino()) == (output.dev(), output.ino()));
    inputs.iter().any(is)
}

/// The file that an output replaces, where there is one. A link stays, and what it leads to is replaced. A device would be lost if a file
/// took its name, so only a file is replaced.
fn replaced(path: &Path, inputs: &[&Path]) -> Result<Option<(PathBuf, Metadata)>, Failure> {
    let said = |why: &str| Err(Failure::new(format!("{} {why}", shown(path))));
    let Ok(told) = fs::metadata(path) else {
        return Ok(None);
    };
    if told.is_dir() {
        return said("is a directory; give the name of a file for the output");
    }
    if !told.is_file() {
        return said("is no regular file; leave the option out to write to standard output");
    }
    if is_input(&told, inputs) {
        return said("is the input; give the output another name");
    }
    let path = fs::canonicalize(path).map_err(|error| failed(path, &error))?;
    Ok(Some((path, told)))
}

fn failed(path: &Path, error: &io::Error) -> Failure {
    Failure::new(format!("{} cannot be written: {error}", shown(path)))
}

/// The name of the new file beside an output, which takes the output's name once it is whole.
fn beside(path: &Path) -> Option<PathBuf> {
    let mut name = OsString::from(".");
    name.push(path.file_name()?);
    name.push(format!(".{}.new", std::process::id()));
    Some(path.with_file_name(name))
}

/// A file on its way: it has a name of its own until `finish`, and goes where that is not reached.
pub struct Whole {
    file: BufWriter<File>,
    new: PathBuf,
    /// The file that it becomes, and the name that it was given, which may be a link to that.
    becomes: PathBuf,
    given: PathBuf,
    finished: bool,
}

impl Whole {
    pub fn create(given: &Path, inputs: &[&Path]) -> Result<Whole, Failure> {
        let said = |error: io::Error| failed(given, &error);
        let old = replaced(given, inputs)?;
        let becomes = old.as_ref().map_or(given, |(path, _)| path);
        let new =
            beside(becomes).ok_or_else(|| Failure::new(format!("{} names no file; give one for the output", shown(given))))?;
        let file = BufWriter::new(File::create_new(&new).map_err(said)?);
        let whole = Whole { file, new, becomes: becomes.to_path_buf(), given: given.to_path_buf(), finished: false };
        if let Some((_, told)) = &old {
            // Who may read the old file may read the new one, and nobody else.
            fs::set_permissions(&whole.new, told.permissions()).map_err(said)?;
        }
        Ok(whole)
    }

    pub fn bytes(&mut self, bytes: &[u8]) -> Result<(), Failure> {
        self.file.write_all(bytes).map_err(|error| failed(&self.given, &error))
    }

    fn write_fmt(&mut self, text: fmt::Arguments) -> Result<(), Failure> {
        self.file.write_fmt(text).map_err(|error| failed(&self.given, &error))
    }

    /// The output is there from now on.
    pub fn finish(mut self) -> Result<(), Failure> {
        let done =
            self.file.flush().and_then(|()| self.file.get_ref().sync_all()).and_then(|()| fs::rename(&self.new, &self.becomes));
        self.finished = done.is_ok();
        done.map_err(|error| failed(&self.given, &error))
    }
}

impl Drop for Whole {
    fn drop(&mut self) {
        if !self.finished {
            // What is there of it is of no use to anybody; that it cannot be removed either would be no news.
            let _ = fs::remove_file(&self.new);
        }
    }
}

/// With `--json` standard output says what became of a map, so that the map itself needs a file.
pub fn room_for_a_map(output: Option<&Path>, out: &Out) -> Result<(), Failure> {
    if out.is_json() && output.is_none() {
        return Err(Failure::new("with --json standard output says what became of the map; name a file for the map with -o"));
    }
    Ok(())
}

/// Where a list or a map goes: to a file that was named, or to standard output.
pub enum Sink<'a> {
    File(Whole),
    Standard(&'a mut Out),
}

impl<'a> Sink<'a> {
    pub fn text(output: Option<&Path>, inputs: &[&Path], out: &'a mut Out) -> Result<Sink<'a>, Failure> {
        match output {
            Some(path) => Ok(Sink::File(Whole::create(path, inputs)?)),
            None => Ok(Sink::Standard(out)),
        }
    }

    /// For bytes that would only garble a terminal.
    pub fn binary(output: Option<&Path>, inputs: &[&Path], out: &'a mut Out) -> Result<Sink<'a>, Failure> {
        if output.is_none() && io::stdout().is_terminal() {
            return Err(Failure::new("these bytes are not for a terminal; name a file with -o, or lead them into another program"));
        }
        Sink::text(output, inputs, out)
    }

    pub fn bytes(&mut self, bytes: &[u8]) -> Result<(), Failure> {
        match self {
            Sink::File(file) => file.bytes(bytes),
            Sink::Standard(out) => out.bytes(bytes),
        }
    }

    pub fn line(&mut self, text: &str) -> Result<(), Failure> {
        self.bytes(text.as_bytes())?;
        self.bytes(b"\n")
    }

    /// For `write!` and `writeln!`.
    pub fn write_fmt(&mut self, text: fmt::Arguments) -> Result<(), Failure> {
        match self {
            Sink::File(file) => file.write_fmt(text),
            Sink::Standard(out) => out.write_fmt(text),
        }
    }

    /// How far it is with so many answers, where they do not go to a terminal.
    pub fn progress(&self, total: u64, noun: &str) -> ProgressBar {
        match self {
            Sink::File(_) => bar(Some(total), noun),
            Sink::Standard(_) => progress(Some(total), noun),
        }
    }

    pub fn finish(self) -> Result<(), Failure> {
        match self {
            Sink::File(file) => file.finish(),
            Sink::Standard(out) => out.finish(),
        }
    }
}
