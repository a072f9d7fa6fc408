//! How a run ends: done, "no", or a failure that is the caller's to mend.
use std::io::{self, Write};

/// What a subcommand that could do its work came to.
#[derive(Clone, Copy, Debug, PartialEq, Eq)]
pub enum Status {
    /// Exit status 0.
    Done,
    /// The answer is no: refused, or it differs. Exit status 1.
    No,
    /// Two maps differ. Exit status 1, also where nobody reads how.
    Differs,
    /// A map is refused, so that two were not compared. Exit status 3, also where nobody reads why.
    Refused,
}

impl Status {
    /// No where either is.
    pub fn and(self, other: Status) -> Status {
        match (self, other) {
            (Status::Done, Status::Done) => Status::Done,
            _ => Status::No,
        }
    }
}

/// Why a subcommand could not do its work.
#[derive(Debug)]
pub enum Failure {
    /// Misuse, or a file that cannot be read or written, in words that say what to do. Exit status 2.
    Said(String),
    /// The answer is no before any work was done, in words: a map that is refused. Exit status 1.
    No(String),
    /// Nobody reads the output any more. Exit status 0.
    BrokenPipe,
}

pub type Outcome = Result<Status, Failure>;

impl Failure {
    pub fn new(message: impl Into<String>) -> Failure {
        Failure::Said(message.into())
    }

    /// An error while the output is written.
    pub fn output(error: io::Error) -> Failure {
        match error.kind() {
            io::ErrorKind::BrokenPipe => Failure::BrokenPipe,
            _ => Failure::new(format!("the output could not be written: {error}")),
        }
    }
}

/// A message on standard error. Where nobody can read it there is nobody to tell.
pub fn say(message: &str) {
    let _ = writeln!(io::stderr(), "asmap: {message}");
}
