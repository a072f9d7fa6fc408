//! `asmap`: Bitcoin's address maps at the command line. What decides anything is a call of the proved library; this program reads
//! arguments and files, and words the answers.
mod args;
mod build;
mod cause;
mod check;
mod compared;
mod diff;
mod difference;
mod failure;
mod files;
mod filter;
mod forms;
mod group;
mod grouping;
mod joined;
mod list;
mod listing;
mod lists;
mod load;
mod man;
mod network;
mod out;
mod pack;
mod page;
mod pick;
mod ranges;
mod replay;
mod sampled;
mod scan;
mod tally;
mod trace;
mod undo_check;
mod unpack;
mod walk;
mod whole;
mod width;
mod words;

use args::{Arguments, Command};
use clap::Parser;
use failure::{Failure, Outcome, Status};
use out::Out;
use std::process::ExitCode;

/// Carries a subcommand out.
fn run(command: Command, out: &mut Out) -> Outcome {
    match command {
        Command::Check(asked) => check::run(&asked, out),
        Command::Walk(asked) => walk::run(&asked, out),
        Command::Trace(asked) => trace::run(&asked, out),
        Command::List(asked) => list::run(&asked, out),
        Command::Diff(asked) => diff::run(&asked, out),
        Command::UndoCheck(asked) => undo_check::run(&asked, out),
        Command::Unpack(asked) => unpack::run(&asked, out),
        Command::Pack(asked) => pack::run(&asked, out),
        Command::Build(asked) => build::run(&asked, out),
        Command::Load(asked) => load::run(&asked, out),
        Command::Group(asked) => group::run(&asked, out),
        Command::Pick(asked) => pick::run(&asked, out),
        Command::Scan(asked) => scan::run(&asked, out),
        Command::Page(asked) => page::run(&asked, out),
        Command::Filter(asked) => filter::run(&asked, out),
        Command::Man => man::run(out),
        Command::Completions(asked) => man::completions(&asked, out),
    }
}

/// The exit status of an outcome. What went wrong is said after everything that was answered before it.
fn status(outcome: Outcome) -> u8 {
    match outcome {
        Ok(Status::Done) => 0,
        Ok(Status::No | Status::Differs) => 1,
        Ok(Status::Refused) => 3,
        // Whoever read our output has seen enough.
        Err(Failure::BrokenPipe) => 0,
        Err(Failure::No(message)) => {
            failure::say(&message);
            1
        }
        Err(Failure::Said(message)) => {
            failure::say(&message);
            2
        }
    }
}

/// An outcome when everything has gone out. What two maps come to holds whether or not somebody reads all of it: a reader that goes away
/// makes no two maps the same.
fn finished(outcome: Outcome, out: &mut Out) -> Outcome {
    match (out.finish(), outcome) {
        (Err(Failure::BrokenPipe), Ok(status @ (Status::Differs | Status::Refused))) => Ok(status),
        (finished, outcome) => finished.and(outcome),
    }
}

fn main() -> ExitCode {
    let arguments = Arguments::parse();
    let mut out = Out::new(arguments.json);
    let outcome = run(arguments.command, &mut out);
    ExitCode::from(status(finished(outcome, &mut out)))
}
