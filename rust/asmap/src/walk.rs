//! `asmap walk`: where addresses are sent, and how their walks ended.
use crate::args::Walk as Asked;
use crate::failure::{Failure, Outcome, Status};
use crate::files;
use crate::out::{progress, Out, Style};
use crate::replay::replay;
use crate::width::Width;
use crate::words::{self, counted};
use corbastrigo::{interpret_bits, sanity_check_bits, End, Refusal, Walk};
use indicatif::ProgressBar;
use serde_json::{json, Value};
use std::io::{self, IsTerminal};
use std::net::IpAddr;
use std::path::Path;

/// A map that may be walked: one that the check accepts, or with `--unchecked` any.
pub struct Walkable {
    pub bytes: Vec<u8>,
    /// How many bits its addresses have.
    pub width: Width,
    /// The check's reason, where it refused.
    pub refusal: Option<Refusal>,
}

impl Walkable {
    pub fn read(path: &Path, width: Width, unchecked: bool) -> Result<Walkable, Failure> {
        let bytes = files::read_map(path, width)?.bytes;
        match sanity_check_bits(&bytes, width.bits()) {
            Ok(_) => Ok(Walkable { bytes, width, refusal: None }),
            Err(refusal) if unchecked => Ok(Walkable { bytes, width, refusal: Some(refusal) }),
            Err(refusal) => Err(not_walked(path, refusal, width)),
        }
    }

    /// The library's walk by the bytes of an address. It refuses a map over the limit, checked or not.
    pub fn walk(&self, path: &Path, address: &[u8]) -> Result<Walk, Failure> {
        interpret_bits(&self.bytes, address, self.width.bits()).map_err(|refusal| files::refused(path, refusal, self.width))
    }
}

/// The "no" to walks of a refused map. One over the limit is walked in no case.
fn not_walked(path: &Path, refusal: Refusal, width: Width) -> Failure {
    match files::refused(path, refusal, width) {
        Failure::No(words) if refusal != Refusal::MapTooLong => {
            Failure::No(format!("{words}, and --unchecked walks it all the same"))
        }
        other => other,
    }
}

/// How a walk ended, in a word. Every abort has one word, and [`aborted_by`] says which it was.
pub fn end(walk: &Walk) -> &'static str {
    match walk.end {
        End::Returned => "returned",
        End::Differed => "differed",
        _ => "aborted",
    }
}

/// What aborted a walk, if anything did.
fn aborted_by(walk: &Walk) -> Option<&'static str> {
    match walk.end {
        End::Returned | End::Differed => None,
        End::TooFewBits => Some("too_few_bits"),
        End::CutOpcode => Some("cut_opcode"),
        End::CutOperand => Some("cut_operand"),
        _ => Some("unknown"),
    }
}

/// The most characters of a number that a map holds (33,521,664).
const WIDEST_NUMBER: usize = 8;

pub fn run(asked: &Asked, out: &mut Out) -> Outcome {
    let map = Walkable::read(&asked.map, asked.bits.width()?, asked.unchecked)?;
    // Where a person types the addresses, the answers are all the progress there is.
    let typed = io::stdin().is_terminal() || !asked.addresses.iter().any(|word| word == "-");
    let bar = if typed { ProgressBar::hidden() } else { progress(None, "addresses") };
    let done = answer(asked, &map, &bar, out);
    bar.finish_and_clear();
    done.map(|()| Status::Done)
}

/// Answers each address in turn.
fn answer(asked: &Asked, map: &Walkable, bar: &ProgressBar, out: &mut Out) -> Result<(), Failure> {
    let column = words::column(&asked.addresses, map.width);
    words::each_address(&asked.addresses, map.width, out, |address, out| {
        let bytes = map.width.bytes(address);
        let walk = map.walk(&asked.map, &bytes)?;
        let why = match walk.number {
            0 => replay(&map.bytes, &bytes, walk, drop)?.why_zero,
            _ => None,
        };
        if out.is_json() {
            out.object(&object(map, address, &walk, why))?;
        } else {
            out.line(&line(map, address, &walk, why, column, out))?;
        }
        bar.inc(1);
        Ok(())
    })
}

/// A walk as a line of text.
fn line(map: &Walkable, address: IpAddr, walk: &Walk, why: Option<String>, column: usize, out: &Out) -> String {
    let number = out.paint(Style::Strong, &format!("{:>WIDEST_NUMBER$}", walk.number));
    let (count, bits) = (counted(walk.count.into(), "instruction", "instructions"), counted(walk.bits.into(), "bit", "bits"));
    let address = address.to_string();
    let mut line = format!("{address:<column$}  {number}  {:<8}  {count:>16}  {bits:>8}", end(walk));
    if let Some(refusal) = map.refusal {
        line += &format!("  {}", out.paint(Style::Bad, &format!("unchecked (refused {})", refusal.number())));
    }
    if let Some(why) = why {
        line += &format!("  0: {why}");
    }
    line
}

/// A walk as an object.
pub fn object(map: &Walkable, address: IpAddr, walk: &Walk, why: Option<String>) -> Value {
    json!({
        "address": address.to_string(), "number": walk.number, "end": end(walk), "aborted_by": aborted_by(walk),
        "instructions": walk.count, "bits": walk.bits, "why_zero": why, "width": map.width.bits(), "checked": map.refusal.is_none(),
        "refusal": map.refusal.map(Refusal::number),
    })
}
