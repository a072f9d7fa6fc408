//! What two maps come to, as lines or objects: the prefixes that change, how many addresses that is, and who gains and loses them.
//!
//! Every line of text that is no prefix begins with `#`, so that a program which reads the prefixes can leave the rest out.
use crate::compared::Pair;
use crate::failure::{Failure, Status};
use crate::joined::joined;
use crate::sampled::{Moved as MovedAddress, Sampled};
use crate::tally::{amount, logarithm, Moved, Tally};
use crate::whole::Sink;
use crate::width::Width;
use crate::words::{counted, grouped, NO_DEFAULT};
use corbastrigo::{changes, Change, CHANGE_BYTES};
use serde_json::{json, Value};

/// How many prefixes are written before the progress is told again.
const STEP: usize = 8_192;

/// How many numbers are shown that gain or lose most.
const MOST: usize = 5;

pub struct Difference {
    names: [String; 2],
    pub width: Width,
    pub same_bytes: bool,
    records: usize,
    changes: Vec<Change>,
    pub tally: Tally,
    sampled: Option<Sampled>,
}

impl Difference {
    /// What the records of a comparison come to.
    pub fn of(pair: &Pair, records: &[u8], sampled: Option<Sampled>) -> Difference {
        let changes = joined(changes(records));
        let (width, tally) = (pair.width, Tally::of(&changes, pair.width));
        let [old, new] = pair.bytes();
        Difference {
            names: pair.names(),
            width,
            same_bytes: old == new,
            records: records.len() / CHANGE_BYTES,
            changes,
            tally,
            sampled,
        }
    }

    pub fn status(&self) -> Status {
        if self.changes.is_empty() {
            Status::Done
        } else {
            Status::Differs
        }
    }

    /// All of it.
    pub fn write(&self, json: bool, sink: &mut Sink) -> Result<(), Failure> {
        let bar = sink.progress(self.changes.len() as u64, "prefixes");
        let line = if json { change_object } else { change_text };
        let done = self.changes.chunks(STEP).try_for_each(|step| {
            step.iter().try_for_each(|change| line(change, self.width, sink))?;
            bar.inc(step.len() as u64);
            Ok(())
        });
        bar.finish_and_clear();
        done?;
        if json {
            self.objects(sink)
        } else {
            self.lines(sink)
        }
    }

    fn lines(&self, sink: &mut Sink) -> Result<(), Failure> {
        if self.changes.is_empty() {
            let bytes = if self.same_bytes { "they have the same bytes" } else { "their bytes are not the same" };
            writeln!(sink, "# nothing changes: both maps send every address to the same number; {bytes}")?;
        } else {
            let prefixes = counted(self.changes.len() as u64, "prefix", "prefixes");
            writeln!(sink, "# {prefixes} changed: {}", self.tally.changed.words(self.width))?;
        }
        for (family, gained, lost) in amounts() {
            self.most(&format!("{family} addresses, most gained:"), gained, sink)?;
            self.most(&format!("{family} addresses, most lost:"), lost, sink)?;
        }
        if self.tally.has_zero() {
            writeln!(sink, "# AS0 is no operator: {NO_DEFAULT}")?;
        }
        self.sampled.as_ref().map_or(Ok(()), |sampled| sampled_lines(sampled, sink))
    }

    /// The numbers that have most of an amount.
    fn most(&self, title: &str, of: fn(&Moved) -> u128, sink: &mut Sink) -> Result<(), Failure> {
        let most = self.tally.most(of);
        if most.is_empty() {
            return Ok(());
        }
        writeln!(sink, "# {title}")?;
        for &(number, count) in most.iter().take(MOST) {
            writeln!(sink, "#   {:<10}  {}", format!("AS{number}"), amount(count))?;
        }
        match most.len().saturating_sub(MOST) {
            0 => Ok(()),
            more => writeln!(sink, "#   and {} more", grouped(more as u64)),
        }
    }

    fn objects(&self, sink: &mut Sink) -> Result<(), Failure> {
        for (number, moved) in self.tally.numbers() {
            writeln!(sink, "{}", operator_object(number, &moved, self.width))?;
        }
        if let Some(sampled) = &self.sampled {
            sampled.moved.iter().try_for_each(|moved| writeln!(sink, "{}", address_object(moved)))?;
            writeln!(sink, "{}", sampled_object(sampled))?;
        }
        let (changed, [old, new]) = (self.tally.changed, &self.names);
        let powers = [changed.ipv4, changed.ipv6].map(|count| (count > 0).then(|| logarithm(count)));
        let summary = json!({
            "kind": "summary", "old_map": old, "new_map": new, "width": self.width.bits(), "differs": !self.changes.is_empty(),
            "same_bytes": self.same_bytes, "prefixes": self.changes.len(), "records": self.records,
            "ipv4_addresses": changed.ipv4.to_string(), "ipv6_addresses": of_ipv6(changed.ipv6, self.width),
            "ipv4_power": powers[0], "ipv6_power": powers[1],
        });
        writeln!(sink, "{summary}")
    }
}

/// What is gained and lost of each family.
type Amounts = (&'static str, fn(&Moved) -> u128, fn(&Moved) -> u128);

fn amounts() -> [Amounts; 2] {
    [("IPv4", |moved| moved.gained.ipv4, |moved| moved.lost.ipv4), ("IPv6", |moved| moved.gained.ipv6, |moved| moved.lost.ipv6)]
}

fn change_text(change: &Change, width: Width, sink: &mut Sink) -> Result<(), Failure> {
    writeln!(sink, "{} AS{} # was AS{}", width.network(change.address, change.length), change.new, change.old)
}

/// Why one of two numbers is 0, where one is. They differ, so that not both are.
fn why_zero(old: u32, new: u32) -> Option<&'static str> {
    (old == 0 || new == 0).then_some(NO_DEFAULT)
}

/// A change as an object, written out as those of `asmap list` are: there may be a million, and nothing in one has to be escaped.
fn change_object(change: &Change, width: Width, sink: &mut Sink) -> Result<(), Failure> {
    let Change { address, length, old, new } = *change;
    let (first, network) = (width.of_record(address), width.network(address, length));
    write!(
        sink,
        r#"{{"address":"{first}","kind":"change","length":{length},"new":{new},"old":{old},"prefix":"{network}","why_zero":"#
    )?;
    match why_zero(old, new) {
        Some(why) => write!(sink, r#""{why}""#)?,
        None => write!(sink, "null")?,
    }
    writeln!(sink, r#","width":{}}}"#, width.bits())
}

/// A number of IPv6 addresses in decimal; none where the maps have no such addresses.
fn of_ipv6(count: u128, width: Width) -> Option<String> {
    (!width.is_ipv4()).then(|| count.to_string())
}

fn operator_object(number: u32, moved: &Moved, width: Width) -> Value {
    json!({
        "kind": "operator", "number": number, "ipv4_gained": moved.gained.ipv4.to_string(), "ipv4_lost": moved.lost.ipv4.to_string(),
        "ipv6_gained": of_ipv6(moved.gained.ipv6, width), "ipv6_lost": of_ipv6(moved.lost.ipv6, width),
        "why_zero": (number == 0).then_some(NO_DEFAULT),
    })
}

fn address_object(moved: &MovedAddress) -> Value {
    json!({
        "kind": "address", "address": moved.address.to_string(), "old": moved.old, "new": moved.new,
        "why_zero": why_zero(moved.old, moved.new),
    })
}

fn sampled_object(sampled: &Sampled) -> Value {
    let moves = sampled.moves().into_iter().map(|(count, moved)| json!({ "old": moved.old, "new": moved.new, "addresses": count }));
    let skipped = sampled.skipped.iter().map(|(network, count)| json!({ "network": network, "entries": count }));
    json!({
        "kind": "addresses", "file": sampled.name, "given": sampled.given, "changed": sampled.moved.len(),
        "moves": moves.collect::<Vec<_>>(), "skipped": skipped.collect::<Vec<_>>(),
    })
}

fn sampled_lines(sampled: &Sampled, sink: &mut Sink) -> Result<(), Failure> {
    let given = counted(sampled.given, "address", "addresses");
    let changed = match sampled.moved.len() as u64 {
        0 => String::from("none changes"),
        1 => String::from("1 changes"),
        more => format!("{} change", grouped(more)),
    };
    write!(sink, "# {}: of {given} {changed}", sampled.name)?;
    if !sampled.skipped.is_empty() {
        let skipped = sampled.skipped.values().sum::<u64>();
        let networks: Vec<String> =
            sampled.skipped.iter().map(|(network, &count)| format!("{} {network}", grouped(count))).collect();
        write!(sink, "; {} skipped, which maps have no numbers for: {}", grouped(skipped), networks.join(", "))?;
    }
    writeln!(sink)?;
    for (count, MovedAddress { address, old, new }) in sampled.moves() {
        writeln!(sink, "#   {} from AS{old} to AS{new}: {address}{}", grouped(count), if count > 1 { " and others" } else { "" })?;
    }
    Ok(())
}
