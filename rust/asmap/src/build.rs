//! `asmap build`: a map from a list of prefixes. Which lists are right and which bytes come out is the library's to say; this reads lines or
//! records, brings lines into order, and words a refusal with the line or the record that it is of.
use crate::args::Build;
use crate::failure::{say, Failure, Outcome, Status};
use crate::files;
use crate::lists;
use crate::out::Out;
use crate::whole::{room_for_a_map, Sink};
use crate::width::Width;
use crate::words::{counted, grouped};
use corbastrigo::{build, prefixes, refused_record, sanity_check_bits, Check, Prefix, Refusal, MAX_MAP_BYTES, PREFIX_BYTES};
use serde_json::json;
use std::path::Path;

/// The most prefixes that are read: no map lists more.
const MOST_PREFIXES: usize = MAX_MAP_BYTES * 32 / 9;

/// Records of prefixes, and where they come from.
struct List<'a> {
    from: &'a Path,
    records: Vec<u8>,
    /// The line of each record, where the list is text.
    lines: Option<Vec<u64>>,
    width: Width,
}

pub fn run(asked: &Build, out: &mut Out) -> Outcome {
    let width = asked.bits.width()?;
    room_for_a_map(asked.output.as_deref(), out)?;
    let list = if asked.records { from_records(&asked.list, width)? } else { from_text(&asked.list, width)? };
    let map = build(&list.records, asked.others, width.bits()).map_err(|refusal| list.refused(refusal, asked.others))?;
    let check = sanity_check_bits(&map, width.bits()).map_err(|refusal| list.refused(refusal, asked.others))?;
    let mut sink = Sink::binary(asked.output.as_deref(), &[&asked.list], out)?;
    sink.bytes(&map)?;
    sink.finish()?;
    report(asked, &list, map.len(), check, out)?;
    Ok(Status::Done)
}

/// Says what was built: on standard error, where it does not get into the map, or as an object.
fn report(asked: &Build, list: &List, size: usize, check: Check, out: &mut Out) -> Result<(), Failure> {
    let (count, width) = (list.records.len() / PREFIX_BYTES, list.width);
    if out.is_json() {
        return out.object(&json!({
            "output": asked.output.as_deref().map(files::shown), "prefixes": count, "else": asked.others, "bytes": size,
            "instructions": check.count, "depth": check.depth, "width": width.bits(),
        }));
    }
    let (count, size) = (counted(count as u64, "prefix", "prefixes"), counted(size as u64, "byte", "bytes"));
    let instructions = counted(check.count.into(), "instruction", "instructions");
    let (others, depth, said) = (asked.others, check.depth, width.said());
    say(&format!("{count}, and AS{others} for all other addresses: {size}, {instructions}, depth {depth}{said}"));
    Ok(())
}

/// The list of a text: a prefix and its number a line. The library wants them to rise by address, and people need not.
fn from_text(from: &Path, width: Width) -> Result<List<'_>, Failure> {
    let mut listed: Vec<(Prefix, u64)> = Vec::new();
    let mut lines = files::lines(from)?;
    let mut line_number = 0;
    while let Some(line) = lines.next() {
        line_number += 1;
        if let Some(prefix) = lists::prefix(&line?, width).map_err(|failure| lines.at_line(failure))? {
            listed.push((prefix, line_number));
        }
        if listed.len() > MOST_PREFIXES {
            return Err(too_many(from, MOST_PREFIXES, "prefixes"));
        }
    }
    listed.sort_by_key(|(prefix, _)| (prefix.address, prefix.length));
    let records = listed.iter().flat_map(|(prefix, _)| prefix.record()).collect();
    let lines = listed.iter().map(|(_, line)| *line).collect();
    Ok(List { from, records, lines: Some(lines), width })
}

/// The list of records, as they are.
fn from_records(from: &Path, width: Width) -> Result<List<'_>, Failure> {
    let most = MOST_PREFIXES * PREFIX_BYTES;
    let records = files::read_within(from, most)?.ok_or_else(|| too_many(from, most, "bytes of records"))?;
    Ok(List { from, records, lines: None, width })
}

fn too_many(from: &Path, most: usize, of: &str) -> Failure {
    let (name, most) = (files::input_name(from), grouped(most as u64));
    Failure::No(format!("{name} is refused unread: no map lists more than {most} {of}"))
}

impl List<'_> {
    /// Why nothing was built, and what to do.
    fn refused(&self, refusal: Refusal, others: u32) -> Failure {
        let (name, number, words) = (files::input_name(self.from), refusal.number(), refusal.reason());
        if self.records.len() % PREFIX_BYTES != 0 {
            let size = counted(self.records.len() as u64, "byte", "bytes");
            let why = format!("a record has {PREFIX_BYTES}; was the list cut, or is it text?");
            return Failure::No(format!("{name}: a list of {size} is refused, {number}: {why}"));
        }
        match (refusal, refused_record(&self.records, self.width.bits())) {
            (_, Some((place, refusal))) => {
                let (at, shown, why) = (self.place(place), self.shown(place), self.why(place, refusal));
                Failure::No(format!("{name}: {at}, {shown}, is refused, {number}: {why}"))
            }
            // All records are right, so that it is the number for all other addresses.
            (Refusal::Number, None) => Failure::new(format!("--else {others} is refused, {number}: {words}")),
            (Refusal::OutputTooShort, None) => Failure::new(format!("no memory for the map: {refusal}")),
            (_, None) => Failure::No(format!("the map of {name} would be refused, {number}: {words}; give fewer prefixes")),
        }
    }

    /// Where a prefix stands in the list.
    fn place(&self, place: usize) -> String {
        match &self.lines {
            Some(lines) => format!("line {}", lines[place]),
            None => format!("record {place} at byte {}", place * PREFIX_BYTES),
        }
    }

    fn prefix(&self, place: usize) -> Option<Prefix> {
        prefixes(&self.records[place * PREFIX_BYTES..]).next()
    }

    /// A prefix and its number as a line has them.
    fn shown(&self, place: usize) -> String {
        let Some(Prefix { address, length, number }) = self.prefix(place) else { return String::new() };
        format!("{} AS{number}", self.width.network(address, length))
    }

    /// What the library refused a prefix for, and what to do. Of a wrong prefix its words name all that can be wrong, and here stands which of
    /// it is.
    fn why(&self, place: usize, refusal: Refusal) -> String {
        let Some(Prefix { address, length, number }) = self.prefix(place) else { return String::new() };
        let past = u128::MAX.checked_shr(length.into()).unwrap_or(0);
        let first = (u128::from_be_bytes(address) & !past).to_be_bytes();
        let zeros = &self.records[place * PREFIX_BYTES..][17..20];
        match refusal {
            Refusal::Number if number == 0 => {
                let others = "leave it out, so that its addresses get the number of --else, or give it a number of its own";
                format!("{}; {others}", refusal.reason())
            }
            Refusal::Number => String::from(refusal.reason()),
            _ if u32::from(length) > self.width.bits() => format!("a prefix has at most {} bits", self.width.bits()),
            _ if self.width.of_record(first) != self.width.of_record(address) => {
                format!("it has ones behind its length; its prefix is {}", self.width.network(first, length))
            }
            _ if first != address => String::from("its bytes 4 to 15 must be zero at width 32"),
            _ if *zeros != [0; 3] => String::from("its bytes 17 to 19 must be zero"),
            _ => self.neighbour(place),
        }
    }

    /// What a prefix that is right by itself has to do with the one before it, of which the same is true.
    fn neighbour(&self, place: usize) -> String {
        let before = place.saturating_sub(1);
        match &self.lines {
            // Lines were sorted, so that the one before it holds all of it.
            Some(_) => format!("it lies in {}, {}; one address can have one number only", self.place(before), self.shown(before)),
            None => {
                format!("the record before it, {}, does not end before it; records rise and do not overlap", self.shown(before))
            }
        }
    }
}
