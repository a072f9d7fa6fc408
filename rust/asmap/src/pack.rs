//! `asmap pack`: a map from a list of instructions. What is in range, how long a code is and which bytes come out is the library's to say;
//! this reads lines or records, and words a refusal with the line or the record that it is of.
use crate::args::Pack;
use crate::check;
use crate::failure::{say, Failure, Outcome, Status};
use crate::files;
use crate::listing;
use crate::out::Out;
use crate::whole::{room_for_a_map, Sink};
use crate::width::Width;
use crate::words::{counted, grouped};
use corbastrigo::{codes, instructions, pack, sanity_check_bits, Check, Instruction, Refusal, MAX_MAP_BYTES, RECORD_BYTES};
use serde_json::json;
use std::path::Path;

/// The bits of the largest map.
const MAX_BITS: u32 = 8 * MAX_MAP_BYTES as u32;

/// The most bytes of records: an instruction has 5 bits or more.
const MAX_RECORDS_BYTES: usize = MAX_BITS as usize / 5 * RECORD_BYTES;

pub fn run(asked: &Pack, out: &mut Out) -> Outcome {
    let width = asked.bits.width()?;
    room_for_a_map(asked.output.as_deref(), out)?;
    let map = if asked.records { from_records(&asked.list)? } else { from_text(&asked.list)? };
    let verdict = sanity_check_bits(&map, width.bits());
    let written = verdict.is_ok() || asked.unchecked;
    if written {
        let mut sink = Sink::binary(asked.output.as_deref(), &[&asked.list], out)?;
        sink.bytes(&map)?;
        sink.finish()?;
    }
    report(asked, &map, width, verdict, out)?;
    Ok(if written { Status::Done } else { Status::No })
}

/// Says what the check says of the map: on standard error, where it does not get into the map, or as an object.
fn report(asked: &Pack, map: &[u8], width: Width, verdict: Result<Check, Refusal>, out: &mut Out) -> Result<(), Failure> {
    let (size, place) = (map.len(), check::place(map, width));
    if out.is_json() {
        let (check, refusal) = (verdict.ok(), verdict.err());
        return out.object(&json!({
            "output": asked.output.as_deref().map(files::shown), "written": verdict.is_ok() || asked.unchecked, "bytes": size,
            "accepted": verdict.is_ok(), "instructions": check.map(|check| check.count), "depth": check.map(|check| check.depth),
            "width": width.bits(), "refusal": refusal.map(Refusal::number), "reason": refusal.map(Refusal::reason), "place": place,
        }));
    }
    let bytes = match size {
        0 => String::from("no bytes, because the list has no instructions"),
        _ => counted(size as u64, "byte", "bytes"),
    };
    say(&match verdict {
        Ok(Check { count, depth, .. }) => {
            let count = counted(count.into(), "instruction", "instructions");
            format!("the map is accepted: {bytes}, {count}, depth {depth}{}", width.said())
        }
        Err(refusal) if asked.unchecked => format!("the map is written, but it is {} ({bytes})", reason(refusal, place)),
        Err(refusal) => {
            format!(
                "the map would be {} ({bytes}); nothing is written (--unchecked writes it all the same)",
                reason(refusal, place)
            )
        }
    });
    Ok(())
}

/// A refusal in words, with the bit of the map at which it was met, where there is one.
fn reason(refusal: Refusal, place: Option<usize>) -> String {
    let met = place.map_or(String::new(), |bit| format!(" at bit {bit}"));
    format!("refused, {}{met}: {}", refusal.number(), refusal.reason())
}

/// A "no" to a list: where it was met, and what to do.
fn refused(list: &Path, place: &str, refusal: Refusal, hint: &str) -> Failure {
    Failure::No(format!("{}: {place} is {}; {hint}", files::input_name(list), reason(refusal, None)))
}

/// The map of a list of text.
fn from_text(list: &Path) -> Result<Vec<u8>, Failure> {
    let mut records = Vec::new();
    let (mut place, mut last) = (0, 0);
    let mut lines = files::lines(list)?;
    // One instruction past the limit is enough for the library to refuse the rest.
    while place <= MAX_BITS {
        let Some(line) = lines.next() else { break };
        last += 1;
        let line = line?;
        let Some((opcode, operand)) = listing::parsed(&line).map_err(|expected| lines.at_line(Failure::new(expected)))? else {
            continue;
        };
        let code = codes::encode_instruction(opcode, operand)
            .map_err(|refusal| refused(list, &format!("line {last}, {:?},", line.trim()), refusal, listing::wanted(opcode)))?;
        let size = code.len as u32;
        records.extend(Instruction { opcode, operand, place, size }.record());
        place += size;
    }
    pack(&records).map_err(|refusal| refused(list, &format!("the list up to line {last}"), refusal, "give a shorter list"))
}

/// The map of records.
fn from_records(list: &Path) -> Result<Vec<u8>, Failure> {
    let Some(records) = files::read_within(list, MAX_RECORDS_BYTES)? else {
        let most = grouped(MAX_RECORDS_BYTES as u64);
        return Err(Failure::No(format!(
            "{} is refused unread: no map has more than {most} bytes of records",
            files::input_name(list)
        )));
    };
    pack(&records).map_err(|refusal| {
        if records.len() % RECORD_BYTES != 0 {
            let size = counted(records.len() as u64, "byte", "bytes");
            return refused(list, &format!("a list of {size}"), refusal, "a record has 16; was the list cut, or is it text?");
        }
        let place = first_refused(&records);
        let hint = match refusal {
            Refusal::MapTooLong => String::from("give fewer records"),
            _ => mended(&records, place),
        };
        refused(list, &format!("record {place}, at byte {},", place * RECORD_BYTES), refusal, &hint)
    })
}

/// The place, from 0, of the first record that the library refuses, of records that it refuses. It takes them in order, so that it refuses
/// the first so many where that record is among them.
fn first_refused(records: &[u8]) -> usize {
    let (mut taken, mut refused) = (0, records.len() / RECORD_BYTES);
    while refused - taken > 1 {
        let middle = taken + (refused - taken) / 2;
        match pack(&records[..middle * RECORD_BYTES]) {
            Ok(_) => taken = middle,
            Err(_) => refused = middle,
        }
    }
    taken
}

/// What a refused record holds, and what it would have to hold.
fn mended(records: &[u8], place: usize) -> String {
    let bytes = &records[place * RECORD_BYTES..];
    let found = |record: &[u8]| instructions(record).next();
    let before = place.checked_sub(1).and_then(|before| found(&records[before * RECORD_BYTES..]));
    let wanted_place = before.map_or(0, |before| u64::from(before.place) + u64::from(before.size));
    let opcode = u32::from(bytes[0]);
    let Some(Instruction { operand, place, size, .. }) = found(bytes) else { return String::new() };
    let holds = format!("it holds opcode {opcode}, operand {operand}, place {place}, length {size}");
    match codes::encode_instruction(opcode, operand) {
        Ok(code) => format!("{holds}; its place must be {wanted_place}, its length {}, its bytes 1 to 3 zero", code.len),
        Err(_) if opcode > 3 => format!("{holds}; opcodes are 0 to 3 (RETURN, JUMP, MATCH, DEFAULT)"),
        Err(_) => format!("{holds}; {}", listing::range(opcode)),
    }
}
