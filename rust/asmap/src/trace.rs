//! `asmap trace`: one walk step by step, and its path as a picture.
use crate::args::Trace;
use crate::failure::{Failure, Outcome, Status};
use crate::files;
use crate::out::{Out, Style};
use crate::replay::{replay, Cut, InForce, Next, Replay, Step};
use crate::walk::{end, object, Walkable};
use crate::width::Width;
use crate::words::{self, counted};
use serde_json::{json, Value};
use std::net::IpAddr;

/// The most steps that are shown. A walk of an accepted map has 257 at most, or 65 at width 32; only a refused one can chain more DEFAULTs.
const MOST_STEPS: u32 = 1_000;

pub fn run(asked: &Trace, out: &mut Out) -> Outcome {
    let map = Walkable::read(&asked.map, asked.bits.width()?, asked.unchecked)?;
    let address = map.width.address(&asked.address)?;
    let bytes = map.width.bytes(address);
    let walk = map.walk(&asked.map, &bytes)?;
    if walk.count > MOST_STEPS {
        let read = counted(walk.count.into(), "instruction", "instructions");
        let option = map.width.option();
        return Err(Failure::new(format!(
            "the walk reads {read}, too many to show; `asmap walk {option}--unchecked` says how it ends"
        )));
    }
    let mut steps = Vec::new();
    let replay = replay(&map.bytes, &bytes, walk, |step| steps.push(step))?;
    if out.is_json() {
        let mut trace = object(&map, address, &walk, replay.why_zero);
        trace["steps"] = steps.iter().enumerate().map(|(place, step)| step_object(place + 1, step)).collect();
        out.object(&trace)?;
        return Ok(Status::Done);
    }
    head(asked, &map, address, out)?;
    table(&steps, out)?;
    foot(&map, &replay, out)?;
    picture(&steps, &replay, out)?;
    Ok(Status::Done)
}

/// What is walked, and by which bits.
fn head(asked: &Trace, map: &Walkable, address: IpAddr, out: &mut Out) -> Result<(), Failure> {
    let bytes = counted(map.bytes.len() as u64, "byte", "bytes");
    let verdict = match map.refusal {
        None => out.paint(Style::Good, "accepted"),
        Some(refusal) => out.paint(Style::Bad, &format!("unchecked (refused {}: {})", refusal.number(), refusal.reason())),
    };
    out.line(&format!("map      {}, {bytes}, {verdict}", files::shown(&asked.map)))?;
    out.line(&format!("address  {address}, walked by {}", walked_by(map.width, address)))?;
    out.line("")
}

/// The bits that an address is walked by, in words.
fn walked_by(width: Width, address: IpAddr) -> String {
    match (address, width.is_ipv4()) {
        (_, true) => String::from("its own 32 bits"),
        (IpAddr::V4(v4), false) => format!("the 128 bits of {}", v4.to_ipv6_mapped()),
        (IpAddr::V6(v6), false) => format!("the 128 bits of {v6}"),
    }
}

/// The steps as a table, each column as wide as its widest word.
fn table(steps: &[Step], out: &mut Out) -> Result<(), Failure> {
    let head = ["step", "place", "opcode", "operand", "address bits", "default in force", "what happens"].map(String::from);
    let rows: Vec<[String; 7]> = steps.iter().enumerate().map(|(place, step)| row(place + 1, step)).collect();
    let width = |column: usize| rows.iter().chain([&head]).map(|row| row[column].len()).max().unwrap_or(0);
    let widths: [usize; 7] = std::array::from_fn(width);
    let aligned = |row: &[String; 7]| {
        let [step, place, opcode, operand, bits, default, next] = row;
        let [a, b, c, d, e, f, _] = widths;
        format!("{step:>a$}  {place:>b$}  {opcode:<c$}  {operand:<d$}  {bits:<e$}  {default:<f$}  {next}")
    };
    out.line(&out.paint(Style::Strong, &aligned(&head)))?;
    rows.iter().try_for_each(|row| out.line(&aligned(row)))
}

fn row(number: usize, step: &Step) -> [String; 7] {
    let opcode = words::opcode(step.opcode);
    let default = default(step.default);
    [number.to_string(), step.place.to_string(), opcode.into(), operand(step), looked_at(step), default, happens(step)]
}

/// A step's operand; of a MATCH first the bits that it compares.
fn operand(step: &Step) -> String {
    match step.opcode {
        words::MATCH => format!("{} ({})", words::match_bits(step.operand), step.operand),
        _ => step.operand.to_string(),
    }
}

/// The address bits that a step looks at, with their places.
fn looked_at(step: &Step) -> String {
    match step.bits.len() {
        0 => String::from("-"),
        1 => format!("{}: {}", step.first_bit, step.bits),
        many => format!("{}-{}: {}", step.first_bit, step.first_bit + many - 1, step.bits),
    }
}

/// The default in force, and where it was set.
fn default(default: Option<InForce>) -> String {
    match default {
        None => String::from("0 (none met)"),
        Some(InForce { number, place }) => format!("{number} (set at bit {place})"),
    }
}

fn happens(step: &Step) -> String {
    match step.next {
        Next::Returns => format!("ends with {}", step.operand),
        Next::Sets(place) => format!("sets the default, goes on at bit {place}"),
        Next::Jumps { place, .. } if step.bits == "1" => format!("1: skips {} bits, goes on at bit {place}", step.operand),
        Next::Jumps { place, .. } => format!("0: goes on at bit {place}"),
        Next::Equals(place) => format!("equal: goes on at bit {place}"),
        Next::Differs(_) => format!("differs at address bit {}: ends with the default", last_bit(step)),
        Next::TooFewBits { needed, left } => format!("aborted: needs {needed} address bits, {left} are left"),
    }
}

/// The last address bit that a step looks at.
fn last_bit(step: &Step) -> usize {
    step.first_bit + step.bits.len().saturating_sub(1)
}

/// How the walk ended.
fn foot(map: &Walkable, replay: &Replay, out: &mut Out) -> Result<(), Failure> {
    let walk = &replay.walk;
    let (count, bits) =
        (counted(walk.count.into(), "instruction", "instructions"), counted(walk.bits.into(), "address bit", "address bits"));
    let unchecked = map.refusal.map_or(String::new(), |refusal| format!(", unchecked (refused {})", refusal.number()));
    out.line("")?;
    out.line(&out.paint(Style::Strong, &format!("{}, number {}, {count}, {bits}{unchecked}", end(walk), walk.number)))?;
    match &replay.why_zero {
        Some(why) => out.line(&format!("0: {why}")),
        None => Ok(()),
    }
}

/// The path downward, and beside it what was not taken.
fn picture(steps: &[Step], replay: &Replay, out: &mut Out) -> Result<(), Failure> {
    let last = replay.cut.map(|cut| cut.place).or(steps.last().map(|step| step.place)).unwrap_or(0);
    let width = last.to_string().len();
    out.line("")?;
    out.line("The path is |, and what was not taken is `- -.")?;
    out.line("")?;
    for run in steps.chunk_by(|a, b| joins(a) && joins(b)) {
        let step = &run[0];
        out.line(&format!("bit {:<width$}  {}", step.place, node(run)))?;
        if let Some(other) = not_taken(step) {
            out.line(&out.paint(Style::Faint, &format!("  |`- - {other}")))?;
        }
        if let Some(taken) = taken(step) {
            out.line(&format!("  |  {taken}"))?;
        }
    }
    match (steps.last(), replay.cut) {
        (_, Some(cut)) => out.line(&format!("bit {:<width$}  {}: aborted, number 0", cut.place, whats_cut(cut))),
        (Some(Step { next: Next::Differs(_), default: in_force, .. }), _) => {
            out.line(&format!("ends with the default, {}", default(*in_force)))
        }
        _ => Ok(()),
    }
}

/// What the map's end cuts.
fn whats_cut(cut: Cut) -> String {
    match cut.opcode {
        Some(opcode) => format!("{}, no whole operand before the map's end", words::opcode(opcode)),
        None => String::from("no whole opcode before the map's end"),
    }
}

/// Whether a step is one of a run that is drawn as one: MATCHes that were equal. Between them no default changes.
fn joins(step: &Step) -> bool {
    matches!(step.next, Next::Equals(_))
}

/// An instruction, or a run of MATCHes, with the address bits that it looks at.
fn node(run: &[Step]) -> String {
    let step = &run[0];
    let name = words::opcode(step.opcode);
    match (step.opcode, run) {
        _ if step.bits.is_empty() => format!("{name} {}", operand(step)),
        (words::MATCH, [_]) => {
            let noun = if step.bits.len() == 1 { "bit" } else { "bits" };
            format!("{name} {}, address {noun} {}", words::match_bits(step.operand), looked_at(step))
        }
        (words::MATCH, [.., last]) => format!("{} {name}es, address bits {}-{}", run.len(), step.first_bit, last_bit(last)),
        (words::JUMP, _) => format!("{name} by address bit {}", step.first_bit),
        _ => format!("{name} {}", step.operand),
    }
}

/// What would have happened otherwise.
fn not_taken(step: &Step) -> Option<String> {
    match step.next {
        Next::Jumps { other, .. } => Some(format!("{}: the other half, from bit {other}", if step.bits == "1" { 0 } else { 1 })),
        Next::Equals(_) => Some(format!("differs: ends with the default, {}", default(step.default))),
        Next::Differs(place) => Some(format!("equal: goes on at bit {place}")),
        Next::Returns | Next::Sets(_) | Next::TooFewBits { .. } => None,
    }
}

/// The way to the next line of the picture.
fn taken(step: &Step) -> Option<String> {
    match step.next {
        Next::Jumps { .. } => Some(step.bits.clone()),
        Next::Equals(_) => Some(String::from("equal")),
        Next::Differs(_) => Some(format!("differs at address bit {}", last_bit(step))),
        Next::Sets(_) => Some(format!("{} is the default until another DEFAULT is met", step.operand)),
        Next::TooFewBits { .. } => Some(happens(step)),
        Next::Returns => None,
    }
}

/// A step as an object.
fn step_object(number: usize, step: &Step) -> Value {
    let (next, next_place, not_taken_place) = match step.next {
        Next::Returns => ("returned", None, None),
        Next::Sets(place) => ("default_set", Some(place), None),
        Next::Jumps { place, other } => (if step.bits == "1" { "skipped" } else { "not_skipped" }, Some(place), Some(other)),
        Next::Equals(place) => ("equal", Some(place), None),
        Next::Differs(place) => ("differed", None, Some(place)),
        Next::TooFewBits { .. } => ("too_few_bits", None, None),
    };
    let looks = !step.bits.is_empty();
    json!({
        "step": number, "place": step.place, "opcode": words::opcode(step.opcode), "operand": step.operand,
        "match_bits": (step.opcode == words::MATCH).then(|| words::match_bits(step.operand)),
        "first_address_bit": looks.then_some(step.first_bit), "address_bits": looks.then_some(&step.bits),
        "default": step.default.map_or(0, |default| default.number), "default_place": step.default.map(|default| default.place),
        "next": next, "next_place": next_place, "not_taken_place": not_taken_place,
    })
}
