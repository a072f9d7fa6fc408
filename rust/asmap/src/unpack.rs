//! `asmap unpack`: a map as a list, for people, for `pack`, or as records.
use crate::args::Unpack;
use crate::failure::Outcome;
use crate::files::MapFile;
use crate::forms::{self, Wanted};
use crate::listing::{self, Listed};
use crate::out::Out;
use crate::words;
use corbastrigo::{instructions, sanity_check_bits, unpack_bits};
use serde_json::{json, Value};

pub fn run(asked: &Unpack, out: &mut Out) -> Outcome {
    let json = out.is_json();
    let wanted = Wanted { map: &asked.map, width: asked.bits.width()?, records: asked.records, output: asked.output.as_deref() };
    forms::write(&wanted, out, unpack_bits, |file, records, sink| {
        let column = listing::column(depth(file));
        for listed in listing::listed(instructions(records)) {
            sink.line(&if json { object(&listed).to_string() } else { listed.line(column) })?;
        }
        Ok(())
    })
}

/// How deep the check found an accepted map.
fn depth(file: &MapFile) -> u8 {
    sanity_check_bits(&file.bytes, file.width.bits()).map_or(0, |check| check.depth)
}

fn object(listed: &Listed) -> Value {
    let instruction = listed.instruction;
    let match_bits = (instruction.opcode == words::MATCH).then(|| words::match_bits(instruction.operand));
    json!({
        "place": instruction.place, "length": instruction.size, "opcode": words::opcode(instruction.opcode),
        "operand": instruction.operand, "match_bits": match_bits, "open_jumps": listed.open_jumps, "target": listed.target(),
        "target_of": listed.target_of,
    })
}
