//! What the subcommands share that write a map's records: as the library makes them, or as lines of text or objects.
use crate::failure::{Failure, Outcome, Status};
use crate::files::{self, MapFile};
use crate::out::Out;
use crate::whole::Sink;
use crate::width::Width;
use corbastrigo::Refusal;
use std::path::Path;

/// What was asked for: of which map, in which form, and where it goes.
pub struct Wanted<'a> {
    pub map: &'a Path,
    pub width: Width,
    /// The records as they are.
    pub records: bool,
    pub output: Option<&'a Path>,
}

/// Writes the records that a call makes of a map, or has them written as lines.
pub fn write(
    wanted: &Wanted,
    out: &mut Out,
    call: fn(&[u8], u32) -> Result<Vec<u8>, Refusal>,
    lines: impl FnOnce(&MapFile, &[u8], &mut Sink) -> Result<(), Failure>,
) -> Outcome {
    if wanted.records && out.is_json() {
        return Err(Failure::new("--records and --json are two forms; give one of them"));
    }
    let file = files::checked_file(wanted.map, wanted.width)?;
    // The map was accepted, so that only a lack of memory is left.
    let records = call(&file.bytes, wanted.width.bits());
    let records = records.map_err(|refusal| Failure::new(format!("no memory for the records: {refusal}")))?;
    // A map is always a file, one by the name of `-` too.
    let input = Path::new(".").join(wanted.map);
    if wanted.records {
        let mut sink = Sink::binary(wanted.output, &[&input], out)?;
        sink.bytes(&records)?;
        sink.finish()?;
        return Ok(Status::Done);
    }
    let mut sink = Sink::text(wanted.output, &[&input], out)?;
    lines(&file, &records, &mut sink)?;
    sink.finish()?;
    Ok(Status::Done)
}
