//! `asmap diff`: what changes between two maps, for every address.
use crate::args::Diff;
use crate::compared::{Pair, Refused};
use crate::difference::Difference;
use crate::failure::{say, Failure, Outcome, Status};
use crate::out::Out;
use crate::sampled::Sampled;
use crate::whole::Sink;
use std::path::{Path, PathBuf};

pub fn run(asked: &Diff, out: &mut Out) -> Outcome {
    let width = asked.bits.width()?;
    if asked.records && out.is_json() {
        return Err(Failure::new("--records and --json are two forms; give one of them"));
    }
    if asked.records && asked.addresses.is_some() {
        return Err(Failure::new("--records has no place for what becomes of addresses; leave --records or --addresses out"));
    }
    let pair = Pair::read(&asked.old, &asked.new, width)?;
    let records = match pair.compare()? {
        Ok(records) => records,
        Err(refused) => return not_compared(&refused, out),
    };
    let status = if records.is_empty() { Status::Done } else { Status::Differs };
    match written(asked, &pair, &records, out) {
        // That nobody reads on does not make the maps the same.
        Err(Failure::BrokenPipe) if status == Status::Differs => Ok(status),
        done => done.map(|()| status),
    }
}

/// Writes what the records come to, in the form that was asked for, where it was asked for.
fn written(asked: &Diff, pair: &Pair, records: &[u8], out: &mut Out) -> Result<(), Failure> {
    let (inputs, output, json) = (inputs(asked), asked.output.as_deref(), out.is_json());
    let inputs: Vec<&Path> = inputs.iter().map(PathBuf::as_path).collect();
    if asked.records {
        let mut sink = Sink::binary(output, &inputs, out)?;
        sink.bytes(records)?;
        return sink.finish();
    }
    // Everything is known before the first line goes out.
    let sampled = asked.addresses.as_deref().map(|path| Sampled::read(path, pair)).transpose()?;
    let difference = Difference::of(pair, records, sampled);
    let mut sink = Sink::text(output, &inputs, out)?;
    difference.write(json, &mut sink)?;
    sink.finish()
}

/// The files that are read. A map is always a file, one by the name of `-` too.
fn inputs(asked: &Diff) -> Vec<PathBuf> {
    let maps = [&asked.old, &asked.new].map(|map| Path::new(".").join(map));
    maps.into_iter().chain(asked.addresses.clone()).collect()
}

/// Says which maps are refused, and why: as an object each, or where no line of it is taken for a prefix.
fn not_compared(refused: &[Refused], out: &mut Out) -> Outcome {
    for map in refused {
        if out.is_json() {
            out.object(&map.object())?;
        } else {
            say(&format!("the {} map is refused, and nothing is compared\n{}", map.which, map.lines().join("\n")));
        }
    }
    Ok(Status::Refused)
}
