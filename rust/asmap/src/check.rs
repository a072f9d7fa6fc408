//! `asmap check`: the library's verdict on each map, with the place of a refusal and what usually causes it.
use crate::args::Check;
use crate::cause::{advice, usual_cause};
use crate::failure::{self, Failure, Outcome, Status};
use crate::files::{self, MapFile};
use crate::out::{progress, Out, Style};
use crate::width::Width;
use crate::words::counted;
use corbastrigo::{sanity_check_bits, sanity_check_stop_bits, AsMap, AsMap4, Check as Verdict, Refusal};
use serde_json::{json, Value};
use std::path::Path;

/// Checks every map. One that cannot be read does not keep the others from being checked.
pub fn run(asked: &Check, out: &mut Out) -> Outcome {
    let width = asked.bits.width()?;
    let bar = progress(Some(asked.maps.len() as u64), "maps");
    let mut status = Status::Done;
    let mut unread = 0;
    for path in &asked.maps {
        match files::read_map(path, width) {
            Ok(file) => status = status.and(report(path, file, out)?),
            Err(Failure::Said(message)) if asked.maps.len() > 1 => {
                bar.suspend(|| failure::say(&message));
                unread += 1;
            }
            Err(other) => return Err(other),
        }
        bar.inc(1);
    }
    bar.finish_and_clear();
    match unread {
        0 => Ok(status),
        _ => Err(Failure::new(format!("{} could not be checked", counted(unread, "map", "maps")))),
    }
}

/// Says what the check says of a map.
fn report(path: &Path, file: MapFile, out: &mut Out) -> Outcome {
    let name = files::shown(path);
    let status = match sanity_check_bits(&file.bytes, file.width.bits()) {
        Ok(check) => accepted(&name, file, check, out)?,
        Err(refusal) => refused(&name, &file, refusal, out)?,
    };
    out.finish()?;
    Ok(status)
}

fn accepted(name: &str, file: MapFile, check: Verdict, out: &mut Out) -> Outcome {
    let (size, width) = (file.bytes.len(), file.width);
    let digest = digest(file).map_err(|refusal| Failure::No(refusal.to_string()))?;
    if out.is_json() {
        out.object(&json!({
            "map": name, "accepted": true, "bytes": size, "digest": digest, "instructions": check.count, "depth": check.depth,
            "width": width.bits(), "refusal": null, "reason": null, "place": null, "usual_cause": null, "advice": null,
        }))?;
        return Ok(Status::Done);
    }
    let verdict = out.paint(Style::Good, "accepted");
    let (bytes, count) = (counted(size as u64, "byte", "bytes"), counted(check.count.into(), "instruction", "instructions"));
    out.line(&format!("{name}: {verdict}, {bytes}, {count}, depth {}{}", check.depth, width.said()))?;
    out.line(&format!("  digest   {digest}"))?;
    Ok(Status::Done)
}

/// The digest of an accepted map, in hexadecimal.
fn digest(file: MapFile) -> Result<String, Refusal> {
    let digest = match file.width.is_ipv4() {
        true => AsMap4::checked(file.bytes)?.digest(),
        false => AsMap::checked(file.bytes)?.digest(),
    };
    Ok(digest.iter().map(|byte| format!("{byte:02x}")).collect())
}

/// Says why a map was refused, where, and what to do about it.
fn refused(name: &str, file: &MapFile, refusal: Refusal, out: &mut Out) -> Outcome {
    if out.is_json() {
        out.object(&refusal_object(name, file, refusal))?;
        return Ok(Status::No);
    }
    let verdict = out.paint(Style::Bad, &format!("refused {}", refusal.number()));
    refusal_lines(name, file, refusal, &verdict).iter().try_for_each(|line| out.line(line))?;
    Ok(Status::No)
}

/// A refused map as an object.
pub fn refusal_object(name: &str, file: &MapFile, refusal: Refusal) -> Value {
    json!({
        "map": name, "accepted": false, "bytes": file.size, "digest": null, "instructions": null, "depth": null,
        "width": file.width.bits(), "refusal": refusal.number(), "reason": refusal.reason(), "place": place(&file.bytes, file.width),
        "usual_cause": usual_cause(refusal, file), "advice": advice(refusal, file),
    })
}

/// A refused map as lines, the verdict being `refused` with its number, in whatever colour.
pub fn refusal_lines(name: &str, file: &MapFile, refusal: Refusal, verdict: &str) -> Vec<String> {
    let mut lines = vec![format!("{name}: {verdict}: {}", refusal.reason())];
    lines.push(format!("  size     {}", counted(file.size, "byte", "bytes")));
    lines.extend(place(&file.bytes, file.width).map(|bit| format!("  at       bit {bit}: byte {}, bit {}", bit / 8, bit % 8)));
    lines.push(format!("  usually  {}", usual_cause(refusal, file)));
    lines.push(format!("  advice   {}", advice(refusal, file)));
    lines
}

/// The bit at which the check refuses a map: the first of the instruction that it refuses, or the map's end where it wants another. None
/// where it accepts, and none of a map over the limit, which is not looked into.
pub fn place(map: &[u8], width: Width) -> Option<usize> {
    let stop = sanity_check_stop_bits(map, width.bits()).ok()?;
    stop.reason.map(|_| stop.place)
}
