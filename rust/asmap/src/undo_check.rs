//! `asmap undo-check`: whether a map that was brought back can take the place of the old one. The first line says what to do.
use crate::args::UndoCheck;
use crate::compared::{Pair, Refused};
use crate::difference::Difference;
use crate::failure::{Failure, Outcome, Status};
use crate::out::{Out, Style};
use crate::whole::Sink;
use crate::width::Width;
use serde_json::json;

/// What is said first.
struct Verdict {
    safe: bool,
    words: String,
    /// Whether the bytes are the same, and whether every number is; the latter is not known of a map that is refused.
    same_bytes: bool,
    same_numbers: Option<bool>,
}

impl Verdict {
    fn tell(&self, width: Width, out: &mut Out) -> Result<(), Failure> {
        let (verdict, style) = if self.safe { ("SAFE", Style::Good) } else { ("DO NOT USE", Style::Bad) };
        if out.is_json() {
            return out.object(&json!({
                "kind": "verdict", "safe": self.safe, "verdict": format!("{verdict}: {}", self.words), "same_bytes": self.same_bytes,
                "same_numbers": self.same_numbers, "width": width.bits(),
            }));
        }
        let verdict = out.paint(style, verdict);
        out.line(&format!("{verdict}: {}", self.words))
    }
}

pub fn run(asked: &UndoCheck, out: &mut Out) -> Outcome {
    let pair = Pair::read(&asked.old, &asked.restored, asked.bits.width()?)?;
    let (status, told) = match pair.compare()? {
        Ok(records) => {
            let difference = Difference::of(&pair, &records, None);
            (difference.status(), compared(&difference, out))
        }
        Err(maps) => (Status::Refused, refused(&pair, &maps, out)),
    };
    match told {
        // Whoever read the first line and no more has not made the map safe.
        Err(Failure::BrokenPipe) if status != Status::Done => Ok(status),
        told => told.map(|()| status),
    }
}

/// Both maps are accepted and compared.
fn compared(difference: &Difference, out: &mut Out) -> Result<(), Failure> {
    let same = difference.status() == Status::Done;
    let words = match (same, difference.same_bytes) {
        (true, true) => String::from("the restored map is the old one, byte for byte"),
        (true, false) => String::from("other bytes, the same number for every address"),
        (false, _) => format!("the restored map has another number for {}", difference.tally.changed.words(difference.width)),
    };
    Verdict { safe: same, words, same_bytes: difference.same_bytes, same_numbers: Some(same) }.tell(difference.width, out)?;
    let json = out.is_json();
    difference.write(json, &mut Sink::Standard(out))
}

/// One of the maps is refused, or both: nothing can be said of the numbers. The restored one is the one that would be used, and comes
/// first.
fn refused(pair: &Pair, maps: &[Refused], out: &mut Out) -> Result<(), Failure> {
    let of = |which: &str| maps.iter().find(|map| map.which == which);
    let words = match (of("new"), of("old")) {
        (Some(restored), None) => format!("the restored map is {}", restored.reason()),
        (Some(restored), Some(old)) => format!("the restored map is {}; the old one is {}", restored.reason(), old.reason()),
        (None, Some(old)) => format!("the old map is {}; nothing can be compared with it", old.reason()),
        (None, None) => String::from("nothing was compared"),
    };
    let [old, new] = pair.bytes();
    Verdict { safe: false, words, same_bytes: old == new, same_numbers: None }.tell(pair.width, out)?;
    for map in [of("new"), of("old")].into_iter().flatten() {
        if out.is_json() {
            out.object(&map.object())?;
        } else {
            map.lines().iter().try_for_each(|line| out.line(line))?;
        }
    }
    Ok(())
}
