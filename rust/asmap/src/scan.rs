//! `asmap scan`: whether groups are occupied, at which place, and how many groups were read to say so.
use crate::args::Scan as Asked;
use crate::failure::{Failure, Outcome, Status};
use crate::lists::{self, entries, group, SO_MANY_GROUPS};
use crate::out::{Out, Style};
use crate::words::counted;
use corbastrigo::{scan_occupied, Scan, MAX_CANDIDATES};
use serde_json::json;
use std::path::Path;

pub fn run(asked: &Asked, out: &mut Out) -> Outcome {
    let groups = asked.groups.iter().map(|word| group(word)).collect::<Result<Vec<u64>, Failure>>()?;
    let occupied = occupied_groups(&asked.occupied)?;
    let width = groups.iter().map(|group| group.to_string().len()).max().unwrap_or(0);
    for group in groups {
        let scan = scan_occupied(group, &occupied).map_err(|refusal| lists::refused(&asked.occupied, refusal, SO_MANY_GROUPS))?;
        if out.is_json() {
            out.object(&json!({ "group": group, "place": scan.place, "read": scan.read }))?;
        } else {
            out.line(&format!("{group:<width$}  {}", answer(scan, out)))?;
        }
    }
    Ok(Status::Done)
}

/// The groups of a file as they stand there: their order decides the place, and one that stands twice is read twice. One past the limit is
/// enough for the library to refuse them.
fn occupied_groups(path: &Path) -> Result<Vec<u64>, Failure> {
    entries(path, group)?.take(MAX_CANDIDATES + 1).collect()
}

/// What a scan found, in words. A count of 0 says why.
fn answer(scan: Scan, out: &Out) -> String {
    let read = counted(scan.read as u64, "group", "groups");
    match scan.place {
        Some(place) => format!("{}  at place {place} (from 0); {read} read", out.paint(Style::Strong, "occupied    ")),
        None if scan.read == 0 => String::from("not occupied  no group read, because the list has none"),
        None => format!("not occupied  {read} read"),
    }
}
