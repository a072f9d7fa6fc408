//! `asmap pick`: peers from a ranked list, spread over groups. The library picks; this says what each was picked for.
use crate::args::Pick as Asked;
use crate::failure::{Failure, Outcome, Status};
use crate::grouping::{Grouped, Grouping};
use crate::lists::{self, candidates, entries, group, SO_MANY_GROUPS};
use crate::out::{Out, Style};
use crate::words::{counted, grouped};
use corbastrigo::{Pick, Refusal, MAX_CANDIDATES};
use serde_json::json;
use std::collections::HashSet;
use std::net::SocketAddr;
use std::path::Path;

pub fn run(asked: &Asked, out: &mut Out) -> Outcome {
    let standard = Path::new("-");
    if asked.candidates == standard && asked.occupied.as_deref() == Some(standard) {
        return Err(Failure::new("standard input can be the candidates or the occupied groups; give the other as a file"));
    }
    let grouping = Grouping::asked(&asked.by)?;
    let ranked = candidates(&asked.candidates)?;
    let occupied = asked.occupied.as_deref().map(occupied_groups).transpose()?.unwrap_or_default();
    let picked = grouping.pick(&ranked, asked.max, &occupied).map_err(|refusal| refused(asked, ranked.len(), refusal))?;
    let rows = rows(&picked, &ranked, asked.max, &grouping)?;
    if out.is_json() {
        objects(asked.max, &rows, out)?;
        out.object(&json!({
            "kind": "summary", "by": grouping.word(), "max": asked.max, "picked": picked.places.len(),
            "first_pass": picked.groups.len(), "candidates": ranked.len(), "examined": picked.examined,
            "instructions": picked.instructions,
        }))?;
    } else {
        table(&rows, out)?;
        out.line(&summary(asked.max, &grouping, &picked, ranked.len()))?;
    }
    Ok(Status::Done)
}

/// The groups of a file. One past the limit is enough for the library to refuse them.
fn occupied_groups(path: &Path) -> Result<HashSet<u64>, Failure> {
    let mut groups = HashSet::new();
    for group in entries(path, group)? {
        groups.insert(group?);
        if groups.len() > MAX_CANDIDATES {
            break;
        }
    }
    Ok(groups)
}

/// The "no" to lists that are too long.
fn refused(asked: &Asked, candidates: usize, refusal: Refusal) -> Failure {
    let (list, hint) = match &asked.occupied {
        Some(occupied) if candidates <= MAX_CANDIDATES => (occupied.as_path(), SO_MANY_GROUPS),
        _ => (asked.candidates.as_path(), "give the best of them"),
    };
    lists::refused(list, refusal, hint)
}

/// A pick with what it was picked for.
struct Row {
    place: u16,
    candidate: SocketAddr,
    grouped: Grouped,
    pass: Pass,
}

enum Pass {
    First,
    /// So many peers were wanted when this one was taken; the group had gone to a pick of the first pass, or was occupied.
    Fill {
        wanted: usize,
        holder: Option<usize>,
    },
}

fn rows(picked: &Pick, ranked: &[SocketAddr], max: usize, grouping: &Grouping) -> Result<Vec<Row>, Failure> {
    let row = |(rank, &place): (usize, &u16)| {
        let candidate = ranked[usize::from(place)];
        let grouped = grouping.of(candidate)?;
        let pass = if rank < picked.groups.len() {
            Pass::First
        } else {
            Pass::Fill { wanted: max - rank, holder: picked.groups.iter().position(|&group| group == grouped.group) }
        };
        Ok(Row { place, candidate, grouped, pass })
    };
    picked.places.iter().enumerate().map(row).collect()
}

/// What a pick was picked for, in words. Picks count from 1 here.
fn reason(row: &Row) -> String {
    let group = row.grouped.group;
    let why = match row.pass {
        Pass::First => format!("first pass: group {group} was free"),
        Pass::Fill { wanted, holder } => {
            let peers = if wanted == 1 { "1 peer was".to_string() } else { format!("{} peers were", grouped(wanted as u64)) };
            let held = holder.map_or(String::from("was occupied"), |rank| format!("went to pick {}", rank + 1));
            format!("fill: {peers} still wanted; group {group} {held}")
        }
    };
    match &row.grouped.why_zero {
        Some(zero) => format!("{why}; 0: {zero}"),
        None => why,
    }
}

fn table(rows: &[Row], out: &mut Out) -> Result<(), Failure> {
    if rows.is_empty() {
        return Ok(());
    }
    let shown: Vec<String> = rows.iter().map(|row| row.candidate.to_string()).collect();
    let width = shown.iter().map(String::len).max().unwrap_or(0).max("candidate".len());
    let head = format!("pick  place  {:<width$}  {:>10}  picked for", "candidate", "group");
    out.line(&out.paint(Style::Faint, &head))?;
    for (rank, (row, candidate)) in rows.iter().zip(shown).enumerate() {
        let (pick, place) = (rank + 1, u32::from(row.place) + 1);
        out.line(&format!("{pick:>4}  {place:>5}  {candidate:<width$}  {:>10}  {}", row.grouped.group, reason(row)))?;
    }
    Ok(())
}

/// The pick as a whole. A count of 0 says why.
fn summary(max: usize, grouping: &Grouping, picked: &Pick, candidates: usize) -> String {
    let (total, first) = (picked.places.len(), picked.groups.len());
    if max == 0 {
        return String::from("none picked, because at most 0 were asked for");
    }
    if total == 0 {
        return String::from("none picked, because the list has no candidates");
    }
    let passes = match first {
        0 => String::from("all to fill, because no candidate's group was free"),
        _ if first == total => String::from("all in the first pass"),
        _ => format!("{first} in the first pass, {} to fill", total - first),
    };
    let by = match grouping {
        Grouping::Map(_) => format!("by {} of the map", counted(picked.instructions, "instruction", "instructions")),
        Grouping::Prefixes => String::from("by prefixes"),
        Grouping::OldPrefixes => String::from("by prefixes in the old numbering"),
    };
    let examined = format!("{} of {}", picked.examined, counted(candidates as u64, "candidate", "candidates"));
    let max = grouped(max as u64);
    format!("{total} picked of at most {max}: {passes}; {examined} examined, {by}; places count from 1")
}

/// An object for each pick. Ranks and places count from 0, as the library's.
fn objects(max: usize, rows: &[Row], out: &mut Out) -> Result<(), Failure> {
    for (rank, row) in rows.iter().enumerate() {
        let (pass, holder) = match row.pass {
            Pass::First => ("first", None),
            Pass::Fill { holder, .. } => ("fill", holder),
        };
        let mut object = row.grouped.object();
        object["kind"] = json!("pick");
        object["rank"] = json!(rank);
        object["place"] = json!(row.place);
        object["candidate"] = json!(row.candidate.to_string());
        object["pass"] = json!(pass);
        object["still_wanted"] = json!(max - rank);
        object["group_went_to"] = json!(holder);
        out.object(&object)?;
    }
    Ok(())
}
