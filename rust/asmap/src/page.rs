//! `asmap page`: how a list of candidates spreads over groups, as the library prints it. On a terminal each line has a bar behind it.
use crate::args::Page as Asked;
use crate::failure::{self, Failure, Outcome, Status};
use crate::grouping::Grouping;
use crate::lists;
use crate::out::{Out, Style};
use corbastrigo::Page;
use serde_json::{json, Value};
use std::net::SocketAddr;

pub fn run(asked: &Asked, out: &mut Out) -> Outcome {
    let grouping = Grouping::asked(&asked.by)?;
    let candidates = lists::candidates(&asked.candidates)?;
    let made = grouping.page(&candidates);
    let made = made.map_err(|refusal| lists::refused(&asked.candidates, refusal, "give fewer of them"))?;
    if out.is_json() {
        objects(&made, &candidates, &grouping, out)?;
        return Ok(Status::Done);
    }
    if candidates.is_empty() {
        failure::say("nothing is printed, because the list has no candidates");
    }
    match out.columns() {
        Some(columns) => bars(&made, why_zero(&candidates, &grouping)?, columns, out)?,
        None => out.bytes(made.as_str().as_bytes())?,
    }
    Ok(Status::Done)
}

/// Why candidates are in group 0, each reason once. There is but one, except by the old numbering of prefixes.
fn why_zero(candidates: &[SocketAddr], grouping: &Grouping) -> Result<Option<String>, Failure> {
    let mut reasons = Vec::new();
    for &candidate in candidates {
        let why = grouping.of(candidate)?.why_zero;
        reasons.extend(why.filter(|why| !reasons.contains(why)));
    }
    Ok((!reasons.is_empty()).then(|| reasons.join("; or ")))
}

/// The lines with their bars, and below them what a group 0 comes from.
fn bars(page: &Page, why_zero: Option<String>, columns: usize, out: &mut Out) -> Result<(), Failure> {
    for (line, share) in page.as_str().lines().zip(page.shares()) {
        // Two columns stand between.
        match bar(share.tenths, columns.saturating_sub(line.len() + 2)) {
            bar if bar.is_empty() => out.line(line)?,
            bar => out.line(&format!("{line}  {}", out.paint(Style::Faint, &bar)))?,
        }
    }
    match why_zero {
        Some(why) => out.line(&format!("group 0: {why}")),
        None => Ok(()),
    }
}

/// The bar of a per cent, in whole columns: 100.0 alone fills them all, and what is less than one has none.
fn bar(tenths: u32, columns: usize) -> String {
    "#".repeat(tenths as usize * columns / 1_000)
}

/// A per cent as a number. The division gives the nearest there is to that decimal, so that it is printed with one.
fn per_cent(tenths: u32) -> Value {
    json!(f64::from(tenths) / 10.0)
}

/// An object for each group and one for the whole.
fn objects(page: &Page, candidates: &[SocketAddr], grouping: &Grouping, out: &mut Out) -> Result<(), Failure> {
    let (by, why_zero) = (grouping.word(), why_zero(candidates, grouping)?);
    for share in page.shares() {
        out.object(&json!({
            "kind": "share", "by": by, "group": share.group, "candidates": share.candidates, "per_cent": per_cent(share.tenths),
            "tenths": share.tenths, "why_zero": why_zero.as_ref().filter(|_| share.group == 0),
        }))?;
    }
    out.object(&json!({ "kind": "summary", "by": by, "candidates": candidates.len(), "groups": page.shares().count() }))
}

#[cfg(test)]
mod tests {
    use super::*;

    #[test]
    fn per_cents_have_one_decimal() {
        for tenths in 0..=1_000 {
            assert_eq!(per_cent(tenths).to_string(), format!("{}.{}", tenths / 10, tenths % 10));
        }
    }

    #[test]
    fn a_bar_has_its_per_cent_of_the_columns() {
        let length = |tenths, columns| bar(tenths, columns).len();
        assert_eq!([0, 1, 19, 20, 63, 500, 999, 1_000].map(|tenths| length(tenths, 50)), [0, 0, 0, 1, 3, 25, 49, 50]);
        assert_eq!([0, 1, 54, 174, 10_000].map(|columns| length(1_000, columns)), [0, 1, 54, 174, 10_000]);
    }
}
