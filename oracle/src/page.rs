//! The spread on a printed page, from document 02's sentences (CR 4). The original has no page, but its groups and its check decide: groups
//! are those of `picks`, which are held to its `netgroup` but for the new numbering, and which groups there are is held to its pick.
use crate::document::Refusal;
use crate::picks::{self, Groups};
use std::collections::BTreeMap;

/// The bytes of a line.
pub const LINE: usize = 25;

/// "100 × candidates of the group / all, rounded to a tenth, halves up", in tenths: divided as on paper, digit by digit to the second
/// decimal, which decides.
fn tenths(count: usize, all: usize) -> usize {
    let mut rest = 100 * count;
    let [whole, first, second] = [0; 3].map(|_| {
        let digit = rest / all;
        rest = rest % all * 10;
        digit
    });
    let nearest = 10 * whole + first + usize::from(second >= 5);
    // From half a tenth below it on, up to half a tenth above it, which is the next one's.
    let (twice, exact) = (2 * nearest * all, 2000 * count);
    assert!(twice <= exact + all && exact < twice + all, "{count} of {all} is not {nearest} tenths");
    nearest
}

/// "The group right-aligned in 10 columns, a space, its candidates in 6, a space, the per cent with one decimal in 6, and a line feed."
fn line(group: u64, count: usize, all: usize) -> String {
    let tenths = tenths(count, all);
    let line = format!("{group:>10} {count:>6} {:>6}\n", format!("{}.{}", tenths / 10, tenths % 10));
    assert_eq!(line.len(), LINE, "group {group}");
    line
}

/// "Groups rise." "Refusals are the pick's" with no occupied groups and nothing to pick; whether the page fits is for the caller to see.
pub fn page(list: &[u8], by: &Groups) -> Result<String, Refusal> {
    picks::refusal(list, &[], 0, by, [0, 0])?;
    let mut counts = BTreeMap::new();
    for candidate in list.chunks(20) {
        *counts.entry(by.group(candidate)?).or_insert(0) += 1;
    }
    hold_to_original(list, by, &counts);
    Ok(counts.iter().map(|(&group, &count)| line(group, count, list.len() / 20)).collect())
}

/// The original's first pass takes one candidate of each group where none is occupied and all may be picked.
fn hold_to_original(list: &[u8], by: &Groups, counts: &BTreeMap<u64, usize>) {
    let all = list.len() / 20;
    let mut groups = picks::pick(list, &[], all, by, [all, all]).expect("refused before").groups;
    groups.sort_unstable();
    assert!(groups.iter().eq(counts.keys()), "the groups that the original picks by");
}
