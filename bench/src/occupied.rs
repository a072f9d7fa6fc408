//! What occupied groups cost: picks by where the candidates' groups stand among them, and the scan alone. The original has no scan: it asks a
//! hash set, which stands beside ours.
use crate::asmap::AsMap;
use crate::measure::{best, both, head, row};
use crate::parts::{keep, picked, By, Lists};
use crate::{inputs, netgroup};
use corbastrigo_sys as sys;
use std::collections::HashSet;
use std::hint::black_box;
use std::net::SocketAddr;

/// Candidates under a name, with the occupied groups in their order.
type Case = (&'static str, Vec<SocketAddr>, Vec<u64>);

/// So many occupied groups. The same candidates, of eight groups, find these in front, at the end and not at all; so all of them are looked
/// up in each. The last case has candidates of many groups.
fn cases(taken: usize, group_of: impl Fn(SocketAddr) -> u64) -> [Case; 4] {
    let (eight, near) = inputs::of_eight_groups(1_000, &group_of);
    let any = inputs::candidates(1_000);
    let met: HashSet<u64> = any.iter().map(|&peer| group_of(peer)).chain(eight.iter().copied()).collect();
    let others = inputs::other_groups(taken, &met, &group_of);
    let rest = &others[..taken - eight.len()];
    [
        ("early: groups among the first 8", near.clone(), [&eight, rest].concat()),
        ("late: groups among the last 8", near.clone(), [rest, &eight].concat()),
        ("never: 8 groups that are not occupied", near, others.clone()),
        ("never: any groups that are not occupied", any, others),
    ]
}

/// Of 1,000 candidates at most 125.
pub fn picks(bytes: &[u8], map: &AsMap) {
    head("Pick, hits early, late and never, of a map that was checked once, and without one by both numberings", "us a pick");
    let max = 125;
    for by in By::all(bytes, map) {
        for taken in [300, 4_096] {
            for (kind, ranked, occupied) in cases(taken, |peer| by.group_of(peer)) {
                let set: HashSet<u64> = occupied.iter().copied().collect();
                let mut lists = Lists::new(&ranked, occupied, max);
                let total = lists.pick(max, by);
                assert_eq!(picked(&ranked, &lists, total), by.original_pick(&ranked, max, &set));
                let times = both(|| keep(lists.pick(max, by)), || keep(by.original_pick(&ranked, max, &set)));
                row(&format!("{}, 1000 candidates, {taken} occupied, max {max}; {kind}", by.name()), 1e3, &times);
            }
        }
    }
}

/// Whether there is a hit, and how many groups were read.
fn ours_scan(group: u64, occupied: &[u64]) -> (bool, usize) {
    let (mut found, mut place, mut read) = (0, 0, 0);
    let answer =
        unsafe { sys::corbastrigo_scan_occupied(group, occupied.as_ptr(), occupied.len(), &mut found, &mut place, &mut read) };
    assert_eq!(answer, 0, "no more than 4,096 groups");
    (found == 1, read)
}

/// Beside it the set of the same groups, as the original's callers have it, is asked for the same group. It was made before.
pub fn scan() {
    println!("\n### Scan of the occupied groups, beside a hash set of them (the original has no such call)\n");
    println!(
        "| input | ours, ns a scan | ours, ns a group read | `HashSet::contains`, ns | ratio of best | median | lowest to highest |\n\
         |---|---|---|---|---|---|---|"
    );
    for count in [300, 4_096] {
        let occupied = inputs::other_groups(count, &HashSet::new(), |peer| netgroup::netgroup(peer, None));
        let set: HashSet<u64> = occupied.iter().copied().collect();
        for (name, group) in [("the first", occupied[0]), ("the last", occupied[count - 1]), ("none", u64::MAX)] {
            let (found, read) = ours_scan(group, &occupied);
            assert_eq!(found, set.contains(&group));
            let times = both(
                || keep(ours_scan(black_box(group), black_box(&occupied))),
                || keep(black_box(&set).contains(black_box(&group))),
            );
            let (time, [ratio, median, low, high]) = (best(&times.ours), times.ratios());
            println!(
                "| {count} groups, hit: {name}, {read} read | {time:.2} | {:.2} | {:.2} | {ratio:.2} | {median:.2} | {low:.2} to {high:.2} |",
                time / read as f64,
                best(&times.original)
            );
        }
    }
}
