//! The scan of the occupied groups, from document 02's sentences (CR 2). The original has no such call, but a hash set, and its pick tells
//! whether a group is in there: each scan is held to that.
use crate::document::Refusal;
use crate::netgroup::select_diverse;
use std::collections::HashSet;
use std::net::{Ipv6Addr, SocketAddr};

/// "The first hit's place from 0, or none, and how many groups it read."
#[derive(Clone, Copy, Debug, PartialEq)]
pub struct Scan {
    pub hit: Option<usize>,
    pub read: usize,
}

/// "Over 4,096 of them 12." It read "that place plus one, or all".
pub fn scan(group: u64, occupied: &[u64]) -> Result<Scan, Refusal> {
    if occupied.len() > 4096 {
        return Err(12);
    }
    let hit = occupied.iter().position(|&other| other == group);
    assert_eq!(hit.is_some(), original_has(group, occupied), "the original about {group} among {occupied:?}");
    Ok(Scan { hit, read: hit.map_or(occupied.len(), |place| place + 1) })
}

/// Whether the original takes a group for occupied: of two candidates, the first of that group and the second of a free one, its pick of
/// one is the second then.
fn original_has(group: u64, occupied: &[u64]) -> bool {
    let set: HashSet<u64> = occupied.iter().copied().collect();
    let free = (0..).find(|other| *other != group && !set.contains(other)).expect("there are more numbers than groups");
    let ranked = [1, 2].map(|address: u128| SocketAddr::new(Ipv6Addr::from(address).into(), 8333));
    let picked = select_diverse(&ranked, 1, &set, |peer| if peer == ranked[0] { group } else { free });
    picked == ranked[1..]
}
