//! Document 01's groups and picks, worked through from its text, and document 02's groups without a map (CR 7). Groups over accepted maps are
//! held to the original's `netgroup`, which also gives those of the old numbering; the picks and the number of candidates examined are held to
//! its `select_diverse`, by whatever numbers.
use crate::asmap::AsMap;
use crate::document::{check, walk, Refusal, Verdict};
use crate::netgroup;
use std::cell::Cell;
use std::net::{IpAddr, Ipv4Addr, Ipv6Addr, SocketAddr};

/// No map and document 02's numbering (CR 7), no map and the old one, which is the original's, a map that is checked, or a map taken as it is.
#[derive(Clone, Copy, Debug)]
pub enum By<'a> {
    Prefixes,
    OldPrefixes,
    Map(&'a [u8]),
    Unchecked(&'a [u8]),
}

/// What the groups of a call go by, with the check's refusal and the original's map where it accepts.
pub struct Groups<'a> {
    by: By<'a>,
    refusal: Option<Refusal>,
    original: Option<AsMap>,
}

const LIMIT: usize = 16_777_216;

impl<'a> Groups<'a> {
    pub fn new(by: By<'a>) -> Groups<'a> {
        let (By::Map(map) | By::Unchecked(map)) = by else {
            return Groups { by, refusal: None, original: None };
        };
        if map.len() > LIMIT {
            return Groups { by, refusal: Some(1), original: None };
        }
        let refusal = match (by, check(map)) {
            (By::Map(_), Verdict::Refused(reason)) => Some(reason),
            _ => None,
        };
        Groups { by, refusal, original: AsMap::from_bytes(map.to_vec()) }
    }

    fn map_refusal(&self) -> Result<(), Refusal> {
        self.refusal.map_or(Ok(()), Err)
    }

    /// A candidate's group, and the instructions of its walk.
    fn grouped(&self, candidate: &[u8]) -> (u64, u64) {
        let map = match self.by {
            By::Prefixes => return (prefix_group(socket(candidate)), 0),
            By::OldPrefixes => return (netgroup::netgroup(socket(candidate), None), 0),
            By::Map(map) | By::Unchecked(map) => map,
        };
        let walked = walk(map, &address(candidate));
        if self.original.is_some() {
            assert_eq!(u64::from(walked.number), netgroup::netgroup(socket(candidate), self.original.as_ref()));
        }
        (walked.number.into(), walked.count.into())
    }

    pub fn group(&self, candidate: &[u8]) -> Result<u64, Refusal> {
        if !valid(candidate) {
            return Err(13);
        }
        self.map_refusal().map(|()| self.grouped(candidate).0)
    }
}

/// The numbers of IPv4 prefixes begin here (document 02, CR 7).
pub const IPV4_GROUPS: u64 = 4_294_967_296;

/// "An IPv4 or mapped address gives 4,294,967,296 + 256 × a + b": of the address as one number, what is left without its last two bytes. Any
/// other has the number that it had, which is the original's.
pub fn prefix_group(peer: SocketAddr) -> u64 {
    let ipv4 = match peer.ip() {
        IpAddr::V4(ip) => Some(ip),
        IpAddr::V6(ip) => ip.to_ipv4_mapped(),
    };
    match ipv4 {
        Some(ip) => IPV4_GROUPS + u64::from(u32::from(ip) / 65_536),
        None => netgroup::netgroup(peer, None),
    }
}

fn address(candidate: &[u8]) -> [u8; 16] {
    candidate[2..18].try_into().expect("16 bytes")
}

pub fn socket(candidate: &[u8]) -> SocketAddr {
    let ip = match candidate[0] {
        4 => IpAddr::from(<[u8; 4]>::try_from(&candidate[14..18]).map(Ipv4Addr::from).expect("4 bytes")),
        _ => IpAddr::from(Ipv6Addr::from(address(candidate))),
    };
    SocketAddr::new(ip, u16::from_be_bytes([candidate[18], candidate[19]]))
}

fn valid(candidate: &[u8]) -> bool {
    let mapped = |c: &[u8]| c[2..12].iter().all(|&b| b == 0) && c[12..14] == [255, 255];
    candidate.len() == 20 && candidate[1] == 0 && (candidate[0] == 6 || candidate[0] == 4 && mapped(candidate))
}

/// The places of the picks; the groups of the first pass's, which are as many as its picks.
#[derive(Default)]
pub struct Pick {
    pub places: Vec<usize>,
    pub groups: Vec<u64>,
    pub examined: usize,
    pub instructions: u64,
}

pub(crate) fn refusal(bytes: &[u8], occupied: &[u64], max: usize, by: &Groups, rooms: [usize; 2]) -> Result<(), Refusal> {
    if bytes.len() % 20 != 0 {
        return Err(13);
    }
    let n = bytes.len() / 20;
    if n > 4096 || occupied.len() > 4096 {
        return Err(12);
    }
    if !bytes.chunks(20).all(valid) {
        return Err(13);
    }
    by.map_refusal()?;
    if rooms.iter().any(|&room| room < max.min(n)) {
        return Err(14);
    }
    Ok(())
}

/// Both passes.
pub fn pick(bytes: &[u8], occupied: &[u64], max: usize, by: &Groups, rooms: [usize; 2]) -> Result<Pick, Refusal> {
    refusal(bytes, occupied, max, by, rooms)?;
    let all: Vec<&[u8]> = bytes.chunks(20).collect();
    let mut found: Vec<u64> = Vec::new();
    let mut pick = Pick::default();
    for (place, candidate) in all.iter().enumerate() {
        if pick.places.len() == max {
            break;
        }
        let (group, count) = by.grouped(candidate);
        found.push(group);
        pick.examined += 1;
        pick.instructions += count;
        if !occupied.contains(&group) && !pick.groups.contains(&group) {
            pick.places.push(place);
            pick.groups.push(group);
        }
    }
    for place in 0..all.len() {
        if pick.places.len() >= max {
            break;
        }
        if !pick.places.iter().any(|&p| all[p] == all[place]) {
            pick.places.push(place);
        }
    }
    hold_to_original(&all, &found, occupied, max, &pick);
    Ok(pick)
}

/// The original asks for a group once for each candidate that it examines, in order.
fn hold_to_original(all: &[&[u8]], found: &[u64], occupied: &[u64], max: usize, pick: &Pick) {
    let ranked: Vec<SocketAddr> = all.iter().map(|c| socket(c)).collect();
    let calls = Cell::new(0);
    let group_of = |_: SocketAddr| {
        calls.set(calls.get() + 1);
        found[calls.get() - 1]
    };
    let theirs = netgroup::select_diverse(&ranked, max, &occupied.iter().copied().collect(), group_of);
    let ours: Vec<SocketAddr> = pick.places.iter().map(|&place| ranked[place]).collect();
    assert_eq!(theirs, ours, "the original's picks");
    assert_eq!(calls.get(), pick.examined, "the candidates that the original examines");
}
