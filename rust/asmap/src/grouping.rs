//! The group of a peer, which the library says, and where it comes from.
use crate::args;
use crate::failure::Failure;
use crate::files::checked_map;
use crate::replay::replay;
use crate::walk;
use corbastrigo::{ip16_for_lookup, netgroup, old_prefix_page, old_prefix_pick, page, pick, prefix_group};
use corbastrigo::{AsMap, End, Page, Pick, Refusal, Walk};
use serde_json::{json, Value};
use std::collections::HashSet;
use std::net::{IpAddr, Ipv4Addr, Ipv6Addr, SocketAddr};

/// What groups are made by: a map, or prefixes by the new numbering or the old.
pub enum Grouping {
    Map(AsMap),
    Prefixes,
    OldPrefixes,
}

impl Grouping {
    pub fn asked(asked: &args::Grouped) -> Result<Grouping, Failure> {
        match &asked.map {
            Some(path) => checked_map(path).map(Grouping::Map),
            None if asked.old_prefixes => Ok(Grouping::OldPrefixes),
            None => Ok(Grouping::Prefixes),
        }
    }

    /// As the objects say it.
    pub fn word(&self) -> &'static str {
        match self {
            Grouping::Map(_) => "map",
            Grouping::Prefixes => "prefix",
            Grouping::OldPrefixes => "old_prefix",
        }
    }

    fn map(&self) -> Option<&AsMap> {
        match self {
            Grouping::Map(map) => Some(map),
            Grouping::Prefixes | Grouping::OldPrefixes => None,
        }
    }

    fn group(&self, address: SocketAddr) -> u64 {
        match self {
            Grouping::OldPrefixes => prefix_group(address.ip()),
            Grouping::Map(_) | Grouping::Prefixes => netgroup(address, self.map()),
        }
    }

    pub fn pick(&self, ranked: &[SocketAddr], max: usize, occupied: &HashSet<u64>) -> Result<Pick, Refusal> {
        match self {
            Grouping::OldPrefixes => old_prefix_pick(ranked, max, occupied),
            Grouping::Map(_) | Grouping::Prefixes => pick(ranked, max, occupied, self.map()),
        }
    }

    pub fn page(&self, candidates: &[SocketAddr]) -> Result<Page, Refusal> {
        match self {
            Grouping::OldPrefixes => old_prefix_page(candidates),
            Grouping::Map(_) | Grouping::Prefixes => page(candidates, self.map()),
        }
    }

    /// The group of an address, with what made it and, where it is 0, why.
    pub fn of(&self, address: SocketAddr) -> Result<Grouped, Failure> {
        let (group, ip) = (self.group(address), address.ip());
        let (by, why_zero) = match self {
            Grouping::Map(map) => {
                let ip16 = ip16_for_lookup(ip);
                let walk = map.walk(&ip16);
                (By::Map(walk), if group == 0 { replay(map.as_bytes(), &ip16, walk, drop)?.why_zero } else { None })
            }
            // A mapped address is the IPv4 address that it stands for.
            Grouping::Prefixes => (By::Prefix(prefix(ip.to_canonical())), zero_prefix(group, ip)),
            Grouping::OldPrefixes => (By::OldPrefix(prefix(ip)), zero_prefix(group, ip)),
        };
        Ok(Grouped { group, word: self.word(), by, why_zero })
    }
}

/// What made the group.
enum By {
    Map(Walk),
    Prefix(String),
    OldPrefix(String),
}

pub struct Grouped {
    pub group: u64,
    word: &'static str,
    by: By,
    /// Why the group is 0, where it is.
    pub why_zero: Option<String>,
}

impl Grouped {
    /// Where it comes from, in words.
    pub fn source(&self) -> String {
        let source = match &self.by {
            By::Prefix(prefix) => format!("prefix {prefix}"),
            By::OldPrefix(prefix) => format!("prefix {prefix}, old numbering"),
            By::Map(_) if self.group == 0 => String::from("no AS number by the map"),
            By::Map(walk) if walk.end == End::Returned => String::from("AS number by the map, at a RETURN"),
            By::Map(_) => String::from("AS number by the map, the default at a difference"),
        };
        match &self.why_zero {
            Some(why) => format!("{source}; 0: {why}"),
            None => source,
        }
    }

    /// The fields of an object that say the group.
    pub fn object(&self) -> Value {
        let (end, prefix) = match &self.by {
            By::Map(walk) => (Some(walk::end(walk)), None),
            By::Prefix(prefix) | By::OldPrefix(prefix) => (None, Some(prefix)),
        };
        json!({ "group": self.group, "by": self.word, "end": end, "prefix": prefix, "why_zero": self.why_zero })
    }
}

/// The prefix that is the group without a map, for display.
fn prefix(ip: IpAddr) -> String {
    match ip {
        IpAddr::V4(v4) => {
            let [a, b, ..] = v4.octets();
            format!("{}/16", Ipv4Addr::new(a, b, 0, 0))
        }
        IpAddr::V6(v6) => {
            let [a, b, ..] = v6.segments();
            format!("{}/32", Ipv6Addr::new(a, b, 0, 0, 0, 0, 0, 0))
        }
    }
}

/// Why the group of an address is 0 without a map, where it is. Only the old numbering has 0 of IPv4, and of addresses that are mapped.
fn zero_prefix(group: u64, ip: IpAddr) -> Option<String> {
    let why = match ip {
        IpAddr::V4(_) => "the first two bytes are 0",
        IpAddr::V6(v6) if v6.to_ipv4_mapped().is_some() => {
            "the first four bytes are 0, as of every mapped IPv4 address; without --old-prefixes it has the group of its IPv4 prefix"
        }
        IpAddr::V6(_) => "the first four bytes are 0",
    };
    (group == 0).then(|| String::from(why))
}
