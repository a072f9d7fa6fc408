//! The groups of prefixes by the new numbering, reckoned here as document 02 says them (CR 7) with std's own notion of a mapped address, and
//! the old numbering beside it.
use crate::holds;
use corbastrigo::{netgroup, prefix_group, AsMap};
use proptest::prelude::*;
use std::net::{IpAddr, Ipv4Addr, Ipv6Addr, SocketAddr};

/// The first two bytes of an IPv4 address as a number.
fn first_two(ip: Ipv4Addr) -> u64 {
    u64::from(u32::from(ip) / 65_536)
}

/// The first four bytes of an IPv6 address as a number.
fn first_four(ip: Ipv6Addr) -> u64 {
    u64::from(ip.segments()[0]) * 65_536 + u64::from(ip.segments()[1])
}

/// The IPv4 address that is meant: itself, or the one that is mapped.
fn ipv4_of(ip: IpAddr) -> Option<Ipv4Addr> {
    match ip {
        IpAddr::V4(v4) => Some(v4),
        IpAddr::V6(v6) => v6.to_ipv4_mapped(),
    }
}

fn new_number(ip: IpAddr) -> u64 {
    match (ipv4_of(ip), ip) {
        (Some(v4), _) => 4_294_967_296 + first_two(v4),
        (None, IpAddr::V6(v6)) => first_four(v6),
        (None, IpAddr::V4(_)) => unreachable!("an IPv4 address means itself"),
    }
}

fn old_number(ip: IpAddr) -> u64 {
    match ip {
        IpAddr::V4(v4) => first_two(v4),
        IpAddr::V6(v6) => first_four(v6),
    }
}

/// What a pick or a page goes by: a map, or prefixes by either numbering.
pub enum By {
    Map(AsMap),
    New,
    Old,
}

impl By {
    /// Of 0 and 1 the two numberings, of any other number the map.
    pub fn drawn(by: u8, map: Vec<u8>) -> Result<Self, TestCaseError> {
        match by {
            0 => Ok(By::New),
            1 => Ok(By::Old),
            _ => AsMap::checked(map).map(By::Map).map_err(|refusal| TestCaseError::fail(refusal.to_string())),
        }
    }

    pub fn map(&self) -> Option<&AsMap> {
        match self {
            By::Map(map) => Some(map),
            By::New | By::Old => None,
        }
    }

    /// A peer's group, without a map as it is reckoned here.
    pub fn group(&self, peer: SocketAddr) -> u64 {
        match self {
            By::Map(map) => netgroup(peer, Some(map)),
            By::New => new_number(peer.ip()),
            By::Old => old_number(peer.ip()),
        }
    }
}

/// Addresses that share prefixes: IPv4 of few, themselves and mapped; IPv6 whose first four bytes are those of IPv4 prefixes, or all zeros or
/// ones; those that one bit keeps from being mapped; and any.
fn ips() -> impl Strategy<Value = IpAddr> {
    let bytes = || prop_oneof![0..3u8, Just(255), any::<u8>()];
    let four = (bytes(), bytes(), any::<u8>(), any::<u8>()).prop_map(|(a, b, c, d)| Ipv4Addr::new(a, b, c, d)).boxed();
    let six = (0..4usize, bytes(), bytes(), any::<u64>()).prop_map(|(front, a, b, rest)| {
        let front = [0, 0xffff_0000, 0x0001_0000, 0x2001_0000][front];
        let prefix = front + 256 * u32::from(a) + u32::from(b);
        Ipv6Addr::from(u128::from(prefix) << 96 | u128::from(rest))
    });
    let almost = (four.clone(), 32..128u32).prop_map(|(v4, bit)| Ipv6Addr::from(u128::from(v4.to_ipv6_mapped()) ^ 1 << bit));
    prop_oneof![
        3 => four.clone().prop_map(IpAddr::V4),
        3 => four.prop_map(|v4| IpAddr::V6(v4.to_ipv6_mapped())),
        3 => six.prop_map(IpAddr::V6),
        2 => almost.prop_map(IpAddr::V6),
        1 => any::<Ipv6Addr>().prop_map(IpAddr::V6),
    ]
}

fn group(ip: IpAddr) -> u64 {
    netgroup(SocketAddr::new(ip, 8333), None)
}

#[test]
fn a_group_without_a_map_is_the_number_that_document_02_says() {
    holds(5_000, ips(), |ip| {
        prop_assert_eq!((group(ip), prefix_group(ip)), (new_number(ip), old_number(ip)));
        Ok(())
    });
}

#[test]
fn ipv4_has_groups_apart_and_shares_them_where_two_bytes_are_the_same() {
    holds(5_000, (ips(), ips()), |(one, other)| {
        let shared = group(one) == group(other);
        match (ipv4_of(one), ipv4_of(other)) {
            (Some(one), Some(other)) => prop_assert_eq!(shared, one.octets()[..2] == other.octets()[..2]),
            (None, None) => prop_assert_eq!(shared, prefix_group(one) == prefix_group(other)),
            _ => prop_assert!(!shared),
        }
        Ok(())
    });
}

#[test]
fn the_new_number_of_family_4_is_the_old_one_and_more_and_that_of_other_ipv6_the_same() {
    holds(5_000, ips(), |ip| {
        match (ip, ipv4_of(ip)) {
            (IpAddr::V4(_), _) => prop_assert_eq!(group(ip), 4_294_967_296 + prefix_group(ip)),
            (_, None) => prop_assert_eq!(group(ip), prefix_group(ip)),
            (_, Some(v4)) => prop_assert_eq!((prefix_group(ip), group(ip)), (0, group(v4.into()))),
        }
        Ok(())
    });
}
