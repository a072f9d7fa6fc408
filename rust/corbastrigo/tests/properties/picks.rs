//! A pick's two passes, worked through here as document 01 says them, with the groups and walks of single peers.
use crate::holds;
use crate::numberings::By;
use crate::programs::walked_programs;
use corbastrigo::{ip16_for_lookup, old_prefix_pick, pick, select_diverse};
use proptest::prelude::*;
use std::collections::HashSet;
use std::net::{IpAddr, Ipv4Addr, Ipv6Addr, SocketAddr};

#[derive(Debug, Default, PartialEq)]
struct Expected {
    first: Vec<u16>,
    groups: Vec<u64>,
    second: Vec<u16>,
    examined: usize,
    instructions: u64,
}

fn worked_through(ranked: &[SocketAddr], max: usize, occupied: &HashSet<u64>, by: &By) -> Expected {
    let mut expected = Expected::default();
    let mut used = occupied.clone();
    for (place, &peer) in ranked.iter().enumerate() {
        if expected.first.len() == max {
            break;
        }
        expected.examined += 1;
        expected.instructions += by.map().map_or(0, |map| u64::from(map.walk(&ip16_for_lookup(peer.ip())).count));
        let group = by.group(peer);
        if used.insert(group) {
            expected.first.push(place as u16);
            expected.groups.push(group);
        }
    }
    let mut picked: Vec<SocketAddr> = expected.first.iter().map(|&place| ranked[usize::from(place)]).collect();
    for (place, &peer) in ranked.iter().enumerate() {
        if picked.len() < max && !picked.contains(&peer) {
            picked.push(peer);
            expected.second.push(place as u16);
        }
    }
    expected
}

/// Peers that share groups: those that a program leads, in both families, and their neighbours; by prefixes IPv4 with mapped ones, and, by the
/// old numbering, with IPv6.
fn peers(addresses: &[[u8; 16]]) -> Vec<SocketAddr> {
    let mut ips: Vec<IpAddr> = addresses.iter().map(|&address| Ipv6Addr::from(address).into()).collect();
    ips.extend(addresses.iter().map(|address| IpAddr::from(Ipv4Addr::new(address[0] % 3, address[1] % 2, 1, address[2]))));
    ips.extend(addresses.iter().map(|address| IpAddr::from(Ipv4Addr::new(1, 0, 0, address[3] % 2).to_ipv6_mapped())));
    ips.extend(addresses.iter().map(|address| IpAddr::from(Ipv6Addr::new(0, u16::from(address[0] % 3) << 8, 0, 0, 0, 0, 0, 1))));
    ips.into_iter().map(|ip| SocketAddr::new(ip, 8333)).collect()
}

#[test]
fn a_pick_takes_free_groups_in_order_and_then_fills_up() {
    let places = || prop::collection::vec(any::<prop::sample::Index>(), 0..20);
    let inputs = (walked_programs(), 0..4u8, places(), places(), prop_oneof![0..12usize, Just(usize::MAX)]);
    holds(5_000, inputs, |((program, addresses), by, ranked, occupied, max)| {
        let pool = peers(&addresses);
        let by = By::drawn(by, program.map())?;
        let ranked: Vec<SocketAddr> = ranked.iter().map(|place| pool[place.index(pool.len())]).collect();
        let occupied: HashSet<u64> = occupied.iter().take(3).map(|place| by.group(pool[place.index(pool.len())])).collect();
        let expected = worked_through(&ranked, max, &occupied, &by);
        let picked = match by {
            By::Old => old_prefix_pick(&ranked, max, &occupied),
            By::New | By::Map(_) => pick(&ranked, max, &occupied, by.map()),
        };
        let picked = picked.map_err(|refusal| TestCaseError::fail(refusal.to_string()))?;
        prop_assert_eq!((picked.first_pass(), &picked.groups), (&expected.first[..], &expected.groups));
        prop_assert_eq!(picked.second_pass(), &expected.second[..]);
        prop_assert_eq!((picked.examined, picked.instructions), (expected.examined, expected.instructions));
        if !matches!(by, By::Old) {
            let peers: Vec<SocketAddr> = picked.places.iter().map(|&place| ranked[usize::from(place)]).collect();
            prop_assert_eq!(select_diverse(&ranked, max, &occupied, by.map()), Ok(peers));
        }
        Ok(())
    });
}
