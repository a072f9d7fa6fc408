//! Filters: around both ends of every range, in every form that holds an IPv4 address, and at random.
use crate::calls::{self, BEFORE};
use crate::tally::Tally;
use crate::Form;
use maps::Random;
use oracle::filters::{message, IPV4, IPV6};
use oracle::netaddr;
use std::net::{IpAddr, Ipv6Addr};

/// Numbers around both ends of a range, as many bits wide as the family has.
fn around(start: u128, prefix: u32, width: u32) -> Vec<u128> {
    let size = if prefix == 0 { 0 } else { 1u128 << (width - prefix) };
    [start, start.wrapping_add(size)]
        .iter()
        .flat_map(|&end| [end.wrapping_sub(2), end.wrapping_sub(1), end, end.wrapping_add(1), end.wrapping_add(2)])
        .collect()
}

fn ipv4_edges() -> Vec<u32> {
    let edges = |(start, prefix): ([u8; 4], u32)| around(u128::from(u32::from_be_bytes(start)), prefix, 32);
    IPV4.into_iter().flat_map(edges).map(|n| n as u32).collect()
}

/// The forms that hold an IPv4 address, with zeros elsewhere.
fn holding(v4: u32) -> [u128; 7] {
    let low = u128::from(v4);
    let text = |text: &str| u128::from(text.parse::<Ipv6Addr>().expect("an address"));
    [
        text("::ffff:0:0") | low,
        text("::ffff:0:0:0") | low,
        low,
        text("64:ff9b::") | low,
        text("64:ff9b:1::") | low,
        text("2002::") | low << 80,
        text("2001:0::") | low,
    ]
}

fn filter(tally: &mut Tally, number: u128) {
    let octets = number.to_be_bytes();
    let v6 = Ipv6Addr::from(number);
    let expected = netaddr::clearnet_unroutable(IpAddr::V6(v6));
    if let Some(v4) = v6.to_ipv4_mapped() {
        assert_eq!(expected, netaddr::clearnet_unroutable(IpAddr::V4(v4)));
    }
    tally.same("unroutable", &v6, calls::clearnet_unroutable(&octets), (0, u8::from(expected)));
}

fn relay(tally: &mut Tally, id: u8, bytes: &[u8], port: u16) {
    let expected = match message(id, bytes, port) {
        Some(message) => (0, u8::from(netaddr::addrv2_skip_relay(&message))),
        None => (17, BEFORE),
    };
    tally.same("relay", &(id, bytes, port), calls::addrv2_skip_relay(id, bytes, port), expected);
}

fn relays(tally: &mut Tally, number: u128) {
    let octets = number.to_be_bytes();
    for port in [0, 1, 8333] {
        relay(tally, 1, &octets[12..], port);
        relay(tally, 2, &octets, port);
        relay(tally, 6, &octets, port);
    }
}

/// An address near the ranges: a range's first bits, then zeros or anything.
fn near(random: &mut Random) -> u128 {
    let (text, prefix) = IPV6[random.below(IPV6.len() as u64) as usize];
    let start = u128::from(text.parse::<Ipv6Addr>().expect("an address"));
    let free = u128::from_be_bytes(random.address());
    let kept = (prefix + random.below(40) as u32).min(127);
    let flipped = if random.percent(30) { 1 << random.below(128) } else { 0 };
    (start | free >> kept) ^ flipped
}

pub fn run(tally: &mut Tally, random: &mut Random, form: Form) {
    for (text, prefix) in IPV6 {
        let start = u128::from(text.parse::<Ipv6Addr>().expect("an address"));
        for number in around(start, prefix, 128) {
            filter(tally, number);
            relays(tally, number);
            // Each bit of it flipped.
            (0..128).for_each(|bit| filter(tally, number ^ 1 << bit));
        }
    }
    let drawn: Vec<u32> = (0..form.choose(20_000, 400_000)).map(|_| random.next() as u32).collect();
    for v4 in ipv4_edges().into_iter().chain(drawn) {
        for number in holding(v4) {
            filter(tally, number);
            // One of the bits that must be zero.
            filter(tally, number ^ 1 << random.below(112));
        }
        relays(tally, u128::from(v4));
    }
    for _ in 0..form.choose(200_000, 4_000_000) {
        let number = near(random);
        filter(tally, number);
        relay(tally, 2, &number.to_be_bytes(), random.below(2) as u16);
    }
    lengths(tally, random);
}

/// Every id with every length up to 40, and around 512; addresses of other lengths than 16.
fn lengths(tally: &mut Tally, random: &mut Random) {
    for id in 0..=255 {
        for length in (0..=40).chain(510..=514) {
            let bytes = random.bytes(length);
            (0..2).for_each(|port| relay(tally, id, &bytes, port));
        }
    }
    for length in (0..200).filter(|&length| length != 16) {
        let bytes = random.bytes(length);
        tally.same("unroutable", &bytes, calls::clearnet_unroutable(&bytes), (11, BEFORE));
    }
}
