//! Groups without a map by other ways than `picks` has: from the text of an address, and from where it lies among all addresses. Both
//! numberings are asked, the old one of the original.
use maps::Random;
use oracle::picks::{pick, By, Groups};
use std::collections::HashSet;
use std::net::{IpAddr, Ipv4Addr, Ipv6Addr};

/// The addresses of the mapped form, as numbers: the first, and the first behind them.
const MAPPED: [u128; 2] = [0xffff_0000_0000, 0x1_0000_0000_0000];

/// A candidate with the port 8333.
fn candidate(family: u8, address: Ipv6Addr) -> Vec<u8> {
    [&[family, 0][..], &address.octets(), &[0x20, 0x8d]].concat()
}

fn group(by: By, candidate: &[u8]) -> u64 {
    Groups::new(by).group(candidate).expect("a candidate that is one")
}

/// By the new numbering and by the old.
fn groups(ip: IpAddr) -> [u64; 2] {
    let bytes = match ip {
        IpAddr::V4(ip) => candidate(4, ip.to_ipv6_mapped()),
        IpAddr::V6(ip) => candidate(6, ip),
    };
    [By::Prefixes, By::OldPrefixes].map(|by| group(by, &bytes))
}

fn groups_of(text: &str) -> [u64; 2] {
    groups(text.parse().expect("an address"))
}

/// The numbers between dots or colons.
fn numbers(text: &str, radix: u32) -> Vec<u64> {
    text.split(['.', ':']).map(|number| u64::from_str_radix(number, radix).expect("a number")).collect()
}

/// An IPv4 address is written with dots, alone or behind the front that all mapped ones have; of any other the text has eight numbers, of
/// which the first two are four bytes.
fn by_text(ip: IpAddr) -> u64 {
    let text = ip.to_string();
    let dotted = text.strip_prefix("::ffff:").unwrap_or(&text);
    if dotted.split('.').count() == 4 && !dotted.contains(':') {
        let parts = numbers(dotted, 10);
        return 4_294_967_296 + 256 * parts[0] + parts[1];
    }
    let IpAddr::V6(ip) = ip else { unreachable!("every IPv4 address has dots") };
    let parts = numbers(&ip.segments().map(|part| format!("{part:x}")).join(":"), 16);
    65_536 * parts[0] + parts[1]
}

/// All mapped addresses lie behind one another, each group's 65,536 of them too; of all others a group's lie between two multiples of 2^96.
fn by_place(address: Ipv6Addr) -> u64 {
    let place = u128::from(address);
    let (of_its_kind, first) =
        if (MAPPED[0]..MAPPED[1]).contains(&place) { ((place - MAPPED[0]) >> 16, 1 << 32) } else { (place >> 96, 0) };
    first + of_its_kind as u64
}

fn hold(address: Ipv6Addr) {
    let [new, old] = groups(address.into());
    assert_eq!(new, by_text(address.into()), "{address}");
    assert_eq!(new, by_place(address), "{address}");
    match address.to_ipv4_mapped() {
        None => assert_eq!(new, old, "{address} keeps its number"),
        Some(ip) => {
            let [alone, before] = groups(ip.into());
            assert_eq!([new, new], [alone, by_text(ip.into())], "{ip} in both forms");
            assert_eq!(new, 4_294_967_296 + before, "{ip}");
            assert_eq!(old, 0, "the old numbering does not tell mapped addresses apart");
        }
    }
}

#[test]
fn what_the_request_says() {
    assert_eq!(groups_of("1.2.0.0"), [4_294_967_554, 258]);
    assert_eq!(groups_of("::ffff:1.2.0.0"), [4_294_967_554, 0]);
    assert_eq!(groups_of("0:102::"), [258, 258]);
    assert_eq!(groups_of("::"), [0, 0]);
    assert_eq!(groups_of("0.0.0.0"), [4_294_967_296, 0]);
    assert_eq!(groups_of("255.255.255.255"), [4_295_032_831, 65_535]);
    assert_eq!(groups_of("ffff:ffff::"), [4_294_967_295, 4_294_967_295]);
}

#[test]
fn other_ways_come_to_the_same() {
    let random = &mut Random(7);
    for _ in 0..20_000 {
        let drawn = Ipv6Addr::from(random.address());
        hold(drawn);
        hold(Ipv4Addr::from(random.next() as u32).to_ipv6_mapped());
        hold(Ipv6Addr::from(u128::from(drawn) >> random.below(128)));
    }
}

#[test]
fn only_the_whole_front_is_the_mapped_one() {
    let random = &mut Random(8);
    for bit in 0..96 {
        let mapped = u128::from(Ipv4Addr::from(random.next() as u32).to_ipv6_mapped());
        hold(Ipv6Addr::from(mapped));
        let other = Ipv6Addr::from(mapped ^ 1 << (127 - bit));
        hold(other);
        assert!(groups(other.into())[0] < 4_294_967_296, "{other}");
    }
    for place in MAPPED {
        hold(Ipv6Addr::from(place - 1));
        hold(Ipv6Addr::from(place));
    }
}

/// "A number range to themselves": a group for each two bytes and no more, and all of them above those of IPv6.
#[test]
fn each_two_bytes_have_a_group_to_themselves() {
    let random = &mut Random(9);
    let mut met = HashSet::new();
    for prefix in 0..65_536 {
        let [first, drawn, last] =
            [0, random.below(65_536) as u32, 65_535].map(|rest| Ipv4Addr::from(65_536 * prefix + rest)).map(|ip| {
                hold(ip.to_ipv6_mapped());
                groups(ip.into())[0]
            });
        assert_eq!([first, first], [drawn, last], "{prefix}");
        assert!(first > groups_of("ffff:ffff:ffff:ffff:ffff:ffff:ffff:ffff")[0] && met.insert(first), "{prefix}");
    }
}

/// Both candidates had group 0, which is occupied, so that the first was filled in; by the new numbering the second has a group of its own.
#[test]
fn a_pick_that_tells_the_numberings_apart() {
    let ranked = [candidate(6, Ipv6Addr::UNSPECIFIED), candidate(4, Ipv4Addr::UNSPECIFIED.to_ipv6_mapped())].concat();
    for (by, place, groups) in [(By::OldPrefixes, 0, vec![]), (By::Prefixes, 1, vec![4_294_967_296])] {
        let made = pick(&ranked, &[0], 1, &Groups::new(by), [1, 1]).expect("nothing that is refused");
        assert_eq!((made.places, made.groups, made.examined), (vec![place], groups, 2));
    }
}

#[test]
fn a_candidate_that_is_none_has_no_group() {
    let mapped = Ipv4Addr::LOCALHOST.to_ipv6_mapped();
    for wrong in [candidate(5, mapped), candidate(4, Ipv6Addr::LOCALHOST), candidate(4, mapped)[..19].to_vec()] {
        for by in [By::Prefixes, By::OldPrefixes] {
            assert_eq!(Groups::new(by).group(&wrong), Err(13));
        }
    }
}
