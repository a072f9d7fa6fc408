//! Maps, addresses and lists of candidates, the same in every run.
use maps::lists::{apart, first_of, RECORD};
use maps::{rewrite, shapes, Node, Random, Tree};
use std::collections::{BTreeSet, HashSet};
use std::net::{IpAddr, Ipv4Addr, Ipv6Addr, SocketAddr};

const SEED: u64 = 1;

/// Of another seed: maps of the same shapes and about the same sizes that have nothing else in common.
const OTHER: u64 = 101;

pub fn real(bytes: usize) -> Vec<u8> {
    shapes::real(&mut Random(SEED), bytes)
}

pub fn other_real(bytes: usize) -> Vec<u8> {
    shapes::real(&mut Random(OTHER), bytes)
}

/// Name and bytes: real shapes by size, then the worst shapes.
pub fn maps() -> Vec<(String, Vec<u8>)> {
    shaped(SEED, [&[0, 0, 0], crate::asmap::TWO_PREFIX_ASMAP])
}

/// The same by a seed; the two smallest are given.
fn shaped(seed: u64, [lone, small]: [&[u8]; 2]) -> Vec<(String, Vec<u8>)> {
    let mut maps: Vec<(String, Vec<u8>)> = [1_000, 10_000, 100_000, 1_500_000, 16_000_000]
        .iter()
        .map(|&bytes| shapes::real(&mut Random(seed), bytes))
        .map(|map| (format!("real, {} bytes", map.len()), map))
        .collect();
    let random = &mut Random(seed);
    for (name, map) in [
        ("one RETURN", lone.to_vec()),
        ("two prefixes", small.to_vec()),
        ("nothing but jumps, 6 deep", shapes::jumps(random, 6)),
        ("nothing but jumps, 18 deep", shapes::jumps(random, 18)),
        ("two-bit matches, 17 deep", shapes::two_bit_matches(random, 17)),
        ("128 jumps open", shapes::comb(random, 128, false)),
        ("128 jumps, one open", shapes::comb(random, 128, true)),
    ] {
        maps.push((format!("{name}, {} bytes", map.len()), map));
    }
    maps
}

/// Maps over 32 address bits: the IPv4 trees of real maps by size, then the worst shapes.
pub fn narrow() -> Vec<(String, Vec<u8>)> {
    let random = &mut Random(SEED);
    let mut maps: Vec<(&str, Vec<u8>)> = [1_000, 10_000, 100_000, 1_500_000, 16_000_000]
        .iter()
        .map(|&bytes| ("IPv4 tree", shapes::ipv4(&mut Random(SEED), bytes)))
        .collect();
    maps.extend([
        ("nothing but jumps, 18 deep", shapes::jumps(random, 18)),
        ("two-bit matches, 10 deep", shapes::two_bit_matches(random, 10)),
        ("32 jumps open", shapes::comb(random, 32, false)),
        ("32 jumps, one open", shapes::comb(random, 32, true)),
    ]);
    maps.into_iter().map(|(name, map)| (format!("{name}, {} bytes", map.len()), map)).collect()
}

/// The loads of so many pairs from the seeds 1 to `seeds`, each with the address that reads it to its end.
pub fn loads(pairs: usize, seeds: u64) -> Vec<(Vec<u8>, [u8; 16])> {
    let load = |seed| (corbastrigo::load(seed, pairs), corbastrigo::load_address(seed, pairs));
    let made = (corbastrigo::Generator::DEFAULT_SEED..=seeds).map(load);
    made.map(|(map, address)| (map.expect("a load"), address.expect("its address"))).collect()
}

/// So many prefixes of one length around drawn addresses, each with a number as they are given out.
fn drawn_list(count: usize, length: u32, address: impl Fn(&mut Random) -> u128) -> Vec<u8> {
    let random = &mut Random(SEED + 8);
    let (mut met, mut prefixes) = (BTreeSet::new(), Vec::with_capacity(count));
    while prefixes.len() < count {
        let first = first_of(address(random), length);
        if met.insert(first) {
            prefixes.push((first, length, 1 + random.below(400_000) as u32));
        }
    }
    apart(prefixes)
}

/// What a map lists at a width, without the number 0, which no map that is built has.
fn listed_again(map: &[u8], width: u32) -> Vec<u8> {
    let listed = corbastrigo::list_bits(map, width).expect("the shapes are accepted");
    listed.chunks(RECORD).filter(|record| record[20..] != [0; 4]).collect::<Vec<&[u8]>>().concat()
}

/// Lists of prefixes to build maps from, each with its name and its width: prefixes of IPv4, mapped and alone, and of IPv6, few and many;
/// single addresses, whose map is about as long as a map may be; and what maps list.
pub fn lists() -> Vec<(String, u32, Vec<u8>)> {
    let mapped = |random: &mut Random| u128::from(ipv4(random).to_ipv6_mapped());
    let alone = |random: &mut Random| u128::from(u32::from(ipv4(random))) << 96;
    let wide = |random: &mut Random| u128::from(ipv6(random));
    let mut lists = vec![(String::from("nothing"), 128, vec![])];
    for count in [1, 10, 100, 1_000, 10_000, 100_000] {
        lists.push((String::from("mapped IPv4 /24"), 128, drawn_list(count, 96 + 24, mapped)));
    }
    for (name, width, records) in [
        ("IPv6 /48", 128, drawn_list(100_000, 48, wide)),
        ("IPv4 /24 at 32", 32, drawn_list(100_000, 24, alone)),
        ("IPv6 addresses", 128, drawn_list(37_000, 128, wide)),
        ("what a real map lists", 128, listed_again(&real(1_500_000), 128)),
        ("what an IPv4 tree lists at 32", 32, listed_again(&shapes::ipv4(&mut Random(SEED), 1_500_000), 32)),
    ] {
        lists.push((String::from(name), width, records));
    }
    lists
}

/// Two more for the listing, since real maps of 1.6 MB have about 850,000 prefixes: one of that size and one of about that many prefixes.
pub fn listed() -> [(String, Vec<u8>); 2] {
    listed_by(SEED)
}

fn listed_by(seed: u64) -> [(String, Vec<u8>); 2] {
    let (joined, real) = (shapes::exactly(&mut Random(seed), 1_600_000), shapes::real(&mut Random(seed), 2_800_000));
    [(format!("trees joined, {} bytes", joined.len()), joined), (format!("real, {} bytes", real.len()), real)]
}

/// A map with another number in one RETURN or DEFAULT of so many, and in one at least. It has as many bits, and all else is as it was.
pub fn renumbered(map: &[u8], one_in: usize) -> Vec<u8> {
    let mut records = corbastrigo::unpack(map).expect("the shapes are accepted");
    let has_number = |record: &&mut [u8]| matches!(u32::from(record[0]), maps::RETURN | maps::DEFAULT);
    let numbers = records.chunks_mut(16).filter(has_number).count();
    let step = one_in.min(numbers);
    for record in records.chunks_mut(16).filter(has_number).skip(step / 2).step_by(step) {
        let number = u32::from_le_bytes(record[4..8].try_into().expect("4 bytes"));
        record[4..8].copy_from_slice(&rewrite::renumbered(number).to_le_bytes());
    }
    corbastrigo::pack(&records).expect("records of a map")
}

/// A shape's name, a map of it, and the maps that it is compared with, each with its name.
pub type Compared = (String, Vec<u8>, Vec<(&'static str, Vec<u8>)>);

/// Where a map has so few numbers that one in a thousand is one, that stands once.
pub fn compared() -> impl Iterator<Item = Compared> {
    let maps = maps().into_iter().chain(listed());
    let others = shaped(OTHER, [&[0, 0, 1], crate::asmap::LOOPBACK_ASMAP]).into_iter().chain(listed_by(OTHER));
    maps.zip(others).map(|((name, map), (_, other))| {
        let mut with = vec![
            ("itself", map.clone()),
            ("one number changed", renumbered(&map, usize::MAX)),
            ("one in 1,000 numbers changed", renumbered(&map, 1_000)),
            ("an unrelated one", other),
        ];
        with.dedup_by(|(_, next), (_, before)| next == before);
        (name, map, with)
    })
}

pub fn ipv4(random: &mut Random) -> Ipv4Addr {
    Ipv4Addr::from(random.next() as u32)
}

/// An address of 2000::/3.
pub fn ipv6(random: &mut Random) -> Ipv6Addr {
    let mut octets = random.address();
    octets[0] = octets[0] % 32 + 32;
    Ipv6Addr::from(octets)
}

/// Addresses of which so many in a hundred are of IPv6.
pub fn addresses(v6: u64, count: usize) -> Vec<[u8; 16]> {
    let random = &mut Random(SEED + 1);
    let address = |random: &mut Random| match v6 == 100 || v6 > 0 && random.percent(v6) {
        true => ipv6(random).octets(),
        false => ipv4(random).to_ipv6_mapped().octets(),
    };
    (0..count).map(|_| address(random)).collect()
}

/// IPv4 addresses, each its four bytes and twelve zeros.
pub fn narrow_addresses(count: usize) -> Vec<[u8; 16]> {
    let random = &mut Random(SEED + 1);
    (0..count).map(|_| (u128::from(u32::from(ipv4(random))) << 96).to_be_bytes()).collect()
}

/// Candidates, one in five of IPv6.
pub fn candidates(count: usize) -> Vec<SocketAddr> {
    let random = &mut Random(SEED + 2);
    let ip = |random: &mut Random| match random.percent(20) {
        true => IpAddr::from(ipv6(random)),
        false => IpAddr::from(ipv4(random)),
    };
    (0..count).map(|_| SocketAddr::new(ip(random), 8333)).collect()
}

/// Candidates of one kind: of IPv4, of IPv4 in its mapped form, as dual-stack sockets report it, and of IPv6.
pub fn of_each_kind(count: usize) -> [(&'static str, Vec<SocketAddr>); 3] {
    let of = |kind: fn(&mut Random) -> IpAddr| {
        let random = &mut Random(SEED + 2);
        (0..count).map(|_| SocketAddr::new(kind(random), 8333)).collect()
    };
    [
        ("IPv4", of(|random| ipv4(random).into())),
        ("mapped", of(|random| ipv4(random).to_ipv6_mapped().into())),
        ("IPv6", of(|random| ipv6(random).into())),
    ]
}

/// Candidates, of which the IPv4 ones have their mapped form.
pub fn dual_stack(mut candidates: Vec<SocketAddr>) -> Vec<SocketAddr> {
    for peer in &mut candidates {
        if let IpAddr::V4(ip) = peer.ip() {
            peer.set_ip(ip.to_ipv6_mapped().into());
        }
    }
    candidates
}

/// Document 02's numbering of prefixes (CR 7), as a program in Rust would have it: the original has the old one.
pub fn new_group(peer: SocketAddr) -> u64 {
    match peer.ip().to_canonical() {
        IpAddr::V4(ip) => (1 << 32) + u64::from(u32::from(ip) >> 16),
        IpAddr::V6(ip) => (u128::from(ip) >> 96) as u64,
    }
}

/// Candidates as the library takes them.
pub fn packed(candidates: &[SocketAddr]) -> Vec<u8> {
    let mut bytes = Vec::with_capacity(20 * candidates.len());
    for addr in candidates {
        bytes.extend([if addr.is_ipv4() { 4 } else { 6 }, 0]);
        bytes.extend(corbastrigo::ip16_for_lookup(addr.ip()));
        bytes.extend(addr.port().to_be_bytes());
    }
    bytes
}

/// Occupied groups that are those of other candidates, so that some candidates meet them.
pub fn occupied(count: usize, group_of: impl Fn(SocketAddr) -> u64) -> HashSet<u64> {
    let random = &mut Random(SEED + 3);
    let mut groups = HashSet::new();
    while groups.len() < count {
        let met = group_of(SocketAddr::new(IpAddr::from(ipv4(random)), 8333));
        // A map or prefixes may have fewer groups than are asked for: then numbers that no address has.
        if !groups.insert(met) {
            groups.insert(1 << 40 | random.below(1 << 30));
        }
    }
    groups
}

/// Eight groups, and candidates of no other: addresses near eight drawn ones.
pub fn of_eight_groups(count: usize, group_of: impl Fn(SocketAddr) -> u64) -> (Vec<u64>, Vec<SocketAddr>) {
    let random = &mut Random(SEED + 4);
    let peer = |address: u32| SocketAddr::new(IpAddr::from(Ipv4Addr::from(address)), 8333);
    let (mut groups, mut firsts) = (Vec::new(), Vec::new());
    while groups.len() < 8 {
        let address = random.next() as u32;
        let group = group_of(peer(address));
        if !groups.contains(&group) {
            groups.push(group);
            firsts.push(address);
        }
    }
    // A tree, and no hash set: hash sets of two types would share the hasher, which the compiler then no longer puts into the original's pick.
    let mut near = BTreeSet::new();
    let mut candidates = Vec::new();
    while candidates.len() < count {
        let address = firsts[random.below(8) as usize] ^ random.below(1 << 16) as u32;
        if groups.contains(&group_of(peer(address))) && near.insert(address) {
            candidates.push(peer(address));
        }
    }
    (groups, candidates)
}

/// Candidates of which no two have the same group, in the order in which they were drawn.
pub fn of_each_group(count: usize, group_of: impl Fn(SocketAddr) -> u64) -> Vec<SocketAddr> {
    let random = &mut Random(SEED + 6);
    let (mut met, mut candidates) = (BTreeSet::new(), Vec::new());
    while candidates.len() < count {
        let peer = SocketAddr::new(IpAddr::from(ipv4(random)), 8333);
        if met.insert(group_of(peer)) {
            candidates.push(peer);
        }
    }
    candidates
}

/// Candidates that differ in their ports alone.
pub fn of_one_group(count: u16) -> Vec<SocketAddr> {
    let ip = IpAddr::from(ipv4(&mut Random(SEED + 6)));
    (1..=count).map(|port| SocketAddr::new(ip, port)).collect()
}

/// What is drawn without putting back, until nothing is left.
fn mixed<T>(mut all: Vec<T>, random: &mut Random) -> Vec<T> {
    for left in (1..all.len()).rev() {
        all.swap(left, random.below(left as u64 + 1) as usize);
    }
    all
}

/// The shortest walks that tell 4,096 groups apart: a map of JUMPs alone over the first 12 address bits, and a candidate for each of its leaves.
/// Their numbers are spread over all that a map can have, 1 to 33,521,664. No order is that of another: of leaves, numbers, candidates.
pub fn of_each_leaf() -> (Vec<u8>, Vec<SocketAddr>) {
    let random = &mut Random(SEED + 7);
    let numbers = (0..4_096).map(|part| 1 + 8_184 * part + random.below(8_184) as u32).collect();
    let mut tree = Tree::default();
    let mut row: Vec<usize> = mixed(numbers, random).into_iter().map(|number| tree.push(Node::Return(number))).collect();
    while row.len() > 1 {
        row = row.chunks(2).map(|pair| tree.push(Node::Jump(pair[0], pair[1]))).collect();
    }
    let address = |leaf: u128| Ipv6Addr::from(leaf << 116 | 1 << 115);
    let candidates = (0..4_096).map(|leaf| SocketAddr::new(IpAddr::from(address(leaf)), 8333)).collect();
    (tree.bytes(row[0]), mixed(candidates, random))
}

/// Groups that are not among those given, in the order in which they were drawn: those of other candidates.
pub fn other_groups(count: usize, met: &HashSet<u64>, group_of: impl Fn(SocketAddr) -> u64) -> Vec<u64> {
    let random = &mut Random(SEED + 5);
    let mut known = met.clone();
    let mut groups = Vec::new();
    while groups.len() < count {
        let met = group_of(SocketAddr::new(IpAddr::from(ipv4(random)), 8333));
        // As above: a map may have fewer groups than are asked for.
        groups.extend([met, 1 << 40 | random.below(1 << 30)].into_iter().find(|&group| known.insert(group)));
    }
    groups
}

/// Candidates of different groups by their prefixes, which all are the same modulo 4,096.
pub fn alike(count: usize) -> Vec<SocketAddr> {
    let address = |i: usize| Ipv6Addr::from(u128::from(i as u32 * 4_096) << 96);
    (0..count).map(|i| SocketAddr::new(IpAddr::from(address(i)), 8333)).collect()
}
