//! The ranges of the address filter, in its order, with their names: for display. Whether an address is routable is the library's to say;
//! until it says the row itself, the row is found here, and `asmap filter` shows none that comes to another answer.
use std::net::{IpAddr, Ipv4Addr, Ipv6Addr};
use std::ops::Range;

/// What the filter says of the addresses of a range.
#[derive(Clone, Debug, PartialEq, Eq)]
pub enum Follows {
    Routable,
    Unroutable,
    /// As of the IPv4 address whose first byte stands there.
    By(usize),
    /// Unroutable where one of these bytes is not zero, else as of the IPv4 address there.
    Unless(Range<usize>, usize),
}
use Follows::{By, Routable, Unless, Unroutable};

/// A row: the range, what it is for, where that is written, and what follows.
#[derive(Clone, Debug, PartialEq, Eq)]
pub struct Row {
    pub range: &'static str,
    pub name: &'static str,
    pub source: &'static str,
    follows: Follows,
}

const fn row(range: &'static str, name: &'static str, source: &'static str, follows: Follows) -> Row {
    Row { range, name, source, follows }
}

/// All of them are unroutable, so that their order shows nowhere.
static IPV4: [Row; 13] = [
    row("0.0.0.0/8", "this network", "RFC 791", Unroutable),
    row("10.0.0.0/8", "private use", "RFC 1918", Unroutable),
    row("100.64.0.0/10", "shared address space", "RFC 6598", Unroutable),
    row("127.0.0.0/8", "loopback", "RFC 1122", Unroutable),
    row("169.254.0.0/16", "link local", "RFC 3927", Unroutable),
    row("172.16.0.0/12", "private use", "RFC 1918", Unroutable),
    row("192.0.2.0/24", "documentation, TEST-NET-1", "RFC 5737", Unroutable),
    row("192.168.0.0/16", "private use", "RFC 1918", Unroutable),
    row("198.18.0.0/15", "benchmarking", "RFC 2544", Unroutable),
    row("198.51.100.0/24", "documentation, TEST-NET-2", "RFC 5737", Unroutable),
    row("203.0.113.0/24", "documentation, TEST-NET-3", "RFC 5737", Unroutable),
    row("224.0.0.0/4", "multicast", "RFC 5771", Unroutable),
    row("240.0.0.0/4", "reserved", "RFC 1112", Unroutable),
];

/// The first that has the address decides.
static IPV6: [Row; 18] = [
    row("fc00::/8", "CJDNS, a network of its own", "BIP 155", Routable),
    row("::ffff:0:0/96", "IPv4-mapped", "RFC 4291", By(12)),
    row("::1/128", "loopback", "RFC 4291", Unroutable),
    row("fe80::/10", "link local", "RFC 4291", Unroutable),
    row("fd00::/8", "unique local", "RFC 4193", Unroutable),
    row("ff00::/8", "multicast", "RFC 4291", Unroutable),
    row("2001:db8::/32", "documentation", "RFC 3849", Unroutable),
    row("3fff::/20", "documentation", "RFC 9637", Unroutable),
    row("2001:10::/28", "ORCHID", "RFC 4843", Unroutable),
    row("2001:20::/28", "ORCHIDv2", "RFC 7343", Unroutable),
    row("2001:2::/48", "benchmarking", "RFC 5180", Unroutable),
    row("100::/64", "discard only", "RFC 6666", Unroutable),
    row("2001::/32", "Teredo", "RFC 4380", Unroutable),
    row("2002::/16", "6to4", "RFC 3056", Unless(6..16, 2)),
    row("64:ff9b::/96", "NAT64", "RFC 6052", By(12)),
    row("::ffff:0:0:0/96", "IPv4-translated", "RFC 2765", By(12)),
    row("::/96", "IPv4-compatible", "RFC 4291", By(12)),
    row("64:ff9b:1::/48", "local NAT64", "RFC 8215", Unless(6..12, 12)),
];

impl Row {
    fn shown(&self) -> String {
        format!("{}, {} ({})", self.range, self.name, self.source)
    }
}

/// A row that may be missing, in words.
fn shown(row: Option<&Row>) -> String {
    row.map_or(String::from("in no range of the filter"), Row::shown)
}

/// The row that decides of an address, and what it comes to.
#[derive(Clone, Debug, PartialEq, Eq)]
pub struct Decided {
    pub unroutable: bool,
    pub row: Option<&'static Row>,
    /// The bytes of which one is not zero, where that decides.
    pub not_zero: Option<Range<usize>>,
    /// The IPv4 address that an IPv6 row goes by, and its own row.
    pub ipv4: Option<(Ipv4Addr, Option<&'static Row>)>,
}

impl Decided {
    pub fn shown(&self) -> String {
        let row = shown(self.row);
        match (&self.not_zero, self.ipv4) {
            (Some(bytes), _) => format!("{row}: one of its bytes {} to {} is not zero", bytes.start, bytes.end - 1),
            (None, Some((ipv4, by))) => format!("{row}: by its IPv4 address {ipv4}, {}", shown(by)),
            (None, None) => row,
        }
    }
}

/// A range as numbers: its first address, and how many of the last bits are free.
struct Prefix {
    first: u128,
    free: u32,
}

impl Prefix {
    /// IPv4 in its mapped form.
    fn of(range: &str) -> Option<Prefix> {
        let (first, length) = range.split_once('/')?;
        let length: u32 = length.parse().ok()?;
        match first.parse().ok()? {
            IpAddr::V4(first) => Some(Prefix { first: first.to_ipv6_mapped().into(), free: 32 - length }),
            IpAddr::V6(first) => Some(Prefix { first: first.into(), free: 128 - length }),
        }
    }

    fn has(&self, address: u128) -> bool {
        (self.first ^ address) >> self.free == 0
    }
}

/// The rows, ready to be asked.
pub struct Ranges {
    ipv4: Vec<(Prefix, &'static Row)>,
    ipv6: Vec<(Prefix, &'static Row)>,
}

impl Ranges {
    pub fn new() -> Ranges {
        let ready = |rows: &'static [Row]| rows.iter().filter_map(|row| Some((Prefix::of(row.range)?, row))).collect();
        Ranges { ipv4: ready(&IPV4), ipv6: ready(&IPV6) }
    }

    pub fn decide(&self, ip: IpAddr) -> Decided {
        let (address, row) = match ip {
            IpAddr::V4(ipv4) => {
                let row = self.ipv4_row(ipv4);
                return Decided { unroutable: row.is_some(), row, not_zero: None, ipv4: None };
            }
            IpAddr::V6(ipv6) => (ipv6, first(&self.ipv6, ipv6)),
        };
        let bytes = address.octets();
        match row.map_or(&Routable, |row| &row.follows) {
            Routable => Decided { unroutable: false, row, not_zero: None, ipv4: None },
            Unroutable => Decided { unroutable: true, row, not_zero: None, ipv4: None },
            Unless(zero, _) if bytes[zero.clone()] != [0; 16][zero.clone()] => {
                Decided { unroutable: true, row, not_zero: Some(zero.clone()), ipv4: None }
            }
            By(place) | Unless(_, place) => {
                let ipv4 = Ipv4Addr::new(bytes[*place], bytes[place + 1], bytes[place + 2], bytes[place + 3]);
                let by = self.ipv4_row(ipv4);
                Decided { unroutable: by.is_some(), row, not_zero: None, ipv4: Some((ipv4, by)) }
            }
        }
    }

    fn ipv4_row(&self, ipv4: Ipv4Addr) -> Option<&'static Row> {
        first(&self.ipv4, ipv4.to_ipv6_mapped())
    }
}

fn first(rows: &[(Prefix, &'static Row)], address: Ipv6Addr) -> Option<&'static Row> {
    rows.iter().find(|(prefix, _)| prefix.has(address.into())).map(|(_, row)| *row)
}

#[cfg(test)]
mod tests {
    use super::*;
    use corbastrigo::clearnet_unroutable;

    /// Numbers that look random and are the same in every run (SplitMix64).
    struct Random(u64);

    impl Random {
        fn next(&mut self) -> u64 {
            self.0 = self.0.wrapping_add(0x9e37_79b9_7f4a_7c15);
            let mut z = self.0;
            z = (z ^ (z >> 30)).wrapping_mul(0xbf58_476d_1ce4_e5b9);
            z = (z ^ (z >> 27)).wrapping_mul(0x94d0_49bb_1331_11eb);
            z ^ (z >> 31)
        }

        fn address(&mut self) -> u128 {
            u128::from(self.next()) << 64 | u128::from(self.next())
        }
    }

    /// Table and library agree on an address, and on it as IPv4 where it is mapped.
    fn agree(ranges: &Ranges, address: u128) {
        let ipv6 = Ipv6Addr::from(address);
        let forms = [Some(IpAddr::V6(ipv6)), ipv6.to_ipv4_mapped().map(IpAddr::V4)];
        for ip in forms.into_iter().flatten() {
            let decided = ranges.decide(ip);
            assert_eq!(decided.unroutable, clearnet_unroutable(ip), "{ip}: {decided:?}");
        }
    }

    /// The forms in which an IPv6 address holds an IPv4 address.
    fn holding(ipv4: u128) -> [u128; 6] {
        let prefix = |text: &str| u128::from(text.parse::<Ipv6Addr>().expect("an address"));
        let last = ["::ffff:0:0", "64:ff9b::", "::ffff:0:0:0", "::", "64:ff9b:1::"].map(|text| prefix(text) | ipv4);
        [last[0], last[1], last[2], last[3], last[4], prefix("2002::") | ipv4 << 80]
    }

    #[test]
    fn every_row_is_ready() {
        let ranges = Ranges::new();
        assert_eq!((ranges.ipv4.len(), ranges.ipv6.len()), (IPV4.len(), IPV6.len()));
        for (prefix, row) in ranges.ipv4.iter().chain(&ranges.ipv6) {
            let free = (1_u128 << prefix.free) - 1;
            assert_eq!(prefix.first & free, 0, "{} has bits below its length", row.range);
        }
    }

    #[test]
    fn table_and_library_agree_at_the_edges_of_each_range() {
        let ranges = Ranges::new();
        for (prefix, _) in ranges.ipv4.iter().chain(&ranges.ipv6) {
            let last = prefix.first | ((1_u128 << prefix.free) - 1);
            for edge in [prefix.first.wrapping_sub(1), prefix.first, last, last.wrapping_add(1)] {
                agree(&ranges, edge);
                for form in holding(edge & 0xffff_ffff) {
                    agree(&ranges, form);
                    // Each bit turned over, so that bytes which must be zero are not.
                    (0..128).for_each(|bit| agree(&ranges, form ^ 1 << bit));
                }
            }
        }
    }

    #[test]
    fn table_and_library_agree_on_random_addresses() {
        let ranges = Ranges::new();
        let mut random = Random(1);
        let mut unroutable = 0;
        for _ in 0..100_000 {
            let address = random.address();
            agree(&ranges, address);
            // Few random addresses are in a range: so also one in a random range, and one that holds a random IPv4 address.
            let (prefix, _) = &ranges.ipv6[random.next() as usize % IPV6.len()];
            agree(&ranges, prefix.first | (address & ((1 << prefix.free) - 1)));
            let held = holding(address & 0xffff_ffff)[random.next() as usize % 6];
            agree(&ranges, held);
            unroutable += u32::from(clearnet_unroutable(Ipv6Addr::from(held).into()));
        }
        assert!((10_000..90_000).contains(&unroutable), "{unroutable} unroutable addresses are no test");
    }

    #[test]
    fn the_first_row_decides() {
        let ranges = Ranges::new();
        let decided = |word: &str| ranges.decide(word.parse().expect("an address")).shown();
        assert_eq!(decided("2001:10::1"), "2001:10::/28, ORCHID (RFC 4843)");
        assert_eq!(decided("2001:2::1"), "2001:2::/48, benchmarking (RFC 5180)");
        assert_eq!(decided("2001::1"), "2001::/32, Teredo (RFC 4380)");
        assert_eq!(decided("::1"), "::1/128, loopback (RFC 4291)");
        assert_eq!(
            decided("::2"),
            "::/96, IPv4-compatible (RFC 4291): by its IPv4 address 0.0.0.2, 0.0.0.0/8, this network (RFC 791)"
        );
    }
}
