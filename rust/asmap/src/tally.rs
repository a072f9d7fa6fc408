//! How many addresses changes hold, and which numbers gain and lose them. IPv4 and IPv6 are kept apart: an IPv6 prefix of usual length has
//! more addresses than all of IPv4.
use crate::width::Width;
use crate::words::grouped;
use corbastrigo::Change;
use std::collections::HashMap;

/// The first address of ::ffff:0:0/96, and how many there are: IPv4 as a map has it.
const MAPPED: u128 = 0xffff_0000_0000;
const ALL_IPV4: u128 = 1 << 32;

/// Numbers of addresses. IPv6 is all but ::ffff:0:0/96, so that its count, too, is below 2^128.
#[derive(Clone, Copy, Debug, Default, PartialEq, Eq)]
pub struct Count {
    pub ipv4: u128,
    pub ipv6: u128,
}

impl Count {
    /// The addresses of a change. Of maps of 32 bits all are of IPv4.
    pub fn of(change: &Change, width: Width) -> Count {
        if width.is_ipv4() {
            return Count { ipv4: ALL_IPV4 >> change.length, ipv6: 0 };
        }
        let first = u128::from_be_bytes(change.address);
        // One less than there are: of ::/0 there are 2^128.
        let less_one = u128::MAX.checked_shr(change.length.into()).unwrap_or(0);
        if (MAPPED..MAPPED + ALL_IPV4).contains(&first) {
            return Count { ipv4: less_one + 1, ipv6: 0 };
        }
        let holds_ipv4 = (first..=first + less_one).contains(&MAPPED);
        let ipv4 = if holds_ipv4 { ALL_IPV4 } else { 0 };
        Count { ipv4, ipv6: less_one - ipv4 + 1 }
    }

    fn add(&mut self, other: Count) {
        self.ipv4 += other.ipv4;
        self.ipv6 += other.ipv6;
    }

    /// Both in words; of IPv6 none where there is no such address.
    pub fn words(&self, width: Width) -> String {
        match (noun(self.ipv4, "IPv4"), width.is_ipv4()) {
            (ipv4, true) => ipv4,
            (ipv4, false) => format!("{ipv4} and {}", noun(self.ipv6, "IPv6")),
        }
    }
}

/// A number of addresses in words.
fn noun(count: u128, family: &str) -> String {
    match count {
        0 => format!("no {family} address"),
        1 => format!("1 {family} address"),
        _ => format!("{} {family} addresses ({})", grouped(count), power(count)),
    }
}

/// A number of addresses, which is not 0, in digits.
pub fn amount(count: u128) -> String {
    match count {
        1 => String::from("1"),
        _ => format!("{} ({})", grouped(count), power(count)),
    }
}

/// A number, which is not 0, as a power of two: exactly where it is one, else to a tenth and so called.
fn power(count: u128) -> String {
    if count.is_power_of_two() {
        return format!("2^{}", count.ilog2());
    }
    format!("about 2^{:.1}", logarithm(count))
}

/// The logarithm of a number that is not 0, to the base 2.
pub fn logarithm(count: u128) -> f64 {
    (count as f64).log2()
}

/// What a number gains and loses.
#[derive(Clone, Copy, Debug, Default, PartialEq, Eq)]
pub struct Moved {
    pub gained: Count,
    pub lost: Count,
}

/// What changes come to.
#[derive(Default)]
pub struct Tally {
    pub changed: Count,
    numbers: HashMap<u32, Moved>,
}

impl Tally {
    pub fn of(changes: &[Change], width: Width) -> Tally {
        let mut tally = Tally::default();
        for change in changes {
            let count = Count::of(change, width);
            tally.changed.add(count);
            tally.numbers.entry(change.old).or_default().lost.add(count);
            tally.numbers.entry(change.new).or_default().gained.add(count);
        }
        tally
    }

    /// Whether addresses come to have no number, or had none.
    pub fn has_zero(&self) -> bool {
        self.numbers.contains_key(&0)
    }

    /// Every number that gains or loses, by the number.
    pub fn numbers(&self) -> Vec<(u32, Moved)> {
        let mut numbers: Vec<(u32, Moved)> = self.numbers.iter().map(|(&number, &moved)| (number, moved)).collect();
        numbers.sort_by_key(|&(number, _)| number);
        numbers
    }

    /// The numbers of which an amount is not 0, the greatest first; where two are equal, by the number.
    pub fn most(&self, amount: impl Fn(&Moved) -> u128) -> Vec<(u32, u128)> {
        let amounts = self.numbers.iter().map(|(&number, moved)| (number, amount(moved)));
        let mut most: Vec<(u32, u128)> = amounts.filter(|&(_, amount)| amount > 0).collect();
        most.sort_by_key(|&(number, amount)| (std::cmp::Reverse(amount), number));
        most
    }
}

#[cfg(test)]
mod tests {
    use super::*;
    use std::net::Ipv6Addr;

    fn change(address: &str, length: u8, old: u32, new: u32) -> Change {
        let address: Ipv6Addr = address.parse().expect("an address");
        Change { address: address.octets(), length, old, new }
    }

    #[test]
    fn addresses_are_counted_by_their_family() {
        for (address, length, ipv4, ipv6) in [
            ("::ffff:1.2.3.4", 128, 1, 0),
            ("::ffff:1.2.0.0", 112, 65_536, 0),
            ("::ffff:0:0", 96, 1 << 32, 0),
            ("::fffe:0:0", 95, 1 << 32, 1 << 32),
            ("::", 80, 1 << 32, (1 << 48) - (1 << 32)),
            ("::", 0, 1 << 32, u128::MAX - (1 << 32) + 1),
            ("::", 1, 1 << 32, (1 << 127) - (1 << 32)),
            ("8000::", 1, 0, 1 << 127),
            ("2001:db8::", 32, 0, 1 << 96),
            ("::fffe:ffff:ffff", 128, 0, 1),
            ("::1:0:0:0", 128, 0, 1),
        ] {
            assert_eq!(Count::of(&change(address, length, 1, 2), Width::MAPPED), Count { ipv4, ipv6 }, "{address}/{length}");
        }
    }

    #[test]
    fn of_32_bits_all_are_ipv4() {
        let four = Width::asked(32).expect("a width");
        for (length, ipv4) in [(0, 1 << 32), (1, 1 << 31), (7, 33_554_432), (31, 2), (32, 1)] {
            // Whatever the address is: none of them is looked for in the mapped form.
            for address in ["::", "200::", "ffff:fffe::"] {
                assert_eq!(Count::of(&change(address, length, 1, 2), four), Count { ipv4, ipv6: 0 }, "{address}/{length}");
            }
        }
        assert_eq!(Count { ipv4: 1 << 32, ipv6: 0 }.words(four), "4,294,967,296 IPv4 addresses (2^32)");
    }

    #[test]
    fn all_addresses_are_counted_however_they_are_cut() {
        // ::/0 cut at each bit on the way to the last address but one, and the two last.
        let cut = |length: u8| Change {
            address: if length == 1 { 0 } else { u128::MAX << (129 - length) }.to_be_bytes(),
            length,
            old: 1,
            new: 2,
        };
        let mut pieces: Vec<Change> = (1..=128).map(cut).collect();
        pieces.push(Change { address: [0xff; 16], length: 128, old: 1, new: 2 });
        let whole = Tally::of(&[change("::", 0, 1, 2)], Width::MAPPED);
        let cut = Tally::of(&pieces, Width::MAPPED);
        assert_eq!(cut.changed, whole.changed);
        assert_eq!(cut.numbers(), whole.numbers());
        assert_eq!(whole.changed.ipv6.checked_add(whole.changed.ipv4), None, "together they are 2^128");
    }

    #[test]
    fn a_power_is_exact_or_says_that_it_is_not() {
        assert_eq!([1, 2, 1 << 24, 1 << 127].map(power), ["2^0", "2^1", "2^24", "2^127"]);
        assert_eq!([3, (1 << 24) - 1, (1 << 24) + 1].map(power), ["about 2^1.6", "about 2^24.0", "about 2^24.0"]);
        assert_eq!(power(u128::MAX), "about 2^128.0");
        let words = Count { ipv4: 1, ipv6: 0 }.words(Width::MAPPED);
        assert_eq!(words, "1 IPv4 address and no IPv6 address");
        let words = Count { ipv4: 0, ipv6: u128::MAX - (1 << 32) + 1 }.words(Width::MAPPED);
        let all = "340,282,366,920,938,463,463,374,607,427,473,244,160 IPv6 addresses (about 2^128.0)";
        assert_eq!(words, format!("no IPv4 address and {all}"));
    }

    #[test]
    fn what_is_gained_and_lost_goes_by_the_number() {
        let changes = [change("::ffff:1.0.0.0", 104, 5, 6), change("::ffff:2.0.0.0", 112, 6, 0), change("2001::", 32, 0, 6)];
        let tally = Tally::of(&changes, Width::MAPPED);
        assert_eq!(tally.most(|moved| moved.gained.ipv4), [(6, 1 << 24), (0, 1 << 16)]);
        assert_eq!(tally.most(|moved| moved.lost.ipv4), [(5, 1 << 24), (6, 1 << 16)]);
        assert_eq!(tally.most(|moved| moved.gained.ipv6), [(6, 1 << 96)]);
        assert_eq!(tally.most(|moved| moved.lost.ipv6), [(0, 1 << 96)]);
        assert!(tally.has_zero());
        assert_eq!(tally.numbers().iter().map(|&(number, _)| number).collect::<Vec<_>>(), [0, 5, 6]);
        let equal = Tally::of(&[change("::ffff:1.0.0.0", 104, 9, 1), change("::ffff:2.0.0.0", 104, 8, 2)], Width::MAPPED);
        assert_eq!(equal.most(|moved| moved.lost.ipv4), [(8, 1 << 24), (9, 1 << 24)]);
    }
}
