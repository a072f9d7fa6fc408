//! The width of a map: how many bits its addresses have. At 32 they are those of IPv4 and nothing stands in front of them.
use crate::failure::Failure;
use crate::network::Network;
use corbastrigo::{ip16_for_lookup, sanity_check_bits, Refusal};
use std::net::{IpAddr, Ipv4Addr, Ipv6Addr};

/// A width that the library knows, in bits.
#[derive(Clone, Copy, Debug, PartialEq, Eq)]
pub struct Width(u32);

impl Width {
    /// The width of maps that hold both families, IPv4 in its mapped form. Groups are by these alone.
    pub const MAPPED: Width = Width(128);

    /// The width that was asked for. Which there are is the library's to say, before any file is read: of a map without bytes the check
    /// refuses the width first, and else that the map ends.
    pub fn asked(bits: u32) -> Result<Width, Failure> {
        match sanity_check_bits(&[], bits) {
            Err(refusal @ Refusal::Width) => {
                Err(Failure::new(format!("--width {bits} is refused, {}: {}", refusal.number(), refusal.reason())))
            }
            _ => Ok(Width(bits)),
        }
    }

    pub fn bits(self) -> u32 {
        self.0
    }

    /// Whether there are no addresses but those of IPv4.
    pub fn is_ipv4(self) -> bool {
        self.0 == 32
    }

    /// The option as a command line needs it in which this width is meant, with the blank behind it.
    pub fn option(self) -> &'static str {
        if self.is_ipv4() {
            "--width 32 "
        } else {
            ""
        }
    }

    /// What is said behind an accepted map where it is not the usual width: such a map would be accepted at 128 too.
    pub fn said(self) -> &'static str {
        if self.is_ipv4() {
            ", width 32"
        } else {
            ""
        }
    }

    /// An address as text.
    pub fn address(self, word: &str) -> Result<IpAddr, Failure> {
        match word.parse() {
            Ok(IpAddr::V6(_)) if self.is_ipv4() => {
                Err(Failure::new(format!("{word:?} is no IPv4 address, and a map of width 32 has no others; write 1.2.3.4")))
            }
            Ok(address) => Ok(address),
            Err(_) => {
                let forms = if self.is_ipv4() { "1.2.3.4" } else { "1.2.3.4 or 2001:db8::1" };
                Err(Failure::new(format!("{word:?} is no address; write {forms}, without a port")))
            }
        }
    }

    /// The most characters of an address.
    pub fn longest_address(self) -> usize {
        if self.is_ipv4() {
            15
        } else {
            39
        }
    }

    /// The bytes that a map is walked by.
    pub fn bytes(self, address: IpAddr) -> Vec<u8> {
        match address {
            IpAddr::V4(v4) if self.is_ipv4() => v4.octets().to_vec(),
            address => ip16_for_lookup(address).to_vec(),
        }
    }

    /// The address that a record holds: at 32 its first four bytes.
    pub fn of_record(self, address: [u8; 16]) -> IpAddr {
        let [a, b, c, d, ..] = address;
        if self.is_ipv4() {
            Ipv4Addr::new(a, b, c, d).into()
        } else {
            Ipv6Addr::from(address).into()
        }
    }

    /// A prefix as text: what a record has of it, the address and the length. An IPv4 prefix at 128 bits has 96 in front.
    pub fn prefix(self, word: &str) -> Result<([u8; 16], u8), Failure> {
        let forms = if self.is_ipv4() { "1.2.0.0/16" } else { "1.2.0.0/16 or 2001:db8::/32" };
        let none = || Failure::new(format!("{word:?} is no prefix; write {forms}"));
        let (address, length) = word.split_once('/').ok_or_else(none)?;
        let address: IpAddr = address.parse().map_err(|_| none())?;
        let digits = !length.is_empty() && length.bytes().all(|byte| byte.is_ascii_digit());
        let most = if address.is_ipv4() { 32 } else { 128 };
        let length = length.parse().ok().filter(|&length: &u8| digits && length <= most).ok_or_else(none)?;
        match (address, self.is_ipv4()) {
            (IpAddr::V6(_), true) => {
                Err(Failure::new(format!("{word:?} is no IPv4 prefix, and a map of width 32 has no others; write {forms}")))
            }
            (IpAddr::V4(v4), true) => {
                let [a, b, c, d] = v4.octets();
                Ok(([a, b, c, d, 0, 0, 0, 0, 0, 0, 0, 0, 0, 0, 0, 0], length))
            }
            (address, false) => Ok((ip16_for_lookup(address), length + if address.is_ipv4() { 96 } else { 0 })),
        }
    }

    /// The prefix that a record holds.
    pub fn network(self, address: [u8; 16], length: u8) -> Network {
        Network { address: self.of_record(address), length }
    }
}

#[cfg(test)]
mod tests {
    use super::*;

    fn width(bits: u32) -> Width {
        Width::asked(bits).expect("a width")
    }

    #[test]
    fn the_library_says_which_widths_there_are() {
        assert_eq!([32, 128].map(|bits| width(bits).bits()), [32, 128]);
        assert_eq!(width(128), Width::MAPPED);
        for bits in [0, 31, 33, 64, 160, 288, u32::MAX] {
            let failure = Width::asked(bits).expect_err("no width");
            let wanted = format!("--width {bits} is refused, 18: the width is neither 32 nor 128");
            assert!(matches!(&failure, Failure::Said(message) if *message == wanted), "{failure:?}");
        }
    }

    #[test]
    fn at_32_an_address_has_its_own_four_bytes() {
        let address: IpAddr = "1.2.3.4".parse().expect("an address");
        assert_eq!(width(32).bytes(address), [1, 2, 3, 4]);
        assert_eq!(width(128).bytes(address), ip16_for_lookup(address));
        let mut record = [0; 16];
        record[..2].copy_from_slice(&[1, 2]);
        assert_eq!(width(32).network(record, 16).to_string(), "1.2.0.0/16");
        assert_eq!(width(128).network(record, 16).to_string(), "102::/16");
        assert_eq!([0, 32].map(|length| width(32).network([0; 16], length).to_string()), ["0.0.0.0/0", "0.0.0.0/32"]);
    }
}
