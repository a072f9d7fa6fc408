//! How a prefix is written.
use std::fmt;
use std::net::IpAddr;

/// A prefix: of 32 bits where its address is one of IPv4, else of 128. One of 128 bits that is IPv4 in its mapped form is written without
/// the 96 bits in front.
#[derive(Clone, Copy, Debug)]
pub struct Network {
    pub address: IpAddr,
    pub length: u8,
}

impl fmt::Display for Network {
    fn fmt(&self, f: &mut fmt::Formatter<'_>) -> fmt::Result {
        let Network { address, length } = *self;
        let mapped = match address {
            IpAddr::V4(_) => None,
            IpAddr::V6(address) => address.to_ipv4_mapped(),
        };
        match (mapped, length.checked_sub(96)) {
            (Some(address), Some(length)) => write!(f, "{address}/{length}"),
            _ => write!(f, "{address}/{length}"),
        }
    }
}

#[cfg(test)]
mod tests {
    use super::*;

    #[test]
    fn a_prefix_is_written_as_a_network() {
        for (address, length, written) in [
            ("::", 0, "::/0"),
            ("::fffe:0:0", 95, "::fffe:0:0/95"),
            ("::ffff:0:0", 96, "0.0.0.0/0"),
            ("::ffff:1.2.0.0", 112, "1.2.0.0/16"),
            ("::ffff:1.2.3.4", 128, "1.2.3.4/32"),
            // An address that is IPv4 in the form of old is IPv6 here, and in hexadecimal.
            ("::1.2.0.0", 112, "::102:0/112"),
            ("::1:0:0:0", 80, "::1:0:0:0/80"),
            ("2001:db8::", 32, "2001:db8::/32"),
            ("2001:0:0:1::", 64, "2001:0:0:1::/64"),
            ("1:0:2:0:3:0:4:0", 128, "1:0:2:0:3:0:4:0/128"),
            ("ABCD:EF01::", 32, "abcd:ef01::/32"),
            // Of a map without the 96 bits.
            ("0.0.0.0", 0, "0.0.0.0/0"),
            ("1.2.0.0", 16, "1.2.0.0/16"),
            ("255.255.255.255", 32, "255.255.255.255/32"),
        ] {
            let address: IpAddr = address.parse().expect("an address");
            assert_eq!(Network { address, length }.to_string(), written);
        }
    }
}
