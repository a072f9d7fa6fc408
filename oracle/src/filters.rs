//! Document 01's ranges, and the original's message for an entry of an addrv2 message.
use bitcoin::p2p::address::{AddrV2, AddrV2Message};
use std::net::{Ipv4Addr, Ipv6Addr};

/// The IPv4 ranges: first address, length.
pub const IPV4: [([u8; 4], u32); 13] = [
    ([0, 0, 0, 0], 8),
    ([10, 0, 0, 0], 8),
    ([100, 64, 0, 0], 10),
    ([127, 0, 0, 0], 8),
    ([169, 254, 0, 0], 16),
    ([172, 16, 0, 0], 12),
    ([192, 0, 2, 0], 24),
    ([192, 168, 0, 0], 16),
    ([198, 18, 0, 0], 15),
    ([198, 51, 100, 0], 24),
    ([203, 0, 113, 0], 24),
    ([224, 0, 0, 0], 4),
    ([240, 0, 0, 0], 4),
];

/// The IPv6 ranges that document 01 names, in its order.
pub const IPV6: [(&str, u32); 18] = [
    ("fc00::", 8),
    ("::ffff:0:0", 96),
    ("::1", 128),
    ("fe80::", 10),
    ("fd00::", 8),
    ("ff00::", 8),
    ("2001:db8::", 32),
    ("3fff::", 20),
    ("2001:10::", 28),
    ("2001:20::", 28),
    ("2001:2::", 48),
    ("100::", 64),
    ("2001::", 32),
    ("2002::", 16),
    ("64:ff9b::", 96),
    ("::ffff:0:0:0", 96),
    ("::", 96),
    ("64:ff9b:1::", 48),
];

/// The original's message, or none where document 01 refuses the length (17).
pub fn message(id: u8, bytes: &[u8], port: u16) -> Option<AddrV2Message> {
    let v6 = |bytes: &[u8]| <[u8; 16]>::try_from(bytes).ok().map(Ipv6Addr::from);
    let addr = match id {
        1 => AddrV2::Ipv4(Ipv4Addr::from(<[u8; 4]>::try_from(bytes).ok()?)),
        2 => AddrV2::Ipv6(v6(bytes)?),
        3 => AddrV2::TorV2(bytes.try_into().ok()?),
        4 => AddrV2::TorV3(bytes.try_into().ok()?),
        5 => AddrV2::I2p(bytes.try_into().ok()?),
        6 => AddrV2::Cjdns(v6(bytes)?),
        _ if bytes.len() > 512 => return None,
        _ => AddrV2::Unknown(id, bytes.to_vec()),
    };
    Some(AddrV2Message { addr, port })
}
