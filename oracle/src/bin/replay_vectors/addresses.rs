//! The address filters at the edges of every range, and relay skip at every length that matters.
use crate::list::List;
use crate::tables::Tables;
use oracle::document::Refusal;
use oracle::filters::{IPV4, IPV6};
use oracle::netaddr;
use std::net::{IpAddr, Ipv4Addr, Ipv6Addr};

/// Mapped, 6to4, NAT64, translated, compatible, local NAT64: the address that holds 0.0.0.0, and where the IPv4 address stands in it.
const FORMS: [(&str, u32); 6] =
    [("::ffff:0:0", 0), ("2002::", 80), ("64:ff9b::", 0), ("::ffff:0:0:0", 0), ("::", 0), ("64:ff9b:1::", 0)];

/// The networks of an addrv2 entry, with the length of an address; those that document 01 does not know have at most that many bytes.
const NETWORKS: [(u8, usize); 10] = [(0, 512), (1, 4), (2, 16), (3, 10), (4, 32), (5, 32), (6, 16), (7, 512), (8, 512), (255, 512)];

fn number(text: &str) -> u128 {
    text.parse::<Ipv6Addr>().expect("an address").into()
}

fn form((base, shift): (&str, u32), address: u32) -> u128 {
    number(base) | u128::from(address) << shift
}

fn said(answer: Result<bool, Refusal>, letters: [&str; 2]) -> String {
    answer.map_or_else(|reason| reason.to_string(), |yes| letters[usize::from(yes)].into())
}

fn filtered(list: &mut List, address: u128) -> String {
    said(list.filter(&address.to_be_bytes()), ["R", "U"])
}

/// With port 0 and with port 1.
fn relayed_by_port(list: &mut List, id: u8, address: &[u8]) -> String {
    [0, 1].map(|port| said(list.relay(id, port, address), ["P", "S"])).join(" ")
}

/// An IPv4 address alone and in each form.
fn forms(list: &mut List, address: u32) -> String {
    let alone = list.relay(1, 1, &address.to_be_bytes());
    // The same through the original's filter of plain IPv4 addresses.
    assert_eq!(alone, Ok(netaddr::clearnet_unroutable(IpAddr::V4(Ipv4Addr::from(address)))));
    let each = FORMS.map(|held| filtered(list, form(held, address)));
    said(alone, ["P", "S"]) + &each.concat()
}

fn ranges(list: &mut List, tables: &mut Tables) {
    list.heading("the edges of the IPv4 ranges: an address alone, then in each form that holds one");
    for (octets, bits) in IPV4 {
        let first = u32::from_be_bytes(octets);
        let last = first | (!0 >> bits);
        let each = [first.wrapping_sub(1), first, last, last.wrapping_add(1)].map(|address| forms(list, address));
        tables.row("filters", format!("{}/{bits} {}", Ipv4Addr::from(first), each.join(" ")));
    }
    list.heading("the edges of the IPv6 ranges");
    for (start, bits) in IPV6 {
        let first = number(start);
        let last = first | (!0u128).checked_shr(bits).unwrap_or(0);
        let each = [first.wrapping_sub(1), first, last, last.wrapping_add(1)].map(|address| filtered(list, address));
        tables.row("filters", format!("{start}/{bits} {}", each.concat()));
    }
}

/// Each form with an IPv4 address, and the same with one bit of a byte turned over, at each of its bytes.
fn changed(list: &mut List, tables: &mut Tables) {
    list.heading("each form with a public and with a private address, and with one byte changed");
    for held in [[8, 8, 8, 8], [10, 0, 0, 1]] {
        for (form_of, bit) in FORMS.into_iter().flat_map(|form_of| [(form_of, 1), (form_of, 128)]) {
            let address = form(form_of, u32::from_be_bytes(held));
            let whole = filtered(list, address);
            let each: String = (0..16).map(|i| filtered(list, address ^ bit << (120 - 8 * i))).collect();
            let text = Ipv6Addr::from(address);
            tables.row("filters", format!("{text} {whole}, with a bit ({bit}) of byte 0 to 15 turned over {each}"));
        }
    }
}

fn lengths(list: &mut List, tables: &mut Tables) {
    list.heading("the filter at other lengths");
    for n in [0, 4, 15, 16, 17] {
        let answer = said(list.filter(&vec![8; n]), ["R", "U"]);
        tables.row("filters", format!("{n} bytes of 08: {answer}"));
    }
    list.heading("relay skip at no byte, at a network's own length, one below it and one above, ports 0 and 1");
    let mut known = vec![];
    for first in [8, 10, 252, 253] {
        for (id, own) in NETWORKS {
            let each = [0, own - 1, own, own + 1].map(|n| {
                let mut bytes = vec![8; n];
                bytes.iter_mut().take(1).for_each(|byte| *byte = first);
                format!(", {n} bytes {}", relayed_by_port(list, id, &bytes))
            });
            let answers = (id, each.concat());
            if !known.contains(&answers) {
                tables.row("filters", format!("network {id}, first byte {first:02x}{}", answers.1));
                known.push(answers);
            }
        }
    }
    list.heading("addresses of 16 bytes under networks 2 and 6, ports 0 and 1");
    for address in [number("::ffff:8.8.8.8"), number("::ffff:10.0.0.1"), !0 >> 8 | 0xfb << 120, !0 >> 8 | 0xfc << 120] {
        let bytes = address.to_be_bytes();
        let each = [2, 6].map(|id| format!(", network {id} {}", relayed_by_port(list, id, &bytes)));
        tables.row("filters", format!("{}{}", Ipv6Addr::from(address), each.concat()));
    }
}

pub fn cases(list: &mut List, tables: &mut Tables) {
    ranges(list, tables);
    changed(list, tables);
    lengths(list, tables);
}
