//! `asmap filter`: its outputs, and that it says what the library says.
mod common;
use common::{asmap, stored, text};

/// An address of each row, in the filter's order, and one of none.
const ADDRESSES: [&str; 46] = [
    "0.1.2.3",
    "10.1.2.3",
    "100.127.255.255",
    "127.0.0.1",
    "169.254.1.1",
    "172.31.255.255",
    "192.0.2.1",
    "192.168.1.1",
    "198.19.1.1",
    "198.51.100.1",
    "203.0.113.1",
    "239.1.1.1",
    "255.255.255.255",
    "8.8.8.8",
    "fc00::1",
    "::ffff:10.1.2.3",
    "::ffff:8.8.8.8",
    "::1",
    "febf::1",
    "fd00::1",
    "ff02::1",
    "2001:db8::1",
    "3fff:fff::1",
    "2001:1f::1",
    "2001:2f::1",
    "2001:2:0:1::",
    "100::1",
    "2001::1",
    "2002:a01:203::",
    "2002:808:808::",
    "2002:808:808::1",
    "64:ff9b::a01:203",
    "64:ff9b::808:808",
    "::ffff:0:a01:203",
    "::ffff:0:808:808",
    "::a01:203",
    "::808:808",
    "::",
    "64:ff9b:1::a01:203",
    "64:ff9b:1::808:808",
    "64:ff9b:1:0:1::808:808",
    "2001:2:1::",
    "100:0:0:1::",
    "2001:30::",
    "4000::",
    "2606:4700::1",
];

#[test]
fn a_row_for_each_address() {
    stored("filter", &asmap().arg("filter").args(ADDRESSES).output().unwrap());
    stored("filter_json", &asmap().args(["filter", "--json"]).args(ADDRESSES).output().unwrap());
    stored("help_filter", &asmap().args(["filter", "--help"]).output().unwrap());
}

#[test]
fn addresses_on_standard_input() {
    let input = "10.0.0.1\n\n2001:db8::1\r\n8.8.8.8";
    stored("filter_input", &asmap().args(["filter", "-"]).write_stdin(input).output().unwrap());
    stored("filter_input_empty", &asmap().args(["filter", "-"]).write_stdin("").output().unwrap());
    stored("filter_input_wrong", &asmap().args(["filter", "-"]).write_stdin("10.0.0.1\n10.0.0.256\n").output().unwrap());
    stored("filter_input_not_utf8", &asmap().args(["filter", "-"]).write_stdin(&b"\xff"[..]).output().unwrap());
    stored("filter_input_long_line", &asmap().args(["filter", "-"]).write_stdin(vec![b'1'; 1 << 20]).output().unwrap());
}

#[test]
fn words_that_are_no_address() {
    for (name, word) in
        [("port", "10.0.0.1:8333"), ("range", "10.0.0.0/8"), ("zone", "fe80::1%eth0"), ("name", "localhost"), ("blank", "")]
    {
        stored(&format!("filter_{name}"), &asmap().args(["filter", "8.8.8.8", word]).output().unwrap());
    }
    stored("filter_none", &asmap().arg("filter").output().unwrap());
}

#[test]
fn verdicts_are_the_library_s() {
    let output = asmap().args(["filter", "--json"]).args(ADDRESSES).output().unwrap();
    let lines = text(&output.stdout).lines();
    assert_eq!(lines.clone().count(), ADDRESSES.len());
    for (line, address) in lines.zip(ADDRESSES) {
        let object: serde_json::Value = serde_json::from_str(line).expect("an object");
        assert_eq!(object["unroutable"], corbastrigo::clearnet_unroutable(address.parse().expect("an address")), "{address}");
    }
}
