//! `asmap list`: its outputs, and that every address lies in just one of its lines. What it does as `asmap unpack` does is tried there.
mod common;
use common::{asmap, maps, packed, said, status, stored, text, Folder};
use corbastrigo::{interpret, ip16_for_lookup};
use serde_json::Value;
use std::fs;
use std::net::IpAddr;

#[test]
fn lists_of_prefixes() {
    let folder = Folder::new();
    folder.write("defaults.asmap", packed(&[(3, 1), (1, 41), (3, 2), (2, 2), (0, 7), (2, 2), (0, 8)]));
    folder.write("lone.asmap", [0, 0, 0]);
    for name in ["two", "loopback", "defaults", "lone", "cut"] {
        stored(&format!("list_{name}"), &folder.output(&["list", &format!("{name}.asmap")]));
    }
    stored("list_json", &folder.output(&["--json", "list", "two.asmap"]));
    stored("list_json_defaults", &folder.output(&["--json", "list", "defaults.asmap"]));
    stored("list_json_cut", &folder.output(&["--json", "list", "cut.asmap"]));
    stored("help_list", &asmap().args(["list", "--help"]).output().unwrap());
}

/// What a line says: the first and the last address of its prefix, and the number.
fn read(line: &str) -> (u128, u128, u32) {
    let (prefix, number) = line.split_once(" AS").expect("a prefix and a number");
    let (address, length) = prefix.split_once('/').expect("an address and a length");
    let address: IpAddr = address.parse().expect("an address");
    let length: u32 = length.parse().expect("a length");
    let length = if address.is_ipv4() { 96 + length } else { length };
    let first = u128::from_be_bytes(ip16_for_lookup(address));
    (first, first | u128::MAX.checked_shr(length).unwrap_or(0), number.parse().expect("a number"))
}

#[test]
fn every_address_lies_in_one_line_which_has_its_walks_number() {
    let folder = Folder::new();
    for (place, map) in maps().into_iter().enumerate() {
        folder.write("a.asmap", &map);
        let output = folder.output(&["list", "a.asmap"]);
        assert_eq!((status(&output), said(&output)), (0, ""), "map {place}");
        let mut next = Some(0);
        for line in text(&output.stdout).lines() {
            let (first, last, number) = read(line);
            assert_eq!(Some(first), next, "map {place}: {line:?} does not begin where the line before it ends");
            for address in [first, last] {
                let walk = interpret(&map, &address.to_be_bytes()).expect("within the limit");
                assert_eq!(walk.number, number, "map {place}: {line:?}");
            }
            next = last.checked_add(1);
        }
        assert_eq!(next, None, "map {place}: the last line does not end with the last address");
    }
}

#[test]
fn ipv4_is_dotted_and_nothing_else_is() {
    let folder = Folder::new();
    for name in ["two.asmap", "loopback.asmap"] {
        let output = folder.output(&["list", name]);
        let mapped = 0xffff_0000_0000..=0xffff_ffff_ffff;
        let lines: Vec<&str> = text(&output.stdout).lines().collect();
        assert!(lines.iter().all(|line| mapped.contains(&read(line).0) == line.contains('.')), "{name}");
        assert!(lines.iter().filter(|line| line.contains('.')).count() > 1, "{name}");
    }
}

#[test]
fn records_are_the_library_s() {
    let folder = Folder::new();
    for map in maps().iter().take(8) {
        folder.write("a.asmap", map);
        let wanted = corbastrigo::list(map).expect("the map is accepted");
        assert_eq!(folder.output(&["list", "--records", "a.asmap"]).stdout, wanted);
        assert_eq!(status(&folder.output(&["list", "--records", "-o", "a.prefixes", "a.asmap"])), 0);
        assert_eq!(fs::read(folder.path("a.prefixes")).expect("it was written"), wanted);
    }
}

#[test]
fn json_and_text_list_the_same_prefixes() {
    let folder = Folder::new();
    for (place, map) in maps().into_iter().enumerate().take(12) {
        folder.write("a.asmap", &map);
        let (lines, objects) = (folder.output(&["list", "a.asmap"]), folder.output(&["list", "--json", "a.asmap"]));
        assert_eq!(text(&lines.stdout).lines().count(), text(&objects.stdout).lines().count());
        for (line, object) in text(&lines.stdout).lines().zip(text(&objects.stdout).lines()) {
            let object: Value = serde_json::from_str(object).expect("an object");
            let string = |field: &str| object[field].as_str().expect("text");
            assert_eq!(line, format!("{} AS{}", string("prefix"), object["number"]), "map {place}");
            // The address and the length are those of 128 bits.
            let address: std::net::Ipv6Addr = string("address").parse().expect("an address");
            assert_eq!(read(&format!("{address}/{} AS{}", object["length"], object["number"])), read(line), "map {place}");
            assert_eq!(object["why_zero"].is_string(), object["number"] == 0, "map {place}: {line:?}");
        }
    }
}
