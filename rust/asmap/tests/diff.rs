//! `asmap diff`: its outputs, and that they hold every address whose number changes and no other.
mod common;
use common::{asmap, drawn_map, large_map, maps, names, packed, said, status, stored, text, Draws, Folder, TWO_PREFIXES};
use corbastrigo::{changes, compare, interpret, ip16_for_lookup, Change};
use serde_json::Value;
use std::fs;
use std::net::{IpAddr, Ipv6Addr};
use std::process::{Command, Output, Stdio};

/// A DEFAULT in front of a JUMP, and the same in either half: other bytes, the same numbers.
const ABOVE: [(u32, u32); 6] = [(3, 5), (1, 22), (2, 2), (0, 7), (2, 2), (0, 8)];
const BELOW: [(u32, u32); 7] = [(1, 41), (3, 5), (2, 2), (0, 7), (3, 5), (2, 2), (0, 8)];

/// A folder with `three.asmap`, in which 2 of two.asmap is 3; `above.asmap` and `below.asmap`; `one.asmap` and `other.asmap`, a RETURN
/// each.
fn folder() -> Folder {
    let folder = Folder::new();
    let mut three = TWO_PREFIXES;
    // The number of the last RETURN, less one, stands in the bits 258 to 272, the highest first.
    (three[33], three[34]) = (0x80, 0);
    folder.write("three.asmap", three);
    folder.write("above.asmap", packed(&ABOVE));
    folder.write("below.asmap", packed(&BELOW));
    folder.write("one.asmap", packed(&[(0, 1)]));
    folder.write("other.asmap", packed(&[(0, 33_521_664)]));
    folder.write("peers.txt", "1.2.3.4\n3.4.5.6\n\n2001:db8::1\n2.0.0.1\n");
    folder.write("peers.json", PEERS);
    folder
}

/// As a node's getnodeaddresses prints them.
const PEERS: &str = r#"[
  {
    "time": 1763280000,
    "services": 3081,
    "address": "3.4.5.6",
    "port": 8333,
    "network": "ipv4"
  },
  { "address": "2001:db8::1", "network": "ipv6", "port": 8333, "services": 1, "time": 0 },
  { "address": "pg6mmjiyjmcrsslvykfwnntlaru7p5svn6y2ymmju6nubxndf4pscryd.onion", "network": "onion", "port": 8333 },
  { "address": "ukeu3k5oycgaauneqgtnvselmt4yemvoilkln7jpvamvfx7dnkdq.b32.i2p", "network": "i2p", "port": 0 },
  { "address": "fc32:17ea:e415:c3bf:9808:149d:b5a2:c9aa", "network": "cjdns", "port": 8333 },
  { "address": "fc00::1", "network": "cjdns", "port": 8333 }
]
"#;

#[test]
fn what_changes_between_two_maps() {
    let folder = folder();
    for (name, arguments) in [
        ("number", &["two.asmap", "three.asmap"][..]),
        ("back", &["three.asmap", "two.asmap"]),
        ("same", &["two.asmap", "two.asmap"]),
        ("other_bytes", &["above.asmap", "below.asmap"]),
        ("everything", &["one.asmap", "other.asmap"]),
        ("zero", &["one.asmap", "two.asmap"]),
        ("many", &["defaults.asmap", "loopback.asmap"]),
        ("addresses", &["two.asmap", "three.asmap", "--addresses", "peers.txt"]),
        ("addresses_json", &["two.asmap", "three.asmap", "--addresses", "peers.json"]),
        ("addresses_same", &["two.asmap", "two.asmap", "--addresses", "peers.txt"]),
    ] {
        folder.write("defaults.asmap", packed(&[(3, 1), (1, 41), (3, 2), (2, 2), (0, 7), (2, 2), (0, 8)]));
        stored(&format!("diff_{name}"), &folder.output(&[&["diff"], arguments].concat()));
        stored(&format!("diff_objects_{name}"), &folder.output(&[&["--json", "diff"], arguments].concat()));
    }
    stored("help_diff", &asmap().args(["diff", "--help"]).output().unwrap());
}

#[test]
fn a_refused_map_is_told_and_nothing_is_compared() {
    let folder = folder();
    folder.write("old", "old");
    folder.write("short.asmap", [0x63, 0]);
    for (name, old, new) in
        [("old", "cut.asmap", "two.asmap"), ("new", "two.asmap", "cut.asmap"), ("both", "cut.asmap", "short.asmap")]
    {
        stored(&format!("diff_refused_{name}"), &folder.output(&["diff", old, new]));
        stored(&format!("diff_objects_refused_{name}"), &folder.output(&["--json", "diff", old, new]));
        for form in [&[][..], &["--records"], &["--addresses", "peers.txt"]] {
            let output = folder.output(&[&["diff", old, new, "-o", "old"], form].concat());
            assert_eq!((status(&output), output.stdout.len()), (3, 0), "{name} {form:?}");
        }
    }
    assert_eq!(fs::read(folder.path("old")).expect("it is there"), b"old");
}

/// What a line says: the first and the last address, and the old number and the new one.
fn read(line: &str) -> (u128, u128, u32, u32) {
    let (prefix, numbers) = line.split_once(" AS").expect("a prefix and numbers");
    let (new, old) = numbers.split_once(" # was AS").expect("both numbers");
    let (address, length) = prefix.split_once('/').expect("an address and a length");
    let address: IpAddr = address.parse().expect("an address");
    let length: u32 = length.parse().expect("a length");
    let length = if address.is_ipv4() { 96 + length } else { length };
    let first = u128::from_be_bytes(ip16_for_lookup(address));
    let last = first | u128::MAX.checked_shr(length).unwrap_or(0);
    (first, last, old.parse().expect("a number"), new.parse().expect("a number"))
}

/// The lines of an output that are prefixes.
fn prefixes(output: &Output) -> Vec<&str> {
    text(&output.stdout).lines().filter(|line| !line.starts_with('#')).collect()
}

fn number(map: &[u8], address: u128) -> u32 {
    interpret(map, &address.to_be_bytes()).expect("within the limit").number
}

/// Holds the lines to the walks of both maps: inside each line by what it says, between them by being alike.
fn hold_to_walks(old: &[u8], new: &[u8], lines: &[&str]) {
    let mut next = Some(0);
    let unchanged = |first: u128, last: u128| {
        for address in [first, first + (last - first) / 2, last] {
            assert_eq!(number(old, address), number(new, address), "{address:x} lies in no line");
        }
    };
    for line in lines {
        let (first, last, was, is) = read(line);
        let from = next.expect("no line behind the last address");
        assert!(first >= from && was != is, "{line}");
        if first > from {
            unchanged(from, first - 1);
        }
        for address in [first, first + (last - first) / 2, last] {
            assert_eq!((number(old, address), number(new, address)), (was, is), "{line}");
        }
        next = last.checked_add(1);
    }
    if let Some(from) = next {
        unchanged(from, u128::MAX);
    }
}

/// No two lines in a row are the halves of one prefix with one pair of numbers: else they could be joined.
fn are_fewest(lines: &[&str]) -> bool {
    lines.windows(2).all(|pair| {
        let ((first, last, was, is), (next, end, other_was, other_is)) = (read(pair[0]), read(pair[1]));
        let size = last - first;
        let halves = last.checked_add(1) == Some(next) && end - next == size && first & (size << 1 | 1) == 0;
        !halves || (was, is) != (other_was, other_is)
    })
}

/// Pairs of maps: with each other, of few numbers, and with themselves after a bit was turned that leaves them sane.
fn pairs() -> Vec<(Vec<u8>, Vec<u8>)> {
    let maps = maps();
    let mut draws = Draws(9);
    let mut pairs: Vec<_> = maps.windows(2).map(|pair| (pair[0].clone(), pair[1].clone())).collect();
    pairs.extend((0..20).map(|seed| (drawn_map(5, 2, seed), drawn_map(4, 2, seed + 100))));
    for map in &maps {
        let mut turned = map.clone();
        let bit = draws.below(8 * map.len() as u32);
        turned[bit as usize / 8] ^= 1 << (bit % 8);
        if corbastrigo::sanity_check(&turned).is_ok() {
            pairs.push((map.clone(), turned));
        }
    }
    assert!(pairs.len() > 100, "{}", pairs.len());
    pairs
}

#[test]
fn the_lines_hold_every_address_whose_number_changes_and_no_other() {
    let folder = Folder::new();
    let mut joined = 0;
    for (place, (old, new)) in pairs().into_iter().enumerate() {
        folder.write("old.asmap", &old);
        folder.write("new.asmap", &new);
        let output = folder.output(&["diff", "old.asmap", "new.asmap"]);
        let lines = prefixes(&output);
        let records = compare(&old, &new).expect("both are accepted");
        assert_eq!((status(&output), said(&output)), (i32::from(!records.is_empty()), ""), "pair {place}");
        hold_to_walks(&old, &new, &lines);
        assert!(are_fewest(&lines) && lines.len() <= changes(&records).count(), "pair {place}");
        joined += usize::from(lines.len() < changes(&records).count());
    }
    assert!(joined > 15, "{joined} pairs have something to join");
}

#[test]
fn json_and_text_say_the_same_and_the_counts_add_up() {
    let folder = Folder::new();
    for (place, (old, new)) in pairs().into_iter().enumerate().step_by(4) {
        folder.write("old.asmap", &old);
        folder.write("new.asmap", &new);
        let (lines, objects) =
            (folder.output(&["diff", "old.asmap", "new.asmap"]), folder.output(&["diff", "--json", "old.asmap", "new.asmap"]));
        assert_eq!(status(&lines), status(&objects), "pair {place}");
        let objects: Vec<Value> =
            text(&objects.stdout).lines().map(|line| serde_json::from_str(line).expect("an object")).collect();
        let of = |kind: &'static str| objects.iter().filter(move |object| object["kind"] == kind);
        let (mut ipv4, mut ipv6) = (0u128, 0u128);
        for (line, object) in prefixes(&lines).into_iter().zip(of("change")) {
            let string = |field: &str| object[field].as_str().expect("text");
            assert_eq!(line, format!("{} AS{} # was AS{}", string("prefix"), object["new"], object["old"]), "pair {place}");
            let address: Ipv6Addr = string("address").parse().expect("an address");
            let (first, last, ..) = read(line);
            assert_eq!(u128::from(address), first, "pair {place}");
            assert_eq!(object["why_zero"].is_string(), object["new"] == 0 || object["old"] == 0, "pair {place}");
            let mapped = (first.max(0xffff_0000_0000), last.min(0xffff_ffff_ffff));
            let of_ipv4 = if mapped.0 <= mapped.1 { mapped.1 - mapped.0 + 1 } else { 0 };
            ipv4 += of_ipv4;
            // Of a prefix that is all IPv4 nothing is left, and of ::/0 there is one more than can be counted.
            ipv6 += (last - first).wrapping_sub(of_ipv4).wrapping_add(1);
        }
        let summary = of("summary").next().expect("a summary");
        assert_eq!((summary["prefixes"].as_u64(), of("summary").count()), (Some(of("change").count() as u64), 1), "pair {place}");
        assert_eq!(summary["records"].as_u64(), Some((compare(&old, &new).expect("accepted").len() / 28) as u64), "pair {place}");
        let sum =
            |field: &str| of("operator").map(|object| object[field].as_str().expect("digits").parse::<u128>().expect("one")).sum();
        let (gained4, lost4, gained6, lost6): (u128, u128, u128, u128) =
            (sum("ipv4_gained"), sum("ipv4_lost"), sum("ipv6_gained"), sum("ipv6_lost"));
        assert_eq!((gained4, lost4, gained6, lost6), (ipv4, ipv4, ipv6, ipv6), "pair {place}");
        assert_eq!(
            [&summary["ipv4_addresses"], &summary["ipv6_addresses"]],
            [&Value::from(ipv4.to_string()), &Value::from(ipv6.to_string())]
        );
    }
}

#[test]
fn records_are_the_library_s_and_every_form_goes_to_a_file() {
    let folder = folder();
    for (old, new) in [("two.asmap", "three.asmap"), ("one.asmap", "loopback.asmap"), ("two.asmap", "two.asmap")] {
        let [old_map, new_map] = [old, new].map(|name| fs::read(folder.path(name)).expect("a map"));
        let wanted = compare(&old_map, &new_map).expect("both are accepted");
        let records = folder.output(&["diff", "--records", old, new]);
        assert_eq!((status(&records), records.stdout), (i32::from(!wanted.is_empty()), wanted));
        for form in [&[][..], &["--json"], &["--records"], &["--addresses", "peers.json"]] {
            let printed = folder.output(&[&["diff", old, new], form].concat());
            let written = folder.output(&[&["diff", old, new, "-o", "file"], form].concat());
            assert_eq!((status(&written), written.stdout.len()), (status(&printed), 0), "{old} {new} {form:?}");
            assert_eq!(fs::read(folder.path("file")).expect("it was written"), printed.stdout, "{old} {new} {form:?}");
        }
    }
}

#[test]
fn addresses_are_taken_as_walk_takes_them_or_as_a_node_prints_them() {
    let folder = folder();
    let asked = |input: &[u8]| folder.output_of(&["diff", "--addresses", "-", "two.asmap", "three.asmap"], input);
    let last = |output: &Output| {
        text(&output.stdout).lines().filter(|line| line.starts_with("# standard")).map(String::from).collect::<String>()
    };
    assert_eq!(last(&asked(b"")), "# standard input: of 0 addresses none changes");
    assert_eq!(last(&asked(b"[]")), "# standard input: of 0 addresses none changes");
    assert_eq!(last(&asked(b"  3.4.5.6\r\n\n8.8.8.8")), "# standard input: of 2 addresses 1 changes");
    // Compact, and with blanks in front; an address that stands there twice counts twice.
    let entry = r#"{"address":"2.0.0.1","network":"ipv4"}"#;
    assert_eq!(last(&asked(format!("\n [{entry},{entry}]").as_bytes())), "# standard input: of 2 addresses 2 change");
    for (name, input) in [
        ("line", &b"1.2.3.4\n1.2.3.4:8333\n"[..]),
        ("not_utf8", b"1.2.3.4\n1.2.\xff.4\n"),
        ("json", b"[{\"address\": \"1.2.3.4\","),
        ("object", b"[1]"),
        ("no_network", br#"[{"address":"1.2.3.4"}]"#),
        ("no_address", br#"[{"address":"1.2.3.4","network":"ipv4"},{"address":"1.2.3","network":"ipv4"}]"#),
        ("behind", b"[] []"),
    ] {
        stored(&format!("diff_wrong_addresses_{name}"), &asked(input));
    }
    stored("diff_wrong_addresses_missing", &folder.output(&["diff", "--addresses", "nowhere", "two.asmap", "three.asmap"]));
    folder.write_sparse("huge.json", 1 << 33);
    let mut file = fs::File::options().write(true).open(folder.path("huge.json")).expect("it is there");
    std::io::Write::write_all(&mut file, b"[").expect("it can be written");
    stored("diff_wrong_addresses_huge", &folder.output(&["diff", "--addresses", "huge.json", "two.asmap", "three.asmap"]));
}

#[test]
fn misuse_and_files_that_cannot_be_read() {
    let folder = folder();
    fs::create_dir(folder.path("folder")).expect("a folder");
    folder.write("empty.asmap", "");
    folder.write_sparse("huge.asmap", 10 << 30);
    for (name, arguments) in [
        ("none", &[][..]),
        ("one", &["two.asmap"]),
        ("missing_old", &["nowhere", "two.asmap"]),
        ("missing_new", &["two.asmap", "nowhere"]),
        ("folder", &["two.asmap", "folder"]),
        ("empty", &["two.asmap", "empty.asmap"]),
        ("huge", &["huge.asmap", "two.asmap"]),
        ("two_forms", &["--records", "--json", "two.asmap", "two.asmap"]),
        ("no_place", &["--records", "--addresses", "peers.txt", "two.asmap", "two.asmap"]),
        ("over_old", &["-o", "two.asmap", "two.asmap", "three.asmap"]),
        ("over_new", &["-o", "three.asmap", "two.asmap", "three.asmap"]),
        ("over_addresses", &["-o", "peers.txt", "--addresses", "peers.txt", "two.asmap", "three.asmap"]),
        ("output_folder", &["-o", "folder", "two.asmap", "three.asmap"]),
    ] {
        stored(&format!("diff_misuse_{name}"), &folder.output(&[&["diff"], arguments].concat()));
    }
    assert_eq!(fs::read(folder.path("two.asmap")).expect("it is there"), TWO_PREFIXES);
    assert!(!names(&folder).iter().any(|name| name.ends_with(".new")));
}

/// The command in a folder, as a child.
fn child(folder: &Folder, arguments: &[&str], stdout: Stdio) -> std::process::Child {
    let mut command = Command::new(env!("CARGO_BIN_EXE_asmap"));
    command.current_dir(folder.path(".")).args(arguments).stdout(stdout).stderr(Stdio::piped()).spawn().expect("the command runs")
}

#[test]
fn a_reader_that_goes_away_makes_no_maps_the_same_and_a_full_disk_is_an_error() {
    let folder = folder();
    folder.write("large.asmap", large_map(12, 1));
    folder.write("larger.asmap", large_map(12, 2));
    for arguments in [
        &["diff", "large.asmap", "larger.asmap"][..],
        &["diff", "--json", "large.asmap", "larger.asmap"],
        &["diff", "--records", "large.asmap", "larger.asmap"],
        &["undo-check", "large.asmap", "larger.asmap"],
        &["undo-check", "two.asmap", "three.asmap"],
    ] {
        let mut child = child(&folder, arguments, Stdio::piped());
        drop(child.stdout.take());
        let output = child.wait_with_output().expect("it ends");
        assert_eq!((status(&output), said(&output)), (1, ""), "{arguments:?}");
    }
    for (arguments, wanted) in [(["undo-check", "two.asmap", "cut.asmap"], 3), (["undo-check", "two.asmap", "two.asmap"], 0)] {
        let mut child = child(&folder, &arguments, Stdio::piped());
        drop(child.stdout.take());
        assert_eq!(status(&child.wait_with_output().expect("it ends")), wanted, "{arguments:?}");
    }
    let full = fs::File::create("/dev/full").expect("Linux has it");
    let output = child(&folder, &["diff", "large.asmap", "larger.asmap"], full.into()).wait_with_output().expect("it ends");
    stored("diff_full", &output);
}

#[test]
fn a_map_cut_at_any_page_is_never_compared() {
    let folder = Folder::new();
    let map = large_map(15, 1);
    folder.write("whole.asmap", &map);
    for cut in (0..map.len()).step_by(4_096) {
        folder.write("page.asmap", &map[..cut]);
        for (old, new) in [("whole.asmap", "page.asmap"), ("page.asmap", "whole.asmap")] {
            let output = folder.output(&["diff", old, new]);
            assert_eq!((status(&output), output.stdout.len()), (3, 0), "{cut}");
            assert!(said(&output).contains("map is refused, and nothing is compared\npage.asmap: refused "), "{cut}");
        }
    }
}

#[test]
fn in_little_memory_the_changes_are_counted_first() {
    let folder = Folder::new();
    folder.write("old.asmap", large_map(18, 1));
    folder.write("new.asmap", large_map(18, 2));
    let limited = |limit: &str| {
        let line = format!("ulimit -v {limit} && exec {} diff --records old.asmap new.asmap", env!("CARGO_BIN_EXE_asmap"));
        Command::new("sh").args(["-c", &line]).current_dir(folder.path(".")).output().expect("a shell runs")
    };
    // 200 MB hold the changes, and not the most that two maps of these lengths can have: 99 bytes for each of theirs.
    let (free, little) = (limited("unlimited"), limited("200000"));
    let lengths = [1, 2].map(|seed| large_map(18, seed).len());
    assert!(99 * (lengths[0] + lengths[1]) > 200_000 * 1_024, "{lengths:?}");
    assert!(status(&free) == 1 && changes(&free.stdout).count() > 400_000, "{}", said(&free));
    assert!(status(&little) == 1 && little.stdout == free.stdout, "{}", said(&little));
}

#[test]
fn one_turned_bit_is_found_wherever_it_lies() {
    let folder = Folder::new();
    let map = large_map(10, 1);
    let mut draws = Draws(3);
    let mut met = [0; 2];
    folder.write("old.asmap", &map);
    for _ in 0..60 {
        let bit = draws.below(8 * map.len() as u32);
        let mut turned = map.clone();
        turned[bit as usize / 8] ^= 1 << (bit % 8);
        folder.write("new.asmap", &turned);
        let output = folder.output(&["diff", "old.asmap", "new.asmap"]);
        if corbastrigo::sanity_check(&turned).is_err() {
            assert_eq!(status(&output), 3, "bit {bit}");
            met[0] += 1;
            continue;
        }
        hold_to_walks(&map, &turned, &prefixes(&output));
        let changed: Vec<Change> = changes(&compare(&map, &turned).expect("accepted")).collect();
        assert_eq!(status(&output), i32::from(!changed.is_empty()), "bit {bit}");
        met[1] += 1;
    }
    assert!(met.iter().all(|&met| met > 10), "{met:?}");
}
