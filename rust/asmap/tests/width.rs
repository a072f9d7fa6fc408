//! `--width 32`: maps of IPv4 alone, without the 96 bits in front, in every subcommand that takes a width; and that no other width is taken.
mod common;
use common::{asmap, packed, said, status, stored, text, Draws, Folder, LOOPBACK, TWO_PREFIXES};
use corbastrigo::{changes, compare_bits, interpret_bits, list_bits, sanity_check_bits, unpack_bits, Refusal};
use serde_json::Value;
use std::fs;
use std::net::Ipv4Addr;

/// two.asmap without the 96 bits in front: 0.0.0.0/7 is sent to 1, 2.0.0.0/7 to 2.
const FOUR: [(u32, u32); 4] = [(2, 64), (1, 17), (0, 1), (0, 2)];

/// A MATCH of a bit behind a DEFAULT, so many times, and a RETURN.
fn one_by_one(bits: usize) -> Vec<u8> {
    packed(&[[(3, 1), (2, 2)].repeat(bits), vec![(0, 7)]].concat())
}

/// A folder with `four.asmap` (FOUR), `three.asmap`, in which 2 is 3, `most.asmap` of 32 address bits and `over.asmap` of 33;
/// `above.asmap` and `below.asmap` have other bytes and the same numbers; `one.asmap` and `halves.asmap` differ for every address.
fn folder() -> Folder {
    let folder = Folder::new();
    folder.write("four.asmap", packed(&FOUR));
    folder.write("three.asmap", packed(&[(2, 64), (1, 17), (0, 1), (0, 3)]));
    folder.write("most.asmap", one_by_one(32));
    folder.write("over.asmap", one_by_one(33));
    folder.write("above.asmap", packed(&[(3, 5), (1, 22), (2, 2), (0, 7), (2, 2), (0, 8)]));
    folder.write("below.asmap", packed(&[(1, 41), (3, 5), (2, 2), (0, 7), (3, 5), (2, 2), (0, 8)]));
    folder.write("one.asmap", packed(&[(0, 1)]));
    folder.write("halves.asmap", packed(&[(1, 17), (0, 2), (0, 2)]));
    folder.write("peers.txt", "1.2.3.4\n3.4.5.6\n2.0.0.1\n");
    folder.write(
        "peers.json",
        r#"[{"address":"3.4.5.6","network":"ipv4"},{"address":"2001:db8::1","network":"ipv6"},{"address":"fc00::1","network":"cjdns"}]"#,
    );
    folder
}

/// Arguments with the width behind the subcommand.
fn at<'a>(width: &'a str, arguments: &[&'a str]) -> Vec<&'a str> {
    [&arguments[..1], &["--width", width], &arguments[1..]].concat()
}

/// The subcommands that take a width, each with arguments that are answered at both.
const SUBCOMMANDS: [&[&str]; 8] = [
    &["check", "four.asmap"],
    &["walk", "four.asmap", "1.2.3.4"],
    &["trace", "four.asmap", "1.2.3.4"],
    &["list", "four.asmap"],
    &["diff", "four.asmap", "four.asmap"],
    &["undo-check", "four.asmap", "four.asmap"],
    &["unpack", "four.asmap"],
    &["pack", "-o", "new.asmap", "list.txt"],
];

#[test]
fn every_subcommand_at_32() {
    let folder = folder();
    folder.write("list.txt", "MATCH 000000\nJUMP 17\n  RETURN 1\nRETURN 2\n");
    for (name, arguments) in [
        ("check", &["check", "four.asmap", "most.asmap", "over.asmap", "two.asmap", "cut.asmap"][..]),
        ("walk", &["walk", "four.asmap", "1.2.3.4", "3.4.0.0", "8.8.8.8", "255.255.255.255"]),
        ("walk_most", &["walk", "most.asmap", "0.0.0.0", "0.0.0.1", "128.0.0.0"]),
        ("walk_unchecked", &["walk", "--unchecked", "over.asmap", "0.0.0.0", "128.0.0.0"]),
        ("trace", &["trace", "four.asmap", "3.4.0.0"]),
        ("trace_too_few_bits", &["trace", "--unchecked", "two.asmap", "0.0.0.0"]),
        ("list", &["list", "four.asmap"]),
        ("list_most", &["list", "most.asmap"]),
        ("diff", &["diff", "four.asmap", "three.asmap"]),
        ("diff_same", &["diff", "above.asmap", "below.asmap"]),
        ("diff_most", &["diff", "four.asmap", "most.asmap"]),
        ("diff_everything", &["diff", "one.asmap", "halves.asmap"]),
        ("diff_addresses", &["diff", "--addresses", "peers.txt", "four.asmap", "three.asmap"]),
        ("diff_addresses_json", &["diff", "--addresses", "peers.json", "four.asmap", "three.asmap"]),
        ("undo_check", &["undo-check", "four.asmap", "three.asmap"]),
        ("undo_check_everything", &["undo-check", "one.asmap", "halves.asmap"]),
        ("undo_check_same", &["undo-check", "above.asmap", "below.asmap"]),
        ("unpack", &["unpack", "four.asmap"]),
        ("pack", &["pack", "-o", "new.asmap", "list.txt"]),
    ] {
        stored(&format!("width_{name}"), &folder.output(&at("32", arguments)));
        stored(&format!("width_objects_{name}"), &folder.output(&[&["--json"], &at("32", arguments)[..]].concat()));
    }
    assert_eq!(fs::read(folder.path("new.asmap")).expect("it was written"), packed(&FOUR));
}

#[test]
fn what_128_alone_accepts_is_refused_8_at_32_in_every_subcommand() {
    let folder = folder();
    fs::write(folder.path("list.txt"), folder.output(&["unpack", "over.asmap"]).stdout).expect("a list can be written");
    folder.write("old", "old");
    let words = format!("{}: {}", Refusal::NoBits.number(), Refusal::NoBits.reason());
    for (name, arguments, wanted) in [
        ("check", &["check", "over.asmap"][..], 1),
        ("walk", &["walk", "over.asmap", "1.2.3.4"], 1),
        ("trace", &["trace", "over.asmap", "1.2.3.4"], 1),
        ("list", &["list", "-o", "old", "over.asmap"], 1),
        ("diff_old", &["diff", "-o", "old", "over.asmap", "four.asmap"], 3),
        ("diff_new", &["diff", "-o", "old", "four.asmap", "over.asmap"], 3),
        ("undo_check", &["undo-check", "four.asmap", "over.asmap"], 3),
        ("unpack", &["unpack", "-o", "old", "over.asmap"], 1),
        ("pack", &["pack", "-o", "old", "list.txt"], 1),
    ] {
        let refused = folder.output(&at("32", arguments));
        stored(&format!("width_refused_{name}"), &refused);
        assert_eq!(status(&refused), wanted, "{name}");
        // Pack says the bit too: that of the MATCH behind the last of 33 DEFAULTs, of 19 bits each, and 32 MATCHes of 5.
        let printed = [text(&refused.stdout), said(&refused)].concat().replace("8 at bit 787", "8");
        assert!(printed.contains(&words), "{name}: {printed}");
        assert_eq!(fs::read(folder.path("old")).expect("it is there"), b"old", "{name}");
        let accepted = folder.output(&at("128", arguments));
        assert!(!said(&accepted).contains("refused") && status(&accepted) < 2, "{name}: {}", said(&accepted));
        folder.write("old", "old");
    }
    for map in [&TWO_PREFIXES[..], &LOOPBACK] {
        assert_eq!(sanity_check_bits(map, 32), Err(Refusal::NoBits), "the cause that is named for it");
    }
}

#[test]
fn one_map_has_other_answers_at_the_other_width() {
    let folder = folder();
    let numbers = |width: &str| -> Vec<u64> {
        let output = folder.output(&at(width, &["walk", "--json", "four.asmap", "1.2.3.4", "3.4.0.0", "8.8.8.8"]));
        assert_eq!(status(&output), 0);
        let objects = text(&output.stdout).lines().map(|line| serde_json::from_str::<Value>(line).expect("an object"));
        objects.map(|object| object["number"].as_u64().expect("a number")).collect()
    };
    assert_eq!((numbers("32"), numbers("128")), (vec![1, 2, 0], vec![1, 1, 1]));
    let list = |width: &str| folder.output(&at(width, &["list", "four.asmap"])).stdout;
    assert!(text(&list("32")).starts_with("0.0.0.0/7 AS1\n2.0.0.0/7 AS2\n"));
    assert!(text(&list("128")).starts_with("::/7 AS1\n200::/7 AS2\n"));
}

#[test]
fn at_128_the_answers_are_those_without_a_width() {
    let folder = folder();
    folder.write("list.txt", "RETURN 1\n");
    for arguments in SUBCOMMANDS {
        for json in [&[][..], &["--json"]] {
            let (without, with) =
                (folder.output(&[json, arguments].concat()), folder.output(&[json, &at("128", arguments)[..]].concat()));
            assert_eq!(
                (status(&without), &without.stdout, said(&without)),
                (status(&with), &with.stdout, said(&with)),
                "{arguments:?}"
            );
            assert_eq!(status(&with), 0, "{arguments:?}: {}", said(&with));
        }
    }
}

/// At a width that is none a command line says nothing else, whatever else is wrong with it.
fn refused_first(folder: &Folder, line: &str) {
    let output = folder.output(&at("64", &line.split(' ').collect::<Vec<_>>()));
    assert!(status(&output) == 2 && said(&output).starts_with("asmap: --width 64 is refused, 18: "), "{line}: {}", said(&output));
}

#[test]
fn any_other_width_is_misuse_in_the_library_s_words() {
    let folder = folder();
    folder.write("list.txt", "RETURN 1\n");
    for (name, width) in [("64", "64"), ("cut_by_a_byte", "288"), ("past_32_bits", "4294967328"), ("word", "IPv4")] {
        stored(&format!("width_wrong_{name}"), &folder.output(&at(width, &["check", "four.asmap"])));
    }
    for arguments in SUBCOMMANDS {
        for width in ["0", "31", "33", "64", "127", "129", "160", "288", "4294967295"] {
            let output = folder.output(&at(width, arguments));
            assert_eq!((status(&output), text(&output.stdout)), (2, ""), "{arguments:?} {width}");
            let wanted = format!("asmap: --width {width} is refused, 18: {}\n", Refusal::Width.reason());
            assert_eq!(said(&output), wanted, "{arguments:?}");
        }
    }
    // The width is refused before any file is looked for, and so is the form of the output.
    for line in ["check nowhere", "walk nowhere ::", "trace nowhere x", "list nowhere", "unpack --json --records nowhere"] {
        refused_first(&folder, line);
    }
    for line in ["diff --records --json nowhere nowhere", "undo-check nowhere nowhere", "pack --json nowhere"] {
        refused_first(&folder, line);
    }
    assert!(!folder.path("new.asmap").exists());
}

#[test]
fn groups_and_filters_have_no_width() {
    for subcommand in ["group", "pick", "scan", "filter"] {
        let output = asmap().args([subcommand, "--width", "32", "1.2.3.4"]).output().expect("the command runs");
        assert_eq!(status(&output), 2, "{subcommand}");
        assert!(said(&output).contains("'--width'"), "{subcommand}: {}", said(&output));
    }
}

#[test]
fn at_32_an_address_of_ipv6_is_none() {
    let folder = folder();
    stored("width_ipv6_walk", &folder.output(&at("32", &["walk", "four.asmap", "1.2.3.4", "2001:db8::1"])));
    stored("width_ipv6_mapped", &folder.output(&at("32", &["walk", "four.asmap", "::ffff:1.2.3.4"])));
    stored("width_ipv6_trace", &folder.output(&at("32", &["trace", "four.asmap", "2001:db8::1"])));
    stored("width_ipv6_line", &folder.output_of(&at("32", &["walk", "four.asmap", "-"]), "1.2.3.4\n2001:db8::1\n"));
    stored("width_no_address", &folder.output(&at("32", &["walk", "four.asmap", "1.2.3"])));
    let lines = &at("32", &["diff", "--addresses", "-", "four.asmap", "three.asmap"]);
    stored("width_ipv6_diff", &folder.output_of(lines, "1.2.3.4\n2001:db8::1\n"));
}

/// A map of a tree of JUMPs over so many address bits, with drawn numbers, and some MATCHes below a DEFAULT.
fn drawn(bits: u32, draws: &mut Draws) -> Vec<(u32, u32)> {
    if bits == 0 || draws.below(4) == 0 {
        return vec![(0, 1 + draws.below(3))];
    }
    if bits >= 8 && draws.below(3) == 0 {
        return [vec![(3, 1 + draws.below(3)), (2, 256 + draws.below(256))], drawn(bits - 8, draws)].concat();
    }
    let (zero, one) = (drawn(bits - 1, draws), drawn(bits - 1, draws));
    let size = |&(opcode, operand): &(u32, u32)| corbastrigo::codes::encode_instruction(opcode, operand).expect("in range").len;
    let jump = (1, zero.iter().map(size).sum::<usize>() as u32);
    [vec![jump], zero, one].concat()
}

/// Maps that the check accepts at 32.
fn maps() -> Vec<Vec<u8>> {
    let mut draws = Draws(11);
    let mut maps = vec![packed(&FOUR), one_by_one(32), vec![0; 3]];
    maps.extend((0..24).map(|_| packed(&drawn(32, &mut draws))));
    maps.retain(|map| sanity_check_bits(map, 32).is_ok());
    assert!(maps.len() > 15, "{}", maps.len());
    maps
}

/// The first and the last address of a prefix, as numbers.
fn range(prefix: &str) -> (u64, u64) {
    let (address, length) = prefix.split_once('/').expect("an address and a length");
    let (address, length): (Ipv4Addr, u32) = (address.parse().expect("IPv4"), length.parse().expect("a length"));
    let first = u64::from(u32::from(address));
    assert!(length <= 32, "{prefix}");
    (first, first + (1 << (32 - length)) - 1)
}

fn number(map: &[u8], address: u64) -> u32 {
    interpret_bits(map, &(address as u32).to_be_bytes(), 32).expect("within the limit").number
}

#[test]
fn every_ipv4_address_lies_in_one_line_which_has_its_walks_number() {
    let folder = Folder::new();
    let mut prefixes = 0;
    for (place, map) in maps().into_iter().enumerate() {
        folder.write("a.asmap", &map);
        let output = folder.output(&["list", "--width", "32", "a.asmap"]);
        let objects = folder.output(&["list", "--width", "32", "--json", "a.asmap"]);
        let mut next = 0;
        for (line, object) in text(&output.stdout).lines().zip(text(&objects.stdout).lines()) {
            let (prefix, said) = line.split_once(" AS").expect("a prefix and a number");
            let (first, last) = range(prefix);
            assert_eq!(first, next, "map {place}: {line}");
            assert_eq!([first, last].map(|address| number(&map, address).to_string()), [said, said], "map {place}: {line}");
            let object: Value = serde_json::from_str(object).expect("an object");
            assert_eq!((object["prefix"].as_str(), object["width"].as_u64()), (Some(prefix), Some(32)), "map {place}");
            let parts = (object["address"].as_str().expect("text"), &object["length"]);
            assert_eq!(format!("{}/{}", parts.0, parts.1), prefix, "map {place}");
            (next, prefixes) = (last + 1, prefixes + 1);
        }
        assert_eq!(next, 1 << 32, "map {place}: the last line does not end with the last address");
        let records = |list: &str| folder.output(&[list, "--width", "32", "--records", "a.asmap"]).stdout;
        assert_eq!(records("list"), list_bits(&map, 32).expect("accepted"), "map {place}");
        assert_eq!(records("unpack"), unpack_bits(&map, 32).expect("accepted"), "map {place}");
    }
    assert!(prefixes > 100, "{prefixes}");
}

#[test]
fn the_lines_of_a_diff_hold_every_ipv4_address_that_changes_and_no_other() {
    let folder = Folder::new();
    let mut met = [0; 2];
    for pair in maps().windows(2) {
        let (old, new) = (&pair[0], &pair[1]);
        folder.write("old.asmap", old);
        folder.write("new.asmap", new);
        let arguments = ["diff", "--width", "32", "old.asmap", "new.asmap"];
        let (output, objects) = (folder.output(&arguments), folder.output(&[&["--json"], &arguments[..]].concat()));
        let records = compare_bits(old, new, 32).expect("both are accepted");
        assert_eq!(status(&output), i32::from(!records.is_empty()));
        let (mut next, mut changed) = (0, 0);
        for line in text(&output.stdout).lines().filter(|line| !line.starts_with('#')) {
            let (prefix, numbers) = line.split_once(" AS").expect("a prefix and numbers");
            let (is, was) = numbers.split_once(" # was AS").expect("both numbers");
            let (first, last) = range(prefix);
            assert!(first >= next, "{line}");
            if first > next {
                [next, first - 1].iter().for_each(|&address| assert_eq!(number(old, address), number(new, address), "{line}"));
            }
            for address in [first, last] {
                assert_eq!((number(old, address).to_string(), number(new, address).to_string()), (was.into(), is.into()), "{line}");
            }
            (next, changed) = (last + 1, changed + last - first + 1);
        }
        let summary: Value = serde_json::from_str(text(&objects.stdout).lines().last().expect("a summary")).expect("an object");
        assert_eq!(summary["ipv4_addresses"], changed.to_string());
        assert_eq!((&summary["ipv6_addresses"], &summary["width"]), (&Value::Null, &Value::from(32)));
        // The pieces hold as many addresses as the lines they were joined to.
        let pieces: u64 = changes(&records).map(|change| 1u64 << (32 - change.length)).sum();
        assert!(pieces == changed && changed <= 1 << 32 && !text(&output.stdout).contains("IPv6"));
        assert_eq!(folder.output(&[&arguments[..], &["--records"]].concat()).stdout, records);
        met[usize::from(changed > 0)] += 1;
    }
    assert!(met[1] > 10, "{met:?}");
}
