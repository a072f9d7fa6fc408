//! `asmap group` and `asmap pick`: their outputs, their refusals, and that they say what the library says.
mod common;
use common::{asmap, drawn, stored, text, By, Draws, Folder};
use corbastrigo::IPV4_GROUPS;
use serde_json::Value;
use std::collections::HashSet;
use std::net::{Ipv4Addr, SocketAddr};
use std::process::Output;

const CANDIDATES: &str = "\
# the best first
1.2.3.4:8333
1.2.9.9:8333
3.4.0.1:8333   # a note

8.8.8.8:8333
8.9.8.8:8333
1.2.3.4:8333
\t1.2.3.4:8334
[2001:db8::1]:8333
[::ffff:1.2.3.4]:8333
";

fn objects(output: &Output) -> Vec<Value> {
    text(&output.stdout).lines().map(|line| serde_json::from_str(line).expect("an object a line")).collect()
}

#[test]
fn groups() {
    let folder = Folder::new();
    let addresses = ["1.2.3.4", "8.8.8.8", "0.0.1.2", "2001:db8::1", "::1", "::ffff:1.2.3.4", "0:102::1"];
    stored("group", &folder.output(&[&["group"], &addresses[..]].concat()));
    stored("group_json", &folder.output(&[&["group", "--json"], &addresses[..]].concat()));
    stored("group_old", &folder.output(&[&["group", "--old-prefixes"], &addresses[..]].concat()));
    stored("group_old_json", &folder.output(&[&["group", "--json", "--old-prefixes"], &addresses[..]].concat()));
    stored("group_map", &folder.output(&[&["group", "--map", "two.asmap"], &addresses[..]].concat()));
    stored("group_map_json", &folder.output(&[&["group", "--json", "--map", "two.asmap"], &addresses[..]].concat()));
    stored("group_default", &folder.output(&["group", "--map", "loopback.asmap", "127.0.0.2", "127.0.0.3"]));
    stored("help_group", &asmap().args(["group", "--help"]).output().unwrap());
}

#[test]
fn groups_of_addresses_on_standard_input() {
    let input = "1.2.3.4\n\n  2001:db8::1  \r\n";
    stored("group_input", &asmap().args(["group", "3.4.5.6", "-"]).write_stdin(input).output().unwrap());
    stored("group_input_wrong", &asmap().args(["group", "-"]).write_stdin("1.2.3.4\n1.2.3\n").output().unwrap());
    stored("group_input_not_utf8", &asmap().args(["group", "-"]).write_stdin(&b"1.2.3.4\n\xff\n"[..]).output().unwrap());
}

#[test]
fn groups_that_are_refused() {
    let folder = Folder::new();
    stored("group_cut", &folder.output(&["group", "--map", "cut.asmap", "1.2.3.4"]));
    stored("group_missing", &folder.output(&["group", "--map", "nothing.here", "1.2.3.4"]));
    stored("group_folder", &folder.output(&["group", "--map", ".", "1.2.3.4"]));
    stored("group_port", &folder.output(&["group", "1.2.3.4:8333"]));
    stored("group_zone", &folder.output(&["group", "fe80::1%1"]));
    stored("group_none", &folder.output(&["group"]));
    stored("group_old_and_map", &folder.output(&["group", "--old-prefixes", "--map", "two.asmap", "1.2.3.4"]));
}

#[test]
fn groups_are_the_library_s() {
    let folder = Folder::new();
    let mut draws = Draws(1);
    let addresses: Vec<SocketAddr> = (0..2_000).map(|_| drawn(&mut draws)).collect();
    let input: String = addresses.iter().map(|address| format!("{}\n", address.ip())).collect();
    for by in By::ALL {
        let found = objects(&folder.output_of(&[&["group", "--json", "-"], by.arguments()].concat(), &input));
        assert_eq!(found.len(), addresses.len());
        for (object, address) in found.iter().zip(&addresses) {
            assert_eq!(object["address"], address.ip().to_string());
            assert_eq!((&object["group"], &object["by"]), (&by.group(*address).into(), &by.word().into()), "{address}");
            assert_eq!(object["why_zero"].is_string(), object["group"] == 0, "{object}");
        }
    }
}

#[test]
fn picks() {
    let folder = Folder::new();
    folder.write("candidates.txt", CANDIDATES);
    folder.write("occupied.txt", "4294967554\n# and\n 4294968068 # 3.4.0.0/16\n\n");
    folder.write("old.txt", "258\n# and\n 772 # 3.4.0.0/16\n\n");
    folder.write("none.txt", "# none\n");
    stored("pick", &folder.output(&["pick", "--max", "8", "candidates.txt"]));
    stored("pick_few", &folder.output(&["pick", "--max", "2", "candidates.txt"]));
    stored("pick_occupied", &folder.output(&["pick", "--max", "8", "--occupied", "occupied.txt", "candidates.txt"]));
    stored("pick_old", &folder.output(&["pick", "--max", "8", "--old-prefixes", "candidates.txt"]));
    stored(
        "pick_old_occupied",
        &folder.output(&["pick", "--max", "8", "--old-prefixes", "--occupied", "old.txt", "candidates.txt"]),
    );
    stored(
        "pick_old_json",
        &folder.output(&["pick", "--json", "--max", "5", "--old-prefixes", "--occupied", "old.txt", "candidates.txt"]),
    );
    stored("pick_map", &folder.output(&["pick", "--max", "8", "--map", "two.asmap", "candidates.txt"]));
    stored("pick_map_json", &folder.output(&["pick", "--json", "--max", "5", "--map", "two.asmap", "candidates.txt"]));
    stored("pick_json", &folder.output(&["pick", "--json", "--max", "5", "--occupied", "occupied.txt", "candidates.txt"]));
    stored("pick_max_0", &folder.output(&["pick", "--max", "0", "candidates.txt"]));
    stored("pick_no_candidates", &folder.output(&["pick", "--max", "8", "none.txt"]));
    stored("pick_no_candidates_json", &folder.output(&["pick", "--json", "--max", "8", "none.txt"]));
    stored("help_pick", &asmap().args(["pick", "--help"]).output().unwrap());
}

#[test]
fn a_pick_of_occupied_groups_only_says_so() {
    let folder = Folder::new();
    folder.write("candidates.txt", "1.2.3.4:1\n1.2.3.5:1\n");
    let asked = ["pick", "--max", "18446744073709551615", "--occupied", "-", "candidates.txt"];
    stored("pick_all_occupied", &folder.output_of(&asked, "4294967554"));
    let asked = ["pick", "--old-prefixes", "--max", "18446744073709551615", "--occupied", "-", "candidates.txt"];
    stored("pick_old_all_occupied", &folder.output_of(&asked, "258"));
}

#[test]
fn picks_are_the_library_s() {
    let folder = Folder::new();
    let mut draws = Draws(2);
    for (round, by) in (0..90).zip(By::ALL.into_iter().cycle()) {
        let ranked: Vec<SocketAddr> = (0..draws.below(40)).map(|_| drawn(&mut draws)).collect();
        let occupied: HashSet<u64> = (0..draws.below(4)).map(|_| by.group(drawn(&mut draws))).collect();
        let max = draws.below(30) as usize;
        folder.write("candidates.txt", ranked.iter().map(|candidate| format!("{candidate}\n")).collect::<String>());
        folder.write("occupied.txt", occupied.iter().map(|group| format!("{group}\n")).collect::<String>());
        let limit = max.to_string();
        let asked = ["pick", "--json", "--max", &limit, "--occupied", "occupied.txt", "candidates.txt"];
        let mut found = objects(&folder.output(&[&asked, by.arguments()].concat()));
        let wanted = by.pick(&ranked, max, &occupied).expect("within the limits");
        let summary = found.pop().expect("a summary");
        assert!(found.iter().chain([&summary]).all(|object| object["by"] == by.word()), "round {round}");
        let counts = ["picked", "first_pass", "examined", "instructions"].map(|field| summary[field].as_u64().expect("a count"));
        let lengths = [wanted.places.len() as u64, wanted.groups.len() as u64, wanted.examined as u64, wanted.instructions];
        assert_eq!(counts, lengths, "round {round}");
        let places: Vec<u64> = found.iter().map(|object| object["place"].as_u64().expect("a place")).collect();
        assert_eq!(places, wanted.places.iter().map(|&place| u64::from(place)).collect::<Vec<_>>(), "round {round}");
        reasons_hold(&found, &wanted.groups, &occupied);
    }
}

/// A pick of the first pass has its group to itself, and one that fills has a group that was occupied or went to the pick that is named.
fn reasons_hold(found: &[Value], first: &[u64], occupied: &HashSet<u64>) {
    for (rank, object) in found.iter().enumerate() {
        let group = object["group"].as_u64().expect("a group");
        match object["group_went_to"].as_u64() {
            _ if rank < first.len() => assert_eq!((&object["pass"], first[rank]), (&Value::from("first"), group)),
            Some(holder) => assert_eq!((&object["pass"], first[holder as usize]), (&Value::from("fill"), group)),
            None => assert!(object["pass"] == "fill" && occupied.contains(&group), "{object}"),
        }
    }
}

/// A line among the candidates, and what is wrong with it.
const WRONG_CANDIDATES: [(&str, &[u8]); 8] = [
    ("no_port", b"1.2.3.4:1\n1.2.3.4\n"),
    ("no_brackets", b"2001:db8::1:8333\n"),
    ("zone", b"\n[fe80::1%1]:8333\n"),
    ("port_too_great", b"1.2.3.4:65536\n"),
    ("name", b"seed.example:8333\n"),
    ("two", b"1.2.3.4:1 1.2.3.5:1\n"),
    ("not_utf8", b"1.2.3.4:1\n\xff\n"),
    ("binary", &[0; 5_000]),
];

#[test]
fn wrong_candidates_name_their_line() {
    let folder = Folder::new();
    for (name, list) in WRONG_CANDIDATES {
        folder.write("candidates.txt", list);
        let output = folder.output(&["pick", "--max", "8", "candidates.txt"]);
        stored(&format!("pick_wrong_{name}"), &output);
        assert_eq!(folder.output(&["page", "candidates.txt"]), output, "{name}: a page takes what a pick takes");
    }
}

#[test]
fn wrong_groups_name_their_line() {
    let folder = Folder::new();
    folder.write("candidates.txt", CANDIDATES);
    for (name, list) in
        [("word", "1\nAS64496\n"), ("negative", "-1\n"), ("past_64_bits", "18446744073709551616\n"), ("two", "1 2\n")]
    {
        folder.write("occupied.txt", list);
        stored(
            &format!("pick_occupied_{name}"),
            &folder.output(&["pick", "--max", "8", "--occupied", "occupied.txt", "candidates.txt"]),
        );
    }
}

#[test]
fn long_lists_are_taken_up_to_the_limit() {
    let folder = Folder::new();
    let candidates = |count: u32| (0..count).map(|nth| format!("{}:8333\n", Ipv4Addr::from(nth << 16))).collect::<String>();
    let groups = |count: u64| (IPV4_GROUPS..).take(count as usize).map(|group| format!("{group}\n{group}\n")).collect::<String>();
    folder.write("candidates.txt", candidates(4_096));
    folder.write("occupied.txt", groups(4_096));
    let output = folder.output(&["pick", "--json", "--max", "1", "--occupied", "occupied.txt", "candidates.txt"]);
    assert_eq!(objects(&output)[1]["examined"], 4_096);
    folder.write("too_many.txt", candidates(4_097) + "what stands behind is not read\n");
    folder.write("too_many_groups.txt", groups(4_097) + "what stands behind is not read\n");
    stored("pick_too_many", &folder.output(&["pick", "--max", "1", "--occupied", "occupied.txt", "too_many.txt"]));
    stored("pick_too_many_groups", &folder.output(&["pick", "--max", "1", "--occupied", "too_many_groups.txt", "candidates.txt"]));
}

#[test]
fn picks_that_are_misused() {
    let folder = Folder::new();
    folder.write("candidates.txt", CANDIDATES);
    stored("pick_cut", &folder.output(&["pick", "--max", "8", "--map", "cut.asmap", "candidates.txt"]));
    stored("pick_missing", &folder.output(&["pick", "--max", "8", "nothing.here"]));
    stored("pick_folder", &folder.output(&["pick", "--max", "8", "."]));
    stored("pick_occupied_missing", &folder.output(&["pick", "--max", "8", "--occupied", "nothing.here", "candidates.txt"]));
    stored("pick_old_and_map", &folder.output(&["pick", "--max", "8", "--map", "two.asmap", "--old-prefixes", "candidates.txt"]));
    stored("pick_no_max", &folder.output(&["pick", "candidates.txt"]));
    stored("pick_max_word", &folder.output(&["pick", "--max", "many", "candidates.txt"]));
    stored("pick_max_negative", &folder.output(&["pick", "--max=-1", "candidates.txt"]));
    stored("pick_both_from_input", &folder.output(&["pick", "--max", "8", "--occupied", "-", "-"]));
}
