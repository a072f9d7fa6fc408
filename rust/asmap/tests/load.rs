//! `asmap load`: its outputs, its refusals, and that it writes what the library makes.
mod common;
use common::{asmap, is_there, names, on_a_terminal, said, status, stored, text, Folder};
use std::fs;

#[test]
fn loads() {
    let folder = Folder::new();
    stored("load", &folder.output(&["load", "--pairs", "2", "-o", "load.asmap"]));
    stored("load_check", &folder.output(&["check", "load.asmap"]));
    stored("load_unpack", &folder.output(&["unpack", "load.asmap"]));
    stored("load_list", &folder.output(&["list", "load.asmap"]));
    stored("load_json", &folder.output(&["load", "--json", "--pairs", "2", "-o", "load.asmap"]));
    stored("load_none", &folder.output(&["load", "--seed", "7", "--pairs", "0", "-o", "load.asmap"]));
    stored("load_one", &folder.output(&["load", "--seed", "7", "--pairs", "1", "-o", "load.asmap"]));
    stored("load_most", &folder.output(&["load", "--seed", "18446744073709551615", "--pairs", "128", "-o", "load.asmap"]));
    let most = ["load", "--json", "--seed", "18446744073709551615", "--pairs", "128", "-o", "load.asmap"];
    stored("load_most_json", &folder.output(&most));
    stored("help_load", &asmap().args(["load", "--help"]).output().unwrap());
}

#[test]
fn a_load_is_the_library_s_and_its_address_reads_all_of_it() {
    let folder = Folder::new();
    for (seed, pairs) in [(1, 0), (1, 1), (1, 2), (2, 32), (3, 33), (1 << 63, 127), (u64::MAX, 128)] {
        let wanted = corbastrigo::load(seed, pairs).expect("a load");
        let (seed, pairs_word) = (seed.to_string(), pairs.to_string());
        let asked = ["load", "--seed", &seed, "--pairs", &pairs_word];
        let printed = folder.output(&asked);
        assert!(status(&printed) == 0 && printed.stdout == wanted, "{asked:?}: {}", said(&printed));
        let object = folder.output(&[&asked[..], &["--json", "-o", "load.asmap"]].concat());
        assert_eq!(fs::read(folder.path("load.asmap")).expect("it was written"), wanted);
        let object: serde_json::Value = serde_json::from_str(text(&object.stdout)).expect("an object");
        let count = 2 * pairs as u64 + 1;
        let fields = ["pairs", "bytes", "instructions", "walked"].map(|field| object[field].as_u64());
        assert_eq!(fields, [pairs as u64, wanted.len() as u64, count, count].map(Some), "{asked:?}");
        assert_eq!(object["seed"].to_string(), seed);
        let address = object["address"].as_str().expect("an address");
        assert!(said(&printed).ends_with(&format!("; the walk by {address} reads {count}\n")), "{}", said(&printed));
        // Whoever has the file and the address sees the same.
        let walked = folder.output(&["walk", "--json", "load.asmap", address]);
        let walked: serde_json::Value = serde_json::from_str(text(&walked.stdout)).expect("an object");
        assert_eq!((walked["instructions"].as_u64(), walked["bits"].as_u64()), (Some(count), Some(pairs as u64)), "{asked:?}");
    }
}

#[test]
fn the_seed_is_1_unless_another_is_named() {
    let folder = Folder::new();
    let (unnamed, named) = (["load", "--pairs", "9"], ["load", "--seed", "1", "--pairs", "9"]);
    assert_eq!(folder.output(&unnamed), folder.output(&named));
    assert_ne!(folder.output(&named).stdout, folder.output(&["load", "--seed", "2", "--pairs", "9"]).stdout);
}

#[test]
fn a_load_of_at_most_32_pairs_is_a_map_of_width_32_too() {
    let folder = Folder::new();
    for (pairs, wanted) in [("32", 0), ("33", 1)] {
        assert_eq!(status(&folder.output(&["load", "--pairs", pairs, "-o", "load.asmap"])), 0);
        assert_eq!(status(&folder.output(&["check", "--width", "32", "load.asmap"])), wanted, "{pairs} pairs");
        assert_eq!(status(&folder.output(&["check", "load.asmap"])), 0, "{pairs} pairs");
    }
}

#[test]
fn what_is_refused_or_misused_leaves_no_file() {
    let folder = Folder::new();
    let before = names(&folder);
    for (name, seed, pairs) in [
        ("seed_0", "0", "2"),
        ("129_pairs", "1", "129"),
        ("both", "0", "129"),
        ("pairs_of_64_bits", "1", "18446744073709551615"),
        ("past_64_bits", "18446744073709551616", "2"),
        ("pairs_past_64_bits", "1", "18446744073709551616"),
        ("no_number", "0x1", "2"),
        ("pairs_no_number", "1", "two"),
    ] {
        stored(&format!("load_{name}"), &folder.output(&["load", "--seed", seed, "--pairs", pairs, "-o", "load.asmap"]));
    }
    stored("load_seed_0_json", &folder.output(&["load", "--json", "--seed", "0", "--pairs", "2", "-o", "load.asmap"]));
    stored("load_json_without_a_file", &folder.output(&["load", "--json", "--pairs", "2"]));
    stored("load_no_pairs", &folder.output(&["load", "-o", "load.asmap"]));
    stored("load_output_folder", &folder.output(&["load", "--pairs", "2", "-o", "."]));
    stored("load_output_no_folder", &folder.output(&["load", "--pairs", "2", "-o", "nowhere/load.asmap"]));
    assert_eq!(names(&folder), before);
}

#[test]
fn a_file_that_is_there_is_replaced_or_stays_as_it_is() {
    let folder = Folder::new();
    let old = fs::read(folder.path("two.asmap")).expect("it is there");
    assert_eq!(status(&folder.output(&["load", "--seed", "0", "--pairs", "2", "-o", "two.asmap"])), 2);
    assert_eq!(fs::read(folder.path("two.asmap")).expect("it is there"), old);
    assert_eq!(status(&folder.output(&["load", "--pairs", "2", "-o", "two.asmap"])), 0);
    assert_eq!(fs::read(folder.path("two.asmap")).ok(), corbastrigo::load(1, 2).ok());
}

#[test]
fn a_load_is_not_for_a_terminal() {
    if !is_there("script") {
        return;
    }
    let seen = on_a_terminal(&Folder::new(), "load --pairs 2", None);
    assert_eq!(
        seen.trim_end(),
        "asmap: these bytes are not for a terminal; name a file with -o, or lead them into another program"
    );
}
