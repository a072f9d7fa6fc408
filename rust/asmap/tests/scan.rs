//! `asmap scan`: its outputs, its refusals, and that it says what the library says.
mod common;
use common::{asmap, stored, text, Draws, Folder};
use corbastrigo::scan_occupied;
use serde_json::Value;

/// Occupied groups: 772 stands twice, and the greatest and the least are among them.
const OCCUPIED: &str = "# by peer\n258\n 772 # a note\n\n2056\n772\n18446744073709551615\n0\n";

#[test]
fn scans() {
    let folder = Folder::new();
    folder.write("occupied.txt", OCCUPIED);
    folder.write("none.txt", "# none\n");
    let groups = ["258", "772", "2057", "18446744073709551615", "0", "0772"];
    stored("scan", &folder.output(&[&["scan", "--occupied", "occupied.txt"], &groups[..]].concat()));
    stored("scan_json", &folder.output(&[&["scan", "--json", "--occupied", "occupied.txt"], &groups[..]].concat()));
    stored("scan_input", &folder.output_of(&["scan", "--occupied", "-", "772", "1"], "772"));
    stored("scan_none", &folder.output(&["scan", "--occupied", "none.txt", "0"]));
    stored("scan_none_json", &folder.output(&["scan", "--json", "--occupied", "none.txt", "0"]));
    stored("help_scan", &asmap().args(["scan", "--help"]).output().unwrap());
}

#[test]
fn scans_are_the_library_s() {
    let folder = Folder::new();
    let mut draws = Draws(3);
    for round in 0..40 {
        let occupied: Vec<u64> = (0..draws.below(60)).map(|_| u64::from(draws.below(40))).collect();
        folder.write("occupied.txt", occupied.iter().map(|group| format!("{group}\n")).collect::<String>());
        let words: Vec<String> = (0..40).map(|group: u64| group.to_string()).collect();
        let words: Vec<&str> = words.iter().map(String::as_str).collect();
        let output = folder.output(&[&["scan", "--json", "--occupied", "occupied.txt"], &words[..]].concat());
        let found: Vec<Value> = text(&output.stdout).lines().map(|line| serde_json::from_str(line).expect("an object")).collect();
        assert_eq!(found.len(), 40, "round {round}");
        for (group, object) in (0..).zip(&found) {
            let scan = scan_occupied(group, &occupied).expect("within the limit");
            let fields = ["group", "place", "read"].map(|field| object[field].as_u64());
            assert_eq!(fields, [Some(group), scan.place.map(|place| place as u64), Some(scan.read as u64)], "round {round}");
        }
    }
}

#[test]
fn occupied_groups_are_taken_up_to_the_limit() {
    let folder = Folder::new();
    // Each stands twice: to a pick these are half as many.
    let groups = |count: u32| (0..count).map(|nth| format!("{}\n", nth / 2)).collect::<String>();
    folder.write("occupied.txt", groups(4_096));
    folder.write("too_many.txt", groups(4_097) + "what stands behind is not read\n");
    stored("scan_most", &folder.output(&["scan", "--occupied", "occupied.txt", "0", "2047", "2048"]));
    stored("scan_too_many", &folder.output(&["scan", "--occupied", "too_many.txt", "0", "2047", "2048"]));
    stored("scan_too_many_json", &folder.output(&["scan", "--json", "--occupied", "too_many.txt", "0"]));
}

#[test]
fn scans_that_are_misused() {
    let folder = Folder::new();
    folder.write("occupied.txt", OCCUPIED);
    folder.write("wrong.txt", "1\nAS64496\n");
    stored("scan_wrong_line", &folder.output(&["scan", "--occupied", "wrong.txt", "1"]));
    stored("scan_missing", &folder.output(&["scan", "--occupied", "nothing.here", "1"]));
    stored("scan_folder", &folder.output(&["scan", "--occupied", ".", "1"]));
    stored("scan_word", &folder.output(&["scan", "--occupied", "occupied.txt", "258", "AS64496"]));
    stored("scan_past_64_bits", &folder.output(&["scan", "--occupied", "occupied.txt", "18446744073709551616"]));
    stored("scan_no_group", &folder.output(&["scan", "--occupied", "occupied.txt"]));
    stored("scan_no_occupied", &folder.output(&["scan", "258"]));
}
