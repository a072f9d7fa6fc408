//! `asmap page`: its outputs, its bars, its refusals, and that it prints what the library makes.
mod common;
use common::{asmap, drawn, is_there, on_a_terminal, on_a_terminal_of, said, status, stored, text, By, Draws, Folder};
use serde_json::{json, Value};
use std::collections::BTreeMap;
use std::net::{Ipv4Addr, SocketAddr};

/// Sixteen candidates: one is in a group of its own, and equal ones count each.
const CANDIDATES: &str = "\
# any order
3.4.0.1:8333
1.2.3.4:8333   # a note

1.2.3.4:8333
\t1.2.3.4:8334
1.2.9.9:8333
8.8.8.8:8333
8.8.4.4:8333
8.9.8.8:8333
[2001:db8::1]:8333
[2001:db8:1::1]:8333
[2001:db8:2::1]:8333
[2001:db8:3::1]:8333
[2001:db8:4::1]:8333
[::ffff:1.2.3.4]:8333
0.0.1.2:8333
[::1]:8333
";

/// A list with so many candidates in each of the prefixes from 1.0.0.0/16 on, whose group is 4,294,967,552.
fn list(counts: &[u32]) -> String {
    let group =
        |(nth, &count): (u32, &u32)| (0..count).map(move |low| format!("{}:8333\n", Ipv4Addr::from((256 + nth) << 16 | low)));
    (0..).zip(counts).flat_map(group).collect()
}

#[test]
fn pages() {
    let folder = Folder::new();
    folder.write("candidates.txt", CANDIDATES);
    folder.write("none.txt", "# none\n");
    stored("page", &folder.output(&["page", "candidates.txt"]));
    stored("page_json", &folder.output(&["page", "--json", "candidates.txt"]));
    stored("page_old", &folder.output(&["page", "--old-prefixes", "candidates.txt"]));
    stored("page_old_json", &folder.output(&["page", "--json", "--old-prefixes", "candidates.txt"]));
    stored("page_map", &folder.output(&["page", "--map", "two.asmap", "candidates.txt"]));
    stored("page_map_json", &folder.output(&["page", "--json", "-m", "two.asmap", "candidates.txt"]));
    stored("page_default", &folder.output(&["page", "--map", "loopback.asmap", "candidates.txt"]));
    stored("page_input", &folder.output_of(&["page", "-"], "1.2.3.4:8333"));
    stored("page_no_candidates", &folder.output(&["page", "none.txt"]));
    stored("page_no_candidates_map", &folder.output(&["page", "--map", "two.asmap", "none.txt"]));
    stored("page_no_candidates_json", &folder.output(&["page", "--json", "none.txt"]));
    stored("help_page", &asmap().args(["page", "--help"]).output().unwrap());
}

/// Candidates of all, and the per cents of both groups. The first is half between two tenths.
const HALVES: [(u32, u32, &str, &str); 8] = [
    (1, 16, "6.3", "93.8"),
    (3, 16, "18.8", "81.3"),
    (5, 16, "31.3", "68.8"),
    (7, 16, "43.8", "56.3"),
    (2, 32, "6.3", "93.8"),
    (6, 32, "18.8", "81.3"),
    (1, 80, "1.3", "98.8"),
    (1, 2_000, "0.1", "100.0"),
];

#[test]
fn exact_halves_are_rounded_up() {
    let folder = Folder::new();
    for (count, all, first, second) in HALVES {
        let input = list(&[count, all - count]);
        let wanted = format!("4294967552 {count:>6} {first:>6}\n4294967553 {:>6} {second:>6}\n", all - count);
        assert_eq!(text(&folder.output_of(&["page", "-"], &input).stdout), wanted);
        let objects = folder.output_of(&["page", "--json", "-"], &input);
        for (line, per_cent) in text(&objects.stdout).lines().zip([first, second]) {
            assert!(line.contains(&format!("\"per_cent\":{per_cent},")), "{count} of {all}: {line}");
        }
    }
}

/// The shares of a page, counted here.
fn counted(candidates: &[SocketAddr], by: By) -> Vec<Value> {
    let mut groups = BTreeMap::new();
    candidates.iter().for_each(|&candidate| *groups.entry(by.group(candidate)).or_insert(0) += 1);
    let share = |(group, count): (&u64, &usize)| {
        let tenths = (2_000 * count / candidates.len()).div_ceil(2);
        let per_cent: f64 = format!("{}.{}", tenths / 10, tenths % 10).parse().expect("a number");
        json!({ "group": group, "candidates": count, "tenths": tenths, "per_cent": per_cent })
    };
    groups.iter().map(share).collect()
}

#[test]
fn pages_are_the_library_s() {
    let folder = Folder::new();
    let mut draws = Draws(4);
    for (round, by) in (0..90).zip(By::ALL.into_iter().cycle()) {
        let candidates: Vec<SocketAddr> = (0..draws.below(90)).map(|_| drawn(&mut draws)).collect();
        folder.write("candidates.txt", candidates.iter().map(|candidate| format!("{candidate}\n")).collect::<String>());
        let output = folder.output(&[&["page", "candidates.txt"], by.arguments()].concat());
        assert_eq!(text(&output.stdout), by.page(&candidates).expect("within the limit").as_str(), "round {round}");
        let output = folder.output(&[&["page", "--json", "candidates.txt"], by.arguments()].concat());
        let mut found: Vec<Value> =
            text(&output.stdout).lines().map(|line| serde_json::from_str(line).expect("an object")).collect();
        let summary = found.pop().expect("a summary");
        assert_eq!(summary, json!({ "kind": "summary", "by": by.word(), "candidates": candidates.len(), "groups": found.len() }));
        let wanted = counted(&candidates, by);
        assert_eq!(found.len(), wanted.len(), "round {round}");
        for (object, wanted) in found.iter().zip(wanted) {
            wanted.as_object().expect("an object").iter().for_each(|(field, value)| assert_eq!(&object[field], value, "{object}"));
            assert_eq!((&object["kind"], &object["by"]), (&json!("share"), &json!(by.word())));
            assert_eq!(object["why_zero"].is_string(), object["group"] == 0, "{object}");
        }
    }
}

#[test]
fn candidates_are_taken_up_to_the_limit() {
    let folder = Folder::new();
    let one = folder.output_of(&["page", "-"], list(&[4_096]));
    assert_eq!((status(&one), text(&one.stdout), said(&one)), (0, "4294967552   4096  100.0\n", ""));
    let each = folder.output_of(&["page", "-"], list(&[1; 4_096]));
    let wanted: String = (4_294_967_552..).take(4_096).map(|group: u64| format!("{group:>10}      1    0.0\n")).collect();
    assert_eq!((status(&each), text(&each.stdout), said(&each)), (0, wanted.as_str(), ""));
    let each = folder.output_of(&["page", "--old-prefixes", "-"], list(&[1; 4_096]));
    let wanted: String = (256..).take(4_096).map(|group: u64| format!("{group:>10}      1    0.0\n")).collect();
    assert_eq!((status(&each), text(&each.stdout), said(&each)), (0, wanted.as_str(), ""));
    folder.write("too_many.txt", list(&[4_097]) + "what stands behind is not read\n");
    stored("page_too_many", &folder.output(&["page", "too_many.txt"]));
    stored("page_too_many_map", &folder.output(&["page", "--map", "two.asmap", "too_many.txt"]));
    stored("page_too_many_old", &folder.output(&["page", "--old-prefixes", "too_many.txt"]));
    stored("page_too_many_json", &folder.output(&["page", "--json", "too_many.txt"]));
}

#[test]
fn pages_that_are_misused() {
    let folder = Folder::new();
    folder.write("candidates.txt", CANDIDATES);
    stored("page_cut", &folder.output(&["page", "--map", "cut.asmap", "candidates.txt"]));
    stored("page_cut_json", &folder.output(&["page", "--json", "--map", "cut.asmap", "candidates.txt"]));
    stored("page_map_missing", &folder.output(&["page", "--map", "nothing.here", "candidates.txt"]));
    stored("page_missing", &folder.output(&["page", "nothing.here"]));
    stored("page_folder", &folder.output(&["page", "."]));
    stored("page_without_a_list", &folder.output(&["page"]));
    stored("page_old_and_map", &folder.output(&["page", "--old-prefixes", "-m", "two.asmap", "candidates.txt"]));
    stored("page_two_lists", &folder.output(&["page", "candidates.txt", "candidates.txt"]));
}

#[test]
fn a_terminal_shows_bars() {
    if !is_there("script") {
        return;
    }
    let folder = Folder::new();
    folder.write("spread.txt", list(&[1, 4, 3, 0, 72]));
    let shown = |columns, lengths: [usize; 4]| {
        let lines = ["2      1    1.3", "3      4    5.0", "4      3    3.8", "6     72   90.0"];
        let line = |(line, length)| format!("429496755{line}  {}", "#".repeat(length)).trim_end().to_string() + "\r\n";
        let wanted: String = lines.into_iter().zip(lengths).map(line).collect();
        assert_eq!(on_a_terminal_of(columns, &folder, "page spread.txt", Some("1")), wanted, "{columns} columns");
    };
    shown(126, [1, 5, 3, 90]);
    shown(80, [0, 2, 2, 48]);
    shown(28, [0, 0, 0, 1]);
    shown(26, [0; 4]);
    shown(10, [0; 4]);
    folder.write("one.txt", list(&[3]));
    for (columns, length) in [(27, 1), (80, 54), (200, 174)] {
        let wanted = format!("4294967552      3  100.0  {}\r\n", "#".repeat(length));
        assert_eq!(on_a_terminal_of(columns, &folder, "page one.txt", Some("1")), wanted);
    }
    // One that does not tell its width is taken for 80 columns.
    let wanted = format!("4294967552      3  100.0  \x1b[2m{}\x1b[0m\r\n", "#".repeat(54));
    assert_eq!(on_a_terminal(&folder, "page one.txt", None), wanted);
}

#[test]
fn a_terminal_says_what_a_group_0_comes_from_and_why_there_is_no_line() {
    if !is_there("script") {
        return;
    }
    let folder = Folder::new();
    folder.write("candidates.txt", CANDIDATES);
    let last = |command: &str| on_a_terminal(&folder, command, None).lines().last().map(String::from);
    let zero = "group 0: the walk differed before any DEFAULT was met";
    assert_eq!(last("page --map two.asmap candidates.txt").as_deref(), Some(zero));
    assert!(!on_a_terminal(&folder, "page --map loopback.asmap candidates.txt", None).contains("group 0"));
    // By the new numbering IPv6 alone has a group 0; by the old also 0.0.0.0/16, and every mapped address.
    assert_eq!(last("page candidates.txt").as_deref(), Some("group 0: the first four bytes are 0"));
    let prefixes = last("page --old-prefixes candidates.txt").expect("a line");
    assert!(prefixes.starts_with("group 0: the first four bytes are 0, as of every mapped IPv4 address; "), "{prefixes}");
    assert!(prefixes.ends_with("; or the first two bytes are 0; or the first four bytes are 0"), "{prefixes}");
    folder.write("none.txt", "");
    assert_eq!(on_a_terminal(&folder, "page none.txt", None), "asmap: nothing is printed, because the list has no candidates\r\n");
    // With --json, and wherever it does not go to a terminal, it is what it always is.
    for arguments in [&["page", "--json", "candidates.txt"][..], &["page", "candidates.txt"]] {
        let line = format!("{} > printed", arguments.join(" "));
        assert_eq!(on_a_terminal(&folder, &line, None), "");
        assert_eq!(std::fs::read(folder.path("printed")).expect("what was printed"), folder.output(arguments).stdout);
    }
    let objects = text(&folder.output(&["page", "--json", "candidates.txt"]).stdout).replace('\n', "\r\n");
    assert_eq!(on_a_terminal(&folder, "page --json candidates.txt", None), objects);
}
