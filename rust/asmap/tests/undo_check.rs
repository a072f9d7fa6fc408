//! `asmap undo-check`: its first line, its exit status, and that no map is called safe which sends an address elsewhere.
mod common;
use common::{asmap, large_map, maps, packed, said, status, stored, text, Draws, Folder, TWO_PREFIXES};
use corbastrigo::{first_change, sanity_check};
use std::fs;
use std::process::Output;

/// The first line.
fn verdict(output: &Output) -> &str {
    text(&output.stdout).lines().next().unwrap_or_default()
}

#[test]
fn the_first_line_says_what_to_do() {
    let folder = Folder::new();
    folder.write("restored.asmap", TWO_PREFIXES);
    let mut three = TWO_PREFIXES;
    // The number of the last RETURN, less one, stands in the bits 258 to 272, the highest first.
    (three[33], three[34]) = (0x80, 0);
    folder.write("three.asmap", three);
    folder.write("above.asmap", packed(&[(3, 5), (1, 22), (2, 2), (0, 7), (2, 2), (0, 8)]));
    folder.write("below.asmap", packed(&[(1, 41), (3, 5), (2, 2), (0, 7), (3, 5), (2, 2), (0, 8)]));
    folder.write("short.asmap", [0x63, 0]);
    for (name, old, restored) in [
        ("same_bytes", "two.asmap", "restored.asmap"),
        ("same_numbers", "above.asmap", "below.asmap"),
        ("changed", "two.asmap", "three.asmap"),
        ("refused", "two.asmap", "cut.asmap"),
        ("refused_old", "cut.asmap", "two.asmap"),
        ("refused_both", "cut.asmap", "short.asmap"),
        // What is refused is not safe for being what it was.
        ("refused_same", "cut.asmap", "cut.asmap"),
        ("missing", "two.asmap", "nowhere"),
        ("folder", ".", "two.asmap"),
    ] {
        stored(&format!("undo_check_{name}"), &folder.output(&["undo-check", old, restored]));
        stored(&format!("undo_check_objects_{name}"), &folder.output(&["--json", "undo-check", old, restored]));
    }
    stored("undo_check_one", &folder.output(&["undo-check", "two.asmap"]));
    stored("help_undo_check", &asmap().args(["undo-check", "--help"]).output().unwrap());
}

#[test]
fn the_story_s_undone_map_is_not_to_be_used() {
    let folder = Folder::new();
    let story = fs::read(concat!(env!("CARGO_MANIFEST_DIR"), "/../../docs/story/node.asmap")).expect("the story's map");
    folder.write("node.asmap", &story);
    folder.write("undone.asmap", &story[..story.len() / 4_096 * 4_096]);
    stored("undo_check_story", &folder.output(&["undo-check", "node.asmap", "undone.asmap"]));
}

#[test]
fn a_map_that_lost_its_end_is_never_safe() {
    let folder = Folder::new();
    let map = large_map(4, 7);
    folder.write("old.asmap", &map);
    for length in 0..map.len() {
        folder.write("restored.asmap", &map[..length]);
        let output = folder.output(&["undo-check", "old.asmap", "restored.asmap"]);
        assert_eq!((status(&output), said(&output)), (3, ""), "the first {length} bytes");
        assert!(verdict(&output).starts_with("DO NOT USE: the restored map is refused, "), "the first {length} bytes");
    }
}

/// What a map damaged in one place is said to be, held to the library.
fn hold(folder: &Folder, old: &[u8], restored: &[u8]) -> i32 {
    folder.write("old.asmap", old);
    folder.write("restored.asmap", restored);
    let output = folder.output(&["undo-check", "old.asmap", "restored.asmap"]);
    let wanted = match (sanity_check(restored), first_change(old, restored)) {
        (Err(_), _) => (3, "DO NOT USE: the restored map is refused, "),
        (Ok(_), Ok(None)) if old == restored => (0, "SAFE: the restored map is the old one, byte for byte"),
        (Ok(_), Ok(None)) => (0, "SAFE: other bytes, the same number for every address"),
        (Ok(_), found) => (i32::from(found.is_ok()), "DO NOT USE: the restored map has another number for "),
    };
    assert_eq!(status(&output), wanted.0);
    assert!(verdict(&output).starts_with(wanted.1), "{}", verdict(&output));
    assert!(wanted.0 == 0 || !text(&output.stdout).contains("SAFE"));
    wanted.0
}

#[test]
fn damaged_maps_are_safe_only_where_no_address_notices() {
    let folder = Folder::new();
    let mut draws = Draws(8);
    let mut met = [0; 4];
    for map in maps().into_iter().skip(20) {
        let bit = draws.below(8 * map.len() as u32);
        let mut turned = map.clone();
        turned[bit as usize / 8] ^= 1 << (bit % 8);
        for restored in [&turned, &map] {
            met[hold(&folder, &map, restored) as usize] += 1;
        }
    }
    assert!(met[0] >= 44 && met[1] > 5 && met[3] > 5, "{met:?}");
}
