//! `asmap check` as a person uses it.
mod common;
use common::{stored, text, Folder};
use serde_json::Value;

/// A map for each refusal, most of them document 01's examples.
const REFUSED: [(&str, &[u8]); 10] = [
    ("02.asmap", &[0x01]),
    ("03.asmap", &[0x01, 0xfb, 0x03, 0x00]),
    // A MATCH of 00, and the first bit of an opcode.
    ("04.asmap", &[0x8b]),
    ("05.asmap", &[0x07, 0x00, 0x00]),
    ("06.asmap", &[0x00, 0x00, 0x02]),
    ("07.asmap", &[0xfd, 0x71, 0x3a, 0x00, 0x00]),
    ("08.asmap", &MATCH_PAST_END),
    ("09.asmap", &[0x01, 0x01]),
    ("10.asmap", &[0x63, 0x00, 0x00, 0x00]),
    ("19.asmap", &[0xfb]),
];

/// Sixteen MATCHes of a byte, then one of a bit more (the original's ASMAP_MATCH_PAST_END).
const MATCH_PAST_END: [u8; 39] = [
    0xfb, 0x03, 0xec, 0x0f, 0xb0, 0x3f, 0xc0, 0xfe, 0x00, 0xfb, 0x03, 0xec, 0x0f, 0xb0, 0x3f, 0xc0, 0xfe, 0x00, 0xfb, 0x03, 0xec,
    0x0f, 0xb0, 0x3f, 0xc0, 0xfe, 0x00, 0xfb, 0x03, 0xec, 0x0f, 0xb0, 0x3f, 0xc0, 0xfe, 0x00, 0x03, 0x00, 0x00,
];

/// A folder with a map for each refusal, and their names.
fn refused() -> (Folder, Vec<&'static str>) {
    let folder = Folder::new();
    folder.write_sparse("01.asmap", 17_000_000);
    REFUSED.iter().for_each(|(name, bytes)| folder.write(name, bytes));
    (folder, ["01.asmap"].into_iter().chain(REFUSED.map(|(name, _)| name)).collect())
}

#[test]
fn accepted_maps() {
    let folder = Folder::new();
    folder.write("lone.asmap", [0, 0, 0]);
    let arguments = ["check", "two.asmap", "loopback.asmap", "lone.asmap"];
    stored("check_accepted", &folder.output(&arguments));
    stored("check_accepted_json", &folder.output(&[&arguments[..], &["--json"]].concat()));
}

#[test]
fn each_refusal_says_why_and_what_to_do() {
    let (folder, names) = refused();
    stored("check_refused", &folder.output(&[&["check"], &names[..]].concat()));
    stored("check_refused_json", &folder.output(&[&["--json", "check"], &names[..]].concat()));
    for name in names {
        let output = folder.output(&["--json", "check", name]);
        let answer: Value = serde_json::from_slice(&output.stdout).expect("one object");
        let number: u8 = name[..2].parse().expect("a name that tells the number");
        assert_eq!((output.status.code(), &answer["refusal"]), (Some(1), &Value::from(number)));
    }
}

#[test]
fn one_refused_map_among_accepted_ones_is_a_no() {
    stored("check_mixed", &Folder::new().output(&["check", "two.asmap", "cut.asmap", "loopback.asmap"]));
}

#[test]
fn a_map_that_cannot_be_read_does_not_keep_the_others_from_being_checked() {
    let output = Folder::new().output(&["check", "missing.asmap", "cut.asmap", "two.asmap"]);
    stored("check_missing", &output);
    assert!(text(&output.stdout).contains("two.asmap: accepted"));
}

#[test]
fn every_object_has_every_field() {
    let output = Folder::new().output(&["--json", "check", "two.asmap", "cut.asmap"]);
    let objects: Vec<Value> = text(&output.stdout).lines().map(|line| serde_json::from_str(line).expect("an object")).collect();
    let fields = |object: &Value| object.as_object().expect("an object").keys().cloned().collect::<Vec<_>>();
    assert_eq!(objects.len(), 2);
    assert_eq!(fields(&objects[0]), fields(&objects[1]));
}
