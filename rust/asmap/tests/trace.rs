//! `asmap trace` as a newcomer uses it.
mod common;
use common::{stored, Folder};
use serde_json::Value;

#[test]
fn walks_of_accepted_maps() {
    let folder = Folder::new();
    stored("trace_returned", &folder.output(&["trace", "two.asmap", "3.4.5.6"]));
    stored("trace_differed_without_default", &folder.output(&["trace", "two.asmap", "8.8.8.8"]));
    stored("trace_differed_with_default", &folder.output(&["trace", "loopback.asmap", "127.0.0.3"]));
    stored("trace_not_skipped", &folder.output(&["trace", "loopback.asmap", "127.0.0.1"]));
    stored("trace_json", &folder.output(&["trace", "--json", "loopback.asmap", "127.0.0.3"]));
}

#[test]
fn a_default_holds_over_a_jump_until_another_is_met() {
    let folder = Folder::new();
    // DEFAULT 1, JUMP, in its 0 half DEFAULT 2 and a MATCH of 0, in its 1 half a MATCH of 0; both halves return.
    let program = [(3, 1), (1, 41), (3, 2), (2, 2), (0, 7), (2, 2), (0, 8)];
    folder.write("defaults.asmap", common::packed(&program));
    stored("trace_default_set_again", &folder.output(&["trace", "defaults.asmap", "4000::"]));
    stored("trace_default_before_the_jump", &folder.output(&["trace", "defaults.asmap", "c000::"]));
}

#[test]
fn walks_of_refused_maps() {
    let folder = Folder::new();
    stored("trace_refused", &folder.output(&["trace", "cut.asmap", "3.4.5.6"]));
    stored("trace_unchecked", &folder.output(&["trace", "--unchecked", "cut.asmap", "3.4.5.6"]));
    stored("trace_unchecked_json", &folder.output(&["trace", "--json", "--unchecked", "cut.asmap", "3.4.5.6"]));
    // A MATCH of 00, and the first bit of an opcode.
    folder.write("opcode.asmap", [0x8b]);
    stored("trace_cut_opcode", &folder.output(&["trace", "--unchecked", "opcode.asmap", "::"]));
    folder.write("empty.asmap", []);
    stored("trace_empty", &folder.output(&["trace", "--unchecked", "empty.asmap", "::"]));
    // Sixteen MATCHes of eight zeros, and one more.
    folder.write("bits.asmap", common::packed(&[(2, 256); 17]));
    stored("trace_too_few_bits", &folder.output(&["trace", "--unchecked", "bits.asmap", "::"]));
}

#[test]
fn a_walk_of_too_many_steps_is_not_shown() {
    let folder = Folder::new();
    folder.write("long.asmap", common::packed(&[(3, 1); 1_001]));
    folder.write("less.asmap", common::packed(&[(3, 1); 1_000]));
    stored("trace_too_long", &folder.output(&["trace", "--unchecked", "long.asmap", "::"]));
    let output = folder.output(&["trace", "--json", "--unchecked", "less.asmap", "::"]);
    let trace: Value = serde_json::from_slice(&output.stdout).expect("one object");
    assert_eq!(trace["steps"].as_array().map(Vec::len), Some(1_000));
    assert_eq!(trace["steps"][999]["default_place"], 998 * 19);
}
