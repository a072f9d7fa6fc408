//! `asmap walk` as a person uses it.
mod common;
use common::{large_map, stored, text, Draws, Folder};
use std::io::{BufRead, BufReader, Write};
use std::process::{Command, Stdio};
use std::sync::mpsc;
use std::time::Duration;

const ADDRESSES: [&str; 5] = ["1.2.3.4", "3.4.0.0", "8.8.8.8", "::ffff:1.2.255.255", "2001:db8::1"];

#[test]
fn addresses_as_arguments() {
    let folder = Folder::new();
    stored("walk_two", &folder.output(&[&["walk", "two.asmap"], &ADDRESSES[..]].concat()));
    stored("walk_two_json", &folder.output(&[&["walk", "--json", "two.asmap"], &ADDRESSES[..]].concat()));
    stored("walk_loopback", &folder.output(&["walk", "loopback.asmap", "127.0.0.1", "127.0.0.2", "127.0.0.3", "1.2.3.4"]));
}

#[test]
fn addresses_on_standard_input() {
    let input = "1.2.3.4\r\n\n  3.4.5.6  \n2001:db8:1111:2222:3333:4444:5555:6666\n8.8.8.8";
    stored("walk_input", &Folder::new().output_of(&["walk", "two.asmap", "3.4.5.6", "-"], input));
    stored("walk_no_input", &Folder::new().output_of(&["walk", "two.asmap", "-"], ""));
}

#[test]
fn a_refused_map_is_walked_only_unchecked_and_every_line_says_so() {
    let folder = Folder::new();
    stored("walk_refused", &folder.output(&[&["walk", "cut.asmap"], &ADDRESSES[..]].concat()));
    stored("walk_refused_json", &folder.output(&[&["--json", "walk", "cut.asmap"], &ADDRESSES[..]].concat()));
    stored("walk_unchecked", &folder.output(&[&["walk", "--unchecked", "cut.asmap"], &ADDRESSES[..]].concat()));
    stored("walk_unchecked_json", &folder.output(&[&["--json", "walk", "--unchecked", "cut.asmap"], &ADDRESSES[..]].concat()));
    stored("walk_unchecked_accepted", &folder.output(&["walk", "--unchecked", "two.asmap", "1.2.3.4"]));
}

#[test]
fn every_abort_says_what_aborted_it() {
    let folder = Folder::new();
    folder.write("empty.asmap", []);
    folder.write("past.asmap", [0x01]);
    // 129 JUMPs that are never taken, for an address of zeros: the last finds no bit.
    folder.write("jumps.asmap", [0x01; 129]);
    // A JUMP by 17 bits. Where it is not taken there stands a MATCH of 00 and the first bit of an opcode, or a RETURN without its number;
    // where it is, it leads past the end, or to a DEFAULT without its number.
    folder.write("opcode.asmap", [0x01, 0x8b]);
    folder.write("operand.asmap", [0x01, 0x00, 0x00, 0xff]);
    for name in ["empty", "past", "jumps", "opcode", "operand"] {
        let map = format!("{name}.asmap");
        stored(&format!("walk_aborted_{name}"), &folder.output(&["walk", "--unchecked", &map, "::", "ffff::"]));
        stored(&format!("walk_aborted_{name}_json"), &folder.output(&["--json", "walk", "--unchecked", &map, "::", "ffff::"]));
    }
}

#[test]
fn a_long_list_of_addresses_is_answered_line_by_line() {
    let folder = Folder::new();
    let map = large_map(10, 3);
    folder.write("large.asmap", &map);
    folder.write("half.asmap", &map[..map.len() / 2]);
    let mut draws = Draws(4);
    let addresses: Vec<String> = (0..5_000).map(|_| format!("{:x}::{:x}", draws.below(65_536), draws.below(65_536))).collect();
    let whole = folder.output_of(&["walk", "large.asmap", "-"], addresses.join("\n"));
    let half = folder.output_of(&["walk", "--unchecked", "half.asmap", "-"], addresses.join("\n"));
    assert_eq!((whole.status.code(), half.status.code()), (Some(0), Some(0)));
    let (whole, half) = (text(&whole.stdout), text(&half.stdout));
    assert_eq!((whole.lines().count(), half.lines().count()), (5_000, 5_000));
    let tells = |line: &str| (line.split_whitespace().nth(1) == Some("0")) == line.contains("  0: the walk ");
    assert!(whole.lines().chain(half.lines()).all(tells));
    assert!(half.lines().all(|line| line.contains("  unchecked (refused ")) && !whole.contains("unchecked"));
    // What a sample shows of a cut map: many of its answers are right.
    let number = |line: &str| line.split_whitespace().nth(1).map(String::from);
    let right = whole.lines().zip(half.lines()).filter(|(a, b)| number(a) == number(b)).count();
    let aborted = half.lines().filter(|line| line.contains(" aborted ")).count();
    assert!(right > 1_000 && aborted > 1_000 && !whole.contains(" aborted "), "{right} right, {aborted} aborted");
}

#[test]
fn a_program_that_asks_address_by_address_is_answered_at_once() {
    let folder = Folder::new();
    let mut command = Command::new(env!("CARGO_BIN_EXE_asmap"));
    command.args(["walk", "two.asmap", "-"]).current_dir(folder.path("."));
    let mut child = command.stdin(Stdio::piped()).stdout(Stdio::piped()).spawn().expect("the command runs");
    let mut input = child.stdin.take().expect("its input");
    let output = BufReader::new(child.stdout.take().expect("its output"));
    let (send, answers) = mpsc::channel();
    std::thread::spawn(move || output.lines().for_each(|line| drop(send.send(line))));
    for address in ["1.2.3.4", "8.8.8.8"] {
        writeln!(input, "{address}").expect("it reads on");
        let answer = answers.recv_timeout(Duration::from_secs(20));
        let answered = matches!(&answer, Ok(Ok(line)) if line.starts_with(address));
        if !answered {
            child.kill().expect("it can be ended");
        }
        assert!(answered, "{address}: {answer:?}");
    }
    drop(input);
    assert_eq!(child.wait().expect("it ends").code(), Some(0));
}
