//! Wrong input for `asmap check`, `walk` and `trace`, and cut and edited maps for whatever takes a map: files that are none, too large, cut or
//! edited, and addresses that are none.
mod common;
use common::{large_map, stored, text, Folder, TWO_PREFIXES};
use std::ffi::OsStr;
use std::fs;
use std::io::{BufRead, BufReader, Read, Write};
use std::os::unix::ffi::OsStrExt;
use std::process::{Command, Stdio};
use std::time::Duration;

#[test]
fn files_that_cannot_be_read() {
    let folder = Folder::new();
    fs::create_dir(folder.path("folder")).expect("a folder can be made");
    for (name, file) in [("missing", "missing.asmap"), ("folder", "folder")] {
        stored(&format!("wrong_check_{name}"), &folder.output(&["check", file]));
        stored(&format!("wrong_walk_{name}"), &folder.output(&["walk", file, "1.2.3.4"]));
        stored(&format!("wrong_trace_{name}"), &folder.output(&["trace", file, "1.2.3.4"]));
    }
}

#[test]
fn an_empty_file_is_refused() {
    let folder = Folder::new();
    folder.write("empty.asmap", []);
    stored("wrong_check_empty", &folder.output(&["check", "empty.asmap"]));
    stored("wrong_walk_empty", &folder.output(&["walk", "empty.asmap", "1.2.3.4"]));
    stored("wrong_trace_empty", &folder.output(&["trace", "empty.asmap", "1.2.3.4"]));
}

#[test]
fn a_file_over_the_limit_is_refused_and_not_read_whole() {
    let folder = Folder::new();
    for (name, bytes) in [("17_million.asmap", 17_000_000), ("10_gib.asmap", 10 << 30)] {
        folder.write_sparse(name, bytes);
        // In 200 MB of memory no file of 10 GiB is read whole.
        let limited = |arguments: &str| {
            let line = format!("ulimit -v 200000 && exec {} {arguments}", env!("CARGO_BIN_EXE_asmap"));
            let mut shell = assert_cmd::Command::new("sh");
            shell
                .args(["-c", &line])
                .current_dir(folder.path("."))
                .timeout(Duration::from_secs(20))
                .output()
                .expect("it ends in time")
        };
        let stem = name.trim_end_matches(".asmap");
        stored(&format!("wrong_check_{stem}"), &limited(&format!("check {name}")));
        stored(&format!("wrong_walk_{stem}"), &limited(&format!("walk {name} 1.2.3.4")));
        stored(&format!("wrong_walk_unchecked_{stem}"), &limited(&format!("walk --unchecked {name} 1.2.3.4")));
        stored(&format!("wrong_trace_{stem}"), &limited(&format!("trace --unchecked {name} 1.2.3.4")));
    }
}

#[test]
fn a_map_at_the_limit_is_not_refused_for_its_size() {
    let folder = Folder::new();
    folder.write_sparse("limit.asmap", 16_777_216);
    folder.write_sparse("over.asmap", 16_777_217);
    let answer = |name: &str| String::from(text(&folder.output(&["check", name]).stdout));
    assert!(answer("limit.asmap").starts_with("limit.asmap: refused 6:"));
    assert!(answer("over.asmap").starts_with("over.asmap: refused 1:"));
}

#[test]
fn words_that_are_no_address() {
    let folder = Folder::new();
    stored("wrong_address", &folder.output(&["walk", "two.asmap", "1.2.3.4", "1.2.3.4:8333", "3.4.5.6"]));
    stored("wrong_trace_address", &folder.output(&["trace", "two.asmap", "localhost"]));
    stored("wrong_line", &folder.output_of(&["walk", "two.asmap", "-"], "1.2.3.4\n\n3.4.5.6\n1.2.3\n8.8.8.8\n"));
    stored("wrong_line_not_utf8", &folder.output_of(&["walk", "two.asmap", "-"], b"1.2.3.4\n1.2.\xff.4\n"));
    stored(
        "wrong_line_too_long",
        &folder.output_of(&["walk", "two.asmap", "-"], [b"1.2.3.4\n".to_vec(), vec![b'1'; 5_000]].concat()),
    );
    let longest = format!("{:4096}\n1.2.3.4{:4089}\n", "1.2.3.4", "");
    assert_eq!(folder.output_of(&["walk", "two.asmap", "-"], longest).status.code(), Some(0));
}

#[test]
fn a_file_name_that_is_not_utf8_is_taken() {
    let folder = Folder::new();
    let name = OsStr::from_bytes(b"t\xffo.asmap");
    fs::copy(folder.path("two.asmap"), folder.path(".").join(name)).expect("a file can be copied");
    let output = folder.asmap().arg("check").arg(name).output().expect("the command runs");
    assert_eq!((output.status.code(), text(&output.stderr)), (Some(0), ""));
    assert!(text(&output.stdout).starts_with("t\u{fffd}o.asmap: accepted, 35 bytes"));
    let address = folder.asmap().args(["walk", "two.asmap"]).arg(OsStr::from_bytes(b"1.2.\xff.4")).output().expect("it runs");
    assert_eq!(address.status.code(), Some(2));
}

#[test]
fn a_broken_pipe_is_no_error() {
    let folder = Folder::new();
    for json in [&[][..], &["--json"]] {
        let mut command = Command::new(env!("CARGO_BIN_EXE_asmap"));
        command.args(["walk", "two.asmap", "-"]).args(json).current_dir(folder.path("."));
        command.stdin(Stdio::piped()).stdout(Stdio::piped()).stderr(Stdio::piped());
        let mut child = command.spawn().expect("the command runs");
        let mut input = child.stdin.take().expect("its input");
        // Far more than any buffer holds. The command ends before it has read all of it.
        let feeder = std::thread::spawn(move || (0..1_000_000).all(|_| input.write_all(b"1.2.3.4\n").is_ok()));
        let mut first = String::new();
        BufReader::new(child.stdout.take().expect("its output")).read_line(&mut first).expect("a first line");
        assert!(first.contains("1.2.3.4"));
        let mut said = String::new();
        child.stderr.take().expect("its messages").read_to_string(&mut said).expect("UTF-8");
        assert_eq!((child.wait().expect("it ends").code(), said.as_str()), (Some(0), ""));
        assert!(!feeder.join().expect("the feeder ends"), "the command read all of its input");
    }
}

/// The bit at which a refusal was met.
fn met_at(words: &str) -> Option<usize> {
    let (_, after) = words.split_once("  at       bit ")?;
    after.split(':').next()?.parse().ok()
}

#[test]
fn a_map_cut_at_any_page_is_refused_and_never_used_quietly() {
    let folder = Folder::new();
    let map = large_map(15, 1);
    assert!(map.len() > 100_000);
    folder.write("whole.asmap", &map);
    folder.write("candidates.txt", "1.2.3.4:8333\n");
    assert_eq!(folder.output(&["walk", "whole.asmap", "1.2.3.4"]).status.code(), Some(0));
    assert_eq!(folder.output(&["page", "--map", "whole.asmap", "candidates.txt"]).status.code(), Some(0));
    for cut in (0..map.len()).step_by(4_096) {
        folder.write("page.asmap", &map[..cut]);
        let check = folder.output(&["check", "page.asmap"]);
        assert_eq!(check.status.code(), Some(1), "{cut}");
        let words = text(&check.stdout);
        let named = ["refused 2: the map ends where", "refused 4: an opcode is cut by", "refused 19: an operand is cut by"]
            .map(|reason| format!("page.asmap: {reason}"));
        assert!(named.iter().any(|reason| words.starts_with(reason)) && words.contains("\n  usually  "), "{cut}: {words}");
        assert!(met_at(words).is_some_and(|bit| bit <= 8 * cut && bit + 57 > 8 * cut), "{cut}: {words}");
        never_used(&folder, "page.asmap", "");
    }
}

/// Whatever takes a map refuses this one, in these words, and answers nothing. The folder has `candidates.txt`.
fn never_used(folder: &Folder, map: &str, words: &str) {
    for subcommand in [
        &["walk", map, "1.2.3.4"][..],
        &["trace", map, "1.2.3.4"],
        &["list", map],
        &["unpack", map],
        &["group", "--map", map, "1.2.3.4"],
        &["pick", "--max", "1", "--map", map, "candidates.txt"],
        &["page", "--map", map, "candidates.txt"],
    ] {
        let output = folder.output(subcommand);
        assert_eq!((output.status.code(), text(&output.stdout)), (Some(1), ""), "{subcommand:?}");
        assert!(text(&output.stderr).starts_with(&format!("asmap: {map} is refused, {words}")), "{subcommand:?}");
    }
}

#[test]
fn a_map_edited_at_its_end_is_refused_and_never_used_quietly() {
    let folder = Folder::new();
    folder.write("candidates.txt", "1.2.3.4:8333\n");
    // The bits behind the opcode of the last RETURN set to ones; its second byte taken out; a byte taken off the end.
    let mut longer = TWO_PREFIXES.to_vec();
    longer[32] = 0xfe;
    let mut taken = TWO_PREFIXES.to_vec();
    taken.remove(33);
    for (kind, map) in [longer, taken, TWO_PREFIXES[..34].to_vec()].iter().enumerate() {
        folder.write("edited.asmap", map);
        let check = folder.output(&["check", "edited.asmap"]);
        let words = text(&check.stdout);
        assert!(words.starts_with("edited.asmap: refused 19: an operand is cut by the map's end\n"), "{kind}: {words}");
        assert!(words.contains("\n  usually  the map was edited, ") && met_at(words) == Some(256), "{kind}: {words}");
        never_used(&folder, "edited.asmap", "19: an operand is cut by the map's end; ");
        // Two of three walks come out right all the same, and the third says what is cut.
        let walks = folder.output(&["walk", "--unchecked", "edited.asmap", "1.2.0.0", "8.8.8.8", "3.4.0.0"]);
        let ends: Vec<&str> = text(&walks.stdout).lines().filter_map(|line| line.split_whitespace().nth(2)).collect();
        assert_eq!(ends, ["returned", "differed", "aborted"], "{kind}");
        assert!(text(&walks.stdout).ends_with("the map ends within the operand of the RETURN at bit 256\n"), "{kind}");
    }
}
