//! `asmap unpack` and `asmap pack`: their outputs, their refusals, and that one undoes the other. What `asmap list` does as unpack does, by
//! the same code, is tried of both.
mod common;
use common::{asmap, deep_map, large_map, maps, names, said, status, stored, text, Folder, TWO_PREFIXES};
use corbastrigo::codes::{decode_instruction, encode_instruction};
use std::fs;
use std::os::unix::fs::{symlink, PermissionsExt};
use std::process::{Output, Stdio};

/// The subcommands that write what the library makes of a map.
const LISTS: [&str; 2] = ["unpack", "list"];

/// What `asmap pack` with these arguments makes of a list on standard input.
fn packed(folder: &Folder, arguments: &[&str], list: impl AsRef<[u8]>) -> Output {
    folder.output_of(&[&["pack", "-"], arguments].concat(), list)
}

#[test]
fn lists_of_a_map() {
    let folder = Folder::new();
    stored("unpack", &folder.output(&["unpack", "two.asmap"]));
    stored("unpack_default", &folder.output(&["unpack", "loopback.asmap"]));
    stored("unpack_json", &folder.output(&["--json", "unpack", "loopback.asmap"]));
    stored("unpack_cut", &folder.output(&["unpack", "cut.asmap"]));
    stored("help_unpack", &asmap().args(["unpack", "--help"]).output().unwrap());
    stored("help_pack", &asmap().args(["pack", "--help"]).output().unwrap());
}

#[test]
fn jumps_indent_what_they_skip() {
    let folder = Folder::new();
    folder.write("deep.asmap", deep_map());
    let list = folder.output(&["unpack", "deep.asmap"]);
    let indents: Vec<usize> = text(&list.stdout).lines().map(|line| line.len() - line.trim_start().len()).collect();
    let inward = (0..=128).map(|jumps| 2 * jumps);
    let outward = (0..128).rev().map(|jumps| 2 * jumps);
    assert_eq!(indents, inward.chain(outward).collect::<Vec<_>>());
}

#[test]
fn pack_undoes_unpack_for_text_and_records() {
    let folder = Folder::new();
    for (place, map) in maps().into_iter().enumerate() {
        folder.write("a.asmap", &map);
        for form in [&[][..], &["--records"]] {
            let list = folder.output(&[&["unpack", "a.asmap"], form].concat());
            assert_eq!((status(&list), said(&list)), (0, ""), "map {place}");
            let again = packed(&folder, form, list.stdout);
            assert!(status(&again) == 0 && again.stdout == map, "map {place} {form:?}: {}", said(&again));
        }
    }
}

#[test]
fn records_are_the_library_s() {
    let folder = Folder::new();
    for map in maps().iter().take(8) {
        folder.write("a.asmap", map);
        let wanted = corbastrigo::unpack(map).expect("the map is accepted");
        assert_eq!(folder.output(&["unpack", "--records", "a.asmap"]).stdout, wanted);
        assert_eq!(status(&folder.output(&["unpack", "--records", "-o", "a.records", "a.asmap"])), 0);
        assert_eq!(fs::read(folder.path("a.records")).expect("it was written"), wanted);
    }
}

#[test]
fn json_and_text_list_the_same_instructions() {
    let folder = Folder::new();
    for (place, map) in maps().into_iter().enumerate().take(12) {
        folder.write("a.asmap", &map);
        let (lines, objects) = (folder.output(&["unpack", "a.asmap"]), folder.output(&["unpack", "--json", "a.asmap"]));
        assert_eq!(text(&lines.stdout).lines().count(), text(&objects.stdout).lines().count());
        for (line, object) in text(&lines.stdout).lines().zip(text(&objects.stdout).lines()) {
            let object: serde_json::Value = serde_json::from_str(object).expect("an object");
            let operand = object["match_bits"].as_str().map_or(object["operand"].to_string(), str::to_string);
            let indent = " ".repeat(2 * object["open_jumps"].as_u64().expect("a count") as usize);
            let start = format!("{indent}{} {operand} ", object["opcode"].as_str().expect("a name"));
            assert!(line.starts_with(&start), "map {place}: {line:?} does not start {start:?}");
            assert!(line.contains(&format!("# bit {}", object["place"])), "map {place}: {line:?} has no place");
        }
    }
}

#[test]
fn a_list_is_free_in_its_form() {
    let folder = Folder::new();
    let wanted = packed(&folder, &[], "JUMP 17\n  RETURN 5\nRETURN 6\n");
    assert_eq!(status(&wanted), 0);
    for list in
        ["jump 17\r\nReturn 5\r\n\r\nRETURN 6", "# a list\n\t JUMP\t17#skip\n\n \nreturn 0005 # five\n        RETURN 6   \n"]
    {
        assert_eq!(packed(&folder, &[], list).stdout, wanted.stdout, "{list:?}");
    }
}

#[test]
fn pack_says_what_came_out() {
    let folder = Folder::new();
    folder.write("list.txt", "JUMP 17\n  RETURN 5\nRETURN 6\n");
    stored("pack", &folder.output(&["pack", "-o", "new.asmap", "list.txt"]));
    stored("pack_json", &folder.output(&["pack", "--json", "-o", "new.asmap", "list.txt"]));
    stored("pack_unpacked", &folder.output(&["unpack", "new.asmap"]));
    stored("pack_json_without_a_file", &folder.output(&["pack", "--json", "list.txt"]));
}

#[test]
fn a_map_that_the_check_refuses_is_written_only_where_asked() {
    let folder = Folder::new();
    let list = "JUMP 18\n  RETURN 5\nRETURN 6\n";
    folder.write("list.txt", list);
    folder.write("old.asmap", "old");
    stored("pack_refused", &folder.output(&["pack", "-o", "old.asmap", "list.txt"]));
    stored("pack_refused_json", &folder.output(&["pack", "--json", "-o", "old.asmap", "list.txt"]));
    assert_eq!(fs::read(folder.path("old.asmap")).expect("it is there"), b"old");
    assert_eq!(packed(&folder, &[], list).stdout, b"");
    stored("pack_unchecked", &folder.output(&["pack", "--unchecked", "-o", "old.asmap", "list.txt"]));
    stored("pack_unchecked_json", &folder.output(&["pack", "--unchecked", "--json", "-o", "old.asmap", "list.txt"]));
    let written = fs::read(folder.path("old.asmap")).expect("it is there");
    assert_eq!(corbastrigo::sanity_check(&written).expect_err("refused").number(), 7);
    assert_eq!(packed(&folder, &["--unchecked"], list).stdout, written);
    assert_eq!(names(&folder), ["cut.asmap", "list.txt", "loopback.asmap", "old.asmap", "two.asmap"]);
}

/// A list's file, and what is wrong in it.
const WRONG_LISTS: [(&str, &[u8]); 15] = [
    ("no_opcode", b"RETURN 1\nRETRUN 2\n"),
    ("no_operand", b"\n\nJUMP # forgotten\n"),
    ("two_instructions", b"RETURN 1 RETURN 2\n"),
    ("no_number", b"RETURN AS64496\n"),
    ("negative", b"DEFAULT -1\n"),
    ("number_0", b"RETURN 0\n"),
    ("number_too_great", b"DEFAULT 33521665\n"),
    ("number_past_32_bits", b"RETURN 99999999999999999999\n"),
    ("jump_too_short", b"JUMP 16\n"),
    ("jump_too_far", b"JUMP 2147483633\n"),
    ("match_of_9_bits", b"MATCH 000000001\n"),
    ("match_of_40_bits", b"MATCH 0000000000000000000000000000000000000001\n"),
    ("match_no_bits", b"MATCH 258\n"),
    ("not_utf8", b"RETURN 1\n# \xff\n"),
    ("empty", b"# nothing\n\n"),
];

#[test]
fn wrong_lists_name_the_line_and_leave_the_output_as_it_was() {
    let folder = Folder::new();
    folder.write("old.asmap", "old");
    for (name, list) in WRONG_LISTS {
        folder.write("list.txt", list);
        stored(&format!("pack_wrong_{name}"), &folder.output(&["pack", "-o", "old.asmap", "list.txt"]));
        assert_eq!(fs::read(folder.path("old.asmap")).expect("it is there"), b"old", "{name}");
    }
    assert_eq!(names(&folder), ["cut.asmap", "list.txt", "loopback.asmap", "old.asmap", "two.asmap"]);
}

#[test]
fn operands_reach_their_limits() {
    let folder = Folder::new();
    for (operand, list) in
        [("RETURN", "RETURN 33521664"), ("DEFAULT", "DEFAULT 33521664"), ("JUMP", "JUMP 2147483632"), ("MATCH", "MATCH 11111111")]
    {
        let output = packed(&folder, &["--unchecked"], list);
        assert_eq!(status(&output), 0, "{operand}: {}", said(&output));
        let (opcode, found, _) = decode_instruction(&output.stdout, 0).expect("an instruction");
        assert!(["RETURN", "JUMP", "MATCH", "DEFAULT"][opcode as usize] == operand && found >= 511, "{list}: {opcode} {found}");
    }
}

/// The records of two.asmap with a byte of one of them changed.
fn changed(place: usize, byte: usize, value: u8) -> Vec<u8> {
    let mut records = corbastrigo::unpack(&TWO_PREFIXES).expect("accepted");
    records[place * 16 + byte] = value;
    records
}

#[test]
fn wrong_records_name_the_record() {
    let folder = Folder::new();
    let whole = changed(0, 0, 2);
    let wrong = [
        ("opcode", changed(5, 0, 4)),
        ("operand", changed(14, 4, 0)),
        ("zero", changed(3, 2, 1)),
        ("place", changed(0, 8, 1)),
        ("length", changed(15, 12, 16)),
        ("cut", whole[..100].to_vec()),
        ("text", b"RETURN 1\n".to_vec()),
    ];
    for (name, records) in wrong {
        folder.write("list.records", records);
        stored(&format!("pack_records_wrong_{name}"), &folder.output(&["pack", "--records", "-o", "new.asmap", "list.records"]));
    }
    assert_eq!(names(&folder), ["cut.asmap", "list.records", "loopback.asmap", "two.asmap"]);
    assert_eq!(packed(&folder, &["--records"], whole).stdout, TWO_PREFIXES);
}

#[test]
fn lists_past_the_limit_are_refused_and_not_read_whole() {
    let folder = Folder::new();
    folder.write_sparse("huge", 10 << 30);
    stored("pack_huge_text", &folder.output(&["pack", "-o", "new.asmap", "huge"]));
    stored("pack_huge_records", &folder.output(&["pack", "--records", "-o", "new.asmap", "huge"]));
    LISTS.iter().for_each(|list| stored(&format!("{list}_huge"), &folder.output(&[list, "huge"])));
    // A JUMP to the far end has 57 bits or less, so that this many are more than the largest map has.
    let jump = "JUMP 2147483632\n";
    let bits = encode_instruction(1, 2_147_483_632).expect("a jump").len;
    let enough = 8 * corbastrigo::MAX_MAP_BYTES / bits + 1;
    let record = |place: usize| [1, 2_147_483_632, place as u32, bits as u32].map(u32::to_le_bytes).concat();
    folder.write("list.records", (0..enough + 9).flat_map(|nth| record(nth * bits)).collect::<Vec<u8>>());
    stored("pack_records_too_large", &folder.output(&["pack", "--records", "--unchecked", "-o", "new.asmap", "list.records"]));
    // What stands behind the line that is too much is not read: it would be an error of its own.
    stored("pack_too_large", &packed(&folder, &["--unchecked"], jump.repeat(enough) + "no instruction\n"));
}

#[test]
fn nothing_is_written_over_its_input() {
    let folder = Folder::new();
    folder.write("list.txt", "RETURN 1\n");
    symlink("list.txt", folder.path("link.txt")).expect("a link");
    folder.write("-", TWO_PREFIXES);
    for list in LISTS {
        stored(&format!("{list}_over_input"), &folder.output(&[list, "-o", "two.asmap", "two.asmap"]));
        stored(&format!("{list}_over_odd_input"), &folder.output(&[list, "-o", "-", "-"]));
    }
    stored("pack_over_input", &folder.output(&["pack", "-o", "./list.txt", "list.txt"]));
    stored("pack_over_linked_input", &folder.output(&["pack", "-o", "link.txt", "list.txt"]));
    assert_eq!(fs::read(folder.path("list.txt")).expect("it is there"), b"RETURN 1\n");
    assert_eq!(fs::read(folder.path("two.asmap")).expect("it is there"), TWO_PREFIXES);
}

#[test]
fn a_redirected_input_is_not_written_over() {
    let folder = Folder::new();
    folder.write("list.txt", "RETURN 1\n");
    let mut command = std::process::Command::new(env!("CARGO_BIN_EXE_asmap"));
    let input = fs::File::open(folder.path("list.txt")).expect("a file");
    let output = command.current_dir(folder.path(".")).args(["pack", "-o", "list.txt", "-"]).stdin(input).output();
    stored("pack_over_redirected_input", &output.expect("the command runs"));
    assert_eq!(fs::read(folder.path("list.txt")).expect("it is there"), b"RETURN 1\n");
}

#[test]
fn an_output_that_cannot_be_written_leaves_nothing() {
    let folder = Folder::new();
    fs::create_dir(folder.path("folder")).expect("a folder");
    folder.write("list.txt", "RETURN 1\n");
    for (name, output) in [("folder", "folder"), ("no_folder", "no/where"), ("device", "/dev/null"), ("below_a_file", "list.txt/x")]
    {
        for list in LISTS {
            stored(&format!("{list}_output_{name}"), &folder.output(&[list, "-o", output, "two.asmap"]));
        }
        stored(&format!("pack_output_{name}"), &folder.output(&["pack", "-o", output, "list.txt"]));
    }
    assert_eq!(names(&folder), ["cut.asmap", "folder", "list.txt", "loopback.asmap", "two.asmap"]);
    assert_eq!(fs::read_dir(folder.path("folder")).expect("a folder").count(), 0);
}

#[test]
fn an_output_that_breaks_off_leaves_the_old_one() {
    let folder = Folder::new();
    folder.write("large.asmap", large_map(12, 1));
    folder.write("old", "old");
    for list in LISTS {
        // A write past the limit then fails, as it does on a full disk, instead of ending the command.
        let line = format!("trap '' XFSZ; ulimit -f 8; exec {} {list} -o old large.asmap", env!("CARGO_BIN_EXE_asmap"));
        let output = std::process::Command::new("sh").args(["-c", &line]).current_dir(folder.path(".")).output();
        stored(&format!("{list}_breaks_off"), &output.expect("a shell runs"));
    }
    assert_eq!(fs::read(folder.path("old")).expect("it is there"), b"old");
    assert_eq!(names(&folder), ["cut.asmap", "large.asmap", "loopback.asmap", "old", "two.asmap"]);
}

#[test]
fn an_output_is_replaced_behind_its_link_and_with_its_permissions() {
    let folder = Folder::new();
    folder.write("old.txt", "old");
    fs::set_permissions(folder.path("old.txt"), fs::Permissions::from_mode(0o600)).expect("they can be set");
    symlink("old.txt", folder.path("link.txt")).expect("a link");
    assert_eq!(status(&folder.output(&["unpack", "-o", "link.txt", "two.asmap"])), 0);
    assert!(folder.path("link.txt").is_symlink());
    let listed = folder.output(&["unpack", "two.asmap"]).stdout;
    assert_eq!(fs::read(folder.path("old.txt")).expect("it is there"), listed);
    assert_eq!(fs::metadata(folder.path("old.txt")).expect("it is there").permissions().mode() & 0o777, 0o600);
}

#[test]
fn every_form_goes_to_a_file_as_to_standard_output() {
    let folder = Folder::new();
    for (list, form) in LISTS.iter().flat_map(|&list| [&[][..], &["--json"], &["--records"]].map(|form| (list, form))) {
        let printed = folder.output(&[&[list, "two.asmap"], form].concat());
        let written = folder.output(&[&[list, "two.asmap", "-o", "list"], form].concat());
        assert_eq!((status(&written), written.stdout.len()), (0, 0), "{list} {form:?}");
        assert_eq!(fs::read(folder.path("list")).expect("it was written"), printed.stdout, "{list} {form:?}");
        assert!(!printed.stdout.is_empty(), "{list} {form:?}");
    }
}

#[test]
fn a_reader_that_goes_away_is_no_error_and_a_full_disk_is_one() {
    let folder = Folder::new();
    folder.write("large.asmap", large_map(12, 1));
    let run = |arguments: &[&str], stdout: Stdio| {
        let mut command = std::process::Command::new(env!("CARGO_BIN_EXE_asmap"));
        command
            .current_dir(folder.path("."))
            .args(arguments)
            .stdout(stdout)
            .stderr(Stdio::piped())
            .spawn()
            .expect("the command runs")
    };
    for list in LISTS {
        for form in ["--json", "--records"] {
            let mut child = run(&[list, form, "large.asmap"], Stdio::piped());
            drop(child.stdout.take());
            let output = child.wait_with_output().expect("it ends");
            assert_eq!((status(&output), said(&output)), (0, ""), "{list} {form}");
        }
        let full = fs::File::create("/dev/full").expect("Linux has it");
        let output = run(&[list, "large.asmap"], full.into()).wait_with_output().expect("it ends");
        stored(&format!("{list}_full"), &output);
    }
}

#[test]
fn inputs_that_cannot_be_read() {
    let folder = Folder::new();
    folder.write("empty", "");
    for (name, file) in [("missing", "nothing.here"), ("folder", "."), ("empty", "empty")] {
        LISTS.iter().for_each(|list| stored(&format!("{list}_{name}"), &folder.output(&[list, file])));
        stored(&format!("pack_{name}"), &folder.output(&["pack", file]));
        stored(&format!("pack_records_{name}"), &folder.output(&["pack", "--records", file]));
    }
    for list in LISTS {
        stored(&format!("{list}_two_forms"), &folder.output(&[list, "--json", "--records", "two.asmap"]));
        stored(&format!("{list}_no_map"), &folder.output(&[list]));
    }
    stored("pack_no_list", &folder.output(&["pack"]));
}

#[test]
fn a_map_cut_at_any_byte_is_not_listed() {
    let folder = Folder::new();
    let map = large_map(4, 7);
    for length in 0..map.len() {
        folder.write("a.asmap", &map[..length]);
        for list in LISTS {
            let output = folder.output(&[list, "a.asmap"]);
            assert_eq!((status(&output), output.stdout.len()), (1, 0), "{list}, the first {length} bytes");
            assert!(said(&output).contains("is refused, "), "{list}, the first {length} bytes: {}", said(&output));
        }
    }
}
