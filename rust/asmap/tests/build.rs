//! `asmap build`: its outputs, its refusals, that a list goes to a map and back, and that single prefixes can be undone by it.
mod common;
use common::{asmap, drawn_map, is_there, maps, names, on_a_terminal, said, status, stored, text, Folder, TWO_PREFIXES};
use std::fs;
use std::net::IpAddr;
use std::process::Output;

/// Three prefixes, of which two are IPv4.
const LIST: &str = "2001:db8::/32 AS3\n1.2.0.0/16 AS1\n3.4.0.0/16 AS2\n";

/// What `asmap build` with these arguments makes of a list on standard input.
fn built(folder: &Folder, arguments: &[&str], list: impl AsRef<[u8]>) -> Output {
    folder.output_of(&[&["build", "-"], arguments].concat(), list)
}

/// What the list of a map says, without the number 0.
fn numbered(folder: &Folder, map: &str, form: &[&str]) -> String {
    let list = folder.output(&[&["list", map], form].concat());
    assert_eq!((status(&list), said(&list)), (0, ""));
    text(&list.stdout).lines().filter(|line| !line.ends_with(" AS0")).map(|line| format!("{line}\n")).collect()
}

#[test]
fn builds() {
    let folder = Folder::new();
    folder.write("list.txt", LIST);
    stored("build", &folder.output(&["build", "--else", "9", "-o", "built.asmap", "list.txt"]));
    stored("build_check", &folder.output(&["check", "built.asmap"]));
    stored("build_walk", &folder.output(&["walk", "built.asmap", "1.2.3.4", "3.4.5.6", "8.8.8.8", "2001:db8::1", "2001:db9::1"]));
    stored("build_json", &folder.output(&["build", "--json", "--else", "9", "-o", "built.asmap", "list.txt"]));
    folder.write("narrow.txt", "1.2.0.0/16 AS1\n3.4.0.0/16 AS2\n");
    stored("build_32", &folder.output(&["build", "--width", "32", "--else", "9", "-o", "narrow.asmap", "narrow.txt"]));
    stored("build_32_list", &folder.output(&["list", "--width", "32", "narrow.asmap"]));
    stored(
        "build_32_json",
        &folder.output(&["build", "--json", "--width", "32", "--else", "9", "-o", "narrow.asmap", "narrow.txt"]),
    );
    folder.write("none.txt", "# nothing\n\n");
    stored("build_none", &folder.output(&["build", "--else", "9", "-o", "none.asmap", "none.txt"]));
    stored("build_none_unpack", &folder.output(&["unpack", "none.asmap"]));
    folder.write("one.txt", "1.2.0.0/16 AS9\n");
    stored("build_one", &folder.output(&["build", "--else", "9", "-o", "one.asmap", "one.txt"]));
    assert_eq!(fs::read(folder.path("one.asmap")).ok(), fs::read(folder.path("none.asmap")).ok());
    stored("help_build", &asmap().args(["build", "--help"]).output().unwrap());
}

#[test]
fn lines_may_stand_in_any_order_and_say_more_behind_a_number_sign() {
    let folder = Folder::new();
    let wanted = built(&folder, &["--else", "9"], LIST);
    assert_eq!(status(&wanted), 0, "{}", said(&wanted));
    let mut lines: Vec<&str> = LIST.lines().collect();
    lines.rotate_left(1);
    for list in [
        lines.join("\n"),
        lines.join(" # was AS5\r\n\r\n"),
        format!("# a list\n\t{}  \n", lines.join("\n \n    ")),
        // The same address in IPv6's own words, and halves that come to the same.
        String::from("::ffff:1.2.0.0/112 AS1\n3.4.0.0/17 AS2\n2001:db8::/32 AS3\n3.4.128.0/17 AS2\n"),
        String::from("5.0.0.0/8 AS9\n1.2.0.0/16 AS1\n3.4.0.0/16 AS2\n2001:db8::/32 AS3\n"),
    ] {
        assert_eq!(built(&folder, &["--else", "9"], &list).stdout, wanted.stdout, "{list:?}");
    }
    assert_ne!(built(&folder, &["--else", "8"], LIST).stdout, wanted.stdout);
}

#[test]
fn the_map_is_the_library_s_from_lines_and_from_records() {
    let folder = Folder::new();
    for (place, map) in maps().into_iter().enumerate() {
        folder.write("a.asmap", &map);
        let list = numbered(&folder, "a.asmap", &[]);
        let records: Vec<u8> = corbastrigo::prefixes(&corbastrigo::list(&map).expect("accepted"))
            .filter(|prefix| prefix.number != 0)
            .flat_map(|prefix| prefix.record())
            .collect();
        let wanted = corbastrigo::build(&records, 64_496, 128).expect("builds");
        let lines = built(&folder, &["--else", "64496"], &list);
        assert!(status(&lines) == 0 && lines.stdout == wanted, "map {place}: {}", said(&lines));
        let as_records = built(&folder, &["--else", "64496", "--records"], &records);
        assert!(status(&as_records) == 0 && as_records.stdout == wanted, "map {place}: {}", said(&as_records));
        assert_eq!(said(&lines), said(&as_records));
    }
}

#[test]
fn a_map_listed_and_built_differs_only_where_it_had_the_number_0() {
    let folder = Folder::new();
    let mut with_0 = 0;
    for (place, map) in maps().into_iter().enumerate() {
        folder.write("a.asmap", &map);
        folder.write("list.txt", numbered(&folder, "a.asmap", &[]));
        let output = folder.output(&["build", "--else", "64496", "-o", "again.asmap", "list.txt"]);
        assert_eq!(status(&output), 0, "map {place}: {}", said(&output));
        let diff = folder.output(&["diff", "a.asmap", "again.asmap"]);
        let changed: Vec<&str> = text(&diff.stdout).lines().filter(|line| !line.starts_with('#')).collect();
        assert!(changed.iter().all(|line| line.ends_with(" AS64496 # was AS0")), "map {place}: {changed:?}");
        with_0 += usize::from(!changed.is_empty());
        // What was built lists no 0, so that all of its list is taken.
        let list = folder.output(&["list", "--records", "-o", "again.prefixes", "again.asmap"]);
        assert_eq!(status(&list), 0);
        let again = folder.output(&["build", "--records", "--else", "7", "again.prefixes"]);
        assert_eq!(again.stdout, fs::read(folder.path("again.asmap")).expect("it was written"), "map {place}");
    }
    assert!(with_0 > 0 && with_0 < maps().len(), "{with_0} maps with the number 0");
}

#[test]
fn at_width_32_lists_are_of_four_byte_addresses() {
    let folder = Folder::new();
    let width = ["--width", "32"];
    let list = "1.2.0.0/16 AS1\n3.4.0.0/16 AS2\n";
    let narrow = built(&folder, &[&width[..], &["--else", "9"]].concat(), list);
    assert_eq!(status(&narrow), 0, "{}", said(&narrow));
    folder.write("narrow.asmap", &narrow.stdout);
    let again = built(&folder, &[&width[..], &["--else", "5"]].concat(), numbered(&folder, "narrow.asmap", &width));
    assert_eq!(again.stdout, narrow.stdout);
    let wide = built(&folder, &["--else", "9"], list);
    assert!(wide.stdout.len() > narrow.stdout.len());
    assert_eq!(status(&folder.output_of(&["check", "--width", "32", "/dev/stdin"], &wide.stdout)), 1);
    let walk = folder.output(&["walk", "--width", "32", "--json", "narrow.asmap", "3.4.5.6"]);
    assert!(text(&walk.stdout).contains(r#""number":2"#), "{}", text(&walk.stdout));
}

/// A list, and what is wrong in it.
const WRONG_LISTS: [(&str, &str); 15] = [
    ("no_prefix", "1.2.0.0/16 AS1\n\n1.2.3 AS2\n"),
    ("no_length", "1.2.3.4 AS1\n"),
    ("length_33", "1.2.0.0/33 AS1\n"),
    ("no_number", "1.2.0.0/16\n"),
    ("number_no_as", "1.2.0.0/16 64496\n"),
    ("number_past_32_bits", "1.2.0.0/16 AS4294967296\n"),
    ("two_numbers", "1.2.0.0/16 AS1 AS2\n"),
    ("number_0", "3.4.0.0/16 AS7\n1.2.0.0/16 AS0\n"),
    ("number_too_great", "1.2.0.0/16 AS33521665\n"),
    ("ones_behind", "1.2.3.4/16 AS1\n"),
    ("ones_behind_ipv6", "# IPv6\n2001:db8::1/32 AS1\n"),
    ("overlapping", "3.0.0.0/8 AS1\n1.2.0.0/16 AS2\n3.4.0.0/16 AS3\n"),
    ("overlapping_before", "3.4.0.0/16 AS3\n3.0.0.0/8 AS1\n"),
    ("twice", "1.2.0.0/16 AS1\n3.4.0.0/16 AS2\n1.2.0.0/16 AS1\n"),
    ("all_and_one", "1.2.0.0/16 AS1\n::/0 AS2\n"),
];

#[test]
fn a_list_that_is_wrong_is_refused_with_the_line() {
    let folder = Folder::new();
    let before = names(&folder);
    for (name, list) in WRONG_LISTS {
        stored(&format!("build_wrong_{name}"), &folder.output_of(&["build", "--else", "9", "-o", "built.asmap", "-"], list));
    }
    stored("build_wrong_not_utf8", &folder.output_of(&["build", "--else", "9", "-o", "built.asmap", "-"], b"# \xff\n"));
    let at_32 = ["build", "--width", "32", "--else", "9", "-o", "built.asmap", "-"];
    stored("build_wrong_ipv6_at_32", &folder.output_of(&at_32, "1.2.0.0/16 AS1\n2001:db8::/32 AS2\n"));
    stored("build_wrong_overlapping_at_32", &folder.output_of(&at_32, "1.2.0.0/16 AS1\n1.2.3.0/24 AS2\n"));
    assert_eq!(names(&folder), before);
}

/// The record of a prefix of the first four bytes of an address.
fn record(first_bytes: u32, length: u8, number: u32) -> [u8; 24] {
    corbastrigo::Prefix { address: (u128::from(first_bytes) << 96).to_be_bytes(), length, number }.record()
}

#[test]
fn records_that_are_wrong_are_refused_with_their_place() {
    let folder = Folder::new();
    let before = names(&folder);
    let (one, two) = (record(0x2001_0db8, 32, 1), record(0x2001_0db9, 32, 2));
    let changed = |change: fn(&mut [u8; 24])| {
        let mut second = two;
        change(&mut second);
        [one, second].concat()
    };
    for (name, width, list) in [
        ("cut", "128", [one, two].concat()[..47].to_vec()),
        ("order", "128", [two, one].concat()),
        ("twice", "128", [one, one].concat()),
        ("inside", "128", [one, record(0x2001_0db8, 33, 2)].concat()),
        ("around", "128", [record(0x2001_0db8, 33, 2), one].concat()),
        ("length", "128", changed(|record| record[16] = 129)),
        ("length", "32", changed(|record| record[16] = 33)),
        ("ones_behind", "128", changed(|record| record[15] = 1)),
        ("ones_behind", "32", changed(|record| record[15] = 1)),
        ("zeros", "128", changed(|record| record[18] = 1)),
        ("number_0", "128", changed(|record| record[20] = 0)),
        ("number_too_great", "32", changed(|record| record[23] = 2)),
        ("text", "128", LIST.as_bytes().to_vec()),
    ] {
        folder.write("list.prefixes", list);
        let output = folder.output(&["build", "--width", width, "--records", "--else", "9", "-o", "built.asmap", "list.prefixes"]);
        stored(&format!("build_records_{name}_{width}"), &output);
    }
    fs::remove_file(folder.path("list.prefixes")).expect("it is there");
    assert_eq!(names(&folder), before);
}

#[test]
fn what_is_misused_leaves_no_file() {
    let folder = Folder::new();
    folder.write("list.txt", LIST);
    let before = names(&folder);
    for (name, number) in [("0", "0"), ("too_great", "33521665"), ("past_32_bits", "4294967296"), ("no_number", "AS9")] {
        stored(&format!("build_else_{name}"), &folder.output(&["build", "--else", number, "-o", "built.asmap", "list.txt"]));
    }
    stored("build_no_else", &folder.output(&["build", "-o", "built.asmap", "list.txt"]));
    stored("build_width_64", &folder.output(&["build", "--width", "64", "--else", "9", "-o", "built.asmap", "list.txt"]));
    stored("build_json_without_a_file", &folder.output(&["build", "--json", "--else", "9", "list.txt"]));
    stored("build_missing", &folder.output(&["build", "--else", "9", "-o", "built.asmap", "missing.txt"]));
    stored("build_output_folder", &folder.output(&["build", "--else", "9", "-o", ".", "list.txt"]));
    stored("build_over_its_list", &folder.output(&["build", "--else", "9", "-o", "list.txt", "list.txt"]));
    assert_eq!(names(&folder), before);
    assert_eq!(fs::read(folder.path("list.txt")).expect("it is there"), LIST.as_bytes());
}

#[test]
fn a_record_comes_before_the_number_of_all_others() {
    let folder = Folder::new();
    let both = built(&folder, &["--else", "0"], "1.2.0.0/16 AS0\n");
    assert_eq!(status(&both), 1);
    assert!(said(&both).starts_with("asmap: standard input: line 1, 1.2.0.0/16 AS0, is refused, 22: "), "{}", said(&both));
}

#[test]
fn a_map_that_would_be_too_long_is_refused() {
    let folder = Folder::new();
    // Addresses of 128 bits, each told from its neighbours by more than a hundred of them.
    let records: Vec<u8> = (0..1 << 15).flat_map(|place: u32| record(place << 17, 128, 1)).collect();
    let output = built(&folder, &["--records", "--else", "33521664"], &records);
    stored("build_too_long", &output);
    folder.write_sparse("large.prefixes", 2_000_000_000);
    stored("build_unread", &folder.output(&["build", "--records", "--else", "9", "large.prefixes"]));
}

#[test]
fn a_file_that_is_there_is_replaced_or_stays_as_it_is() {
    let folder = Folder::new();
    folder.write("list.txt", LIST);
    assert_eq!(status(&folder.output(&["build", "--else", "0", "-o", "two.asmap", "list.txt"])), 2);
    assert_eq!(fs::read(folder.path("two.asmap")).expect("it is there"), TWO_PREFIXES);
    assert_eq!(status(&folder.output(&["build", "--else", "9", "-o", "two.asmap", "list.txt"])), 0);
    assert_eq!(fs::read(folder.path("two.asmap")).expect("it is there"), built(&folder, &["--else", "9"], LIST).stdout);
}

#[test]
fn a_map_is_not_for_a_terminal() {
    if !is_there("script") {
        return;
    }
    let folder = Folder::new();
    folder.write("list.txt", LIST);
    let seen = on_a_terminal(&folder, "build --else 9 list.txt", None);
    assert_eq!(
        seen.trim_end(),
        "asmap: these bytes are not for a terminal; name a file with -o, or lead them into another program"
    );
}

#[test]
fn single_prefixes_of_a_map_are_undone_and_nothing_else() {
    let folder = Folder::new();
    for seed in 0..12 {
        // Two maps that tell the same prefixes apart, most of them with other numbers.
        folder.write("old.asmap", drawn_map(6, 50, seed));
        let lines = numbered(&folder, "old.asmap", &[]);
        let renumbered = |place: usize, line: &str| match place % 3 {
            0 => format!("{line}\n"),
            _ => format!("{} AS{}\n", line.split(' ').next().expect("a prefix"), 1_000 + place),
        };
        let new: String = lines.lines().enumerate().map(|(place, line)| renumbered(place, line)).collect();
        folder.write("old.txt", &lines);
        folder.write("new.txt", &new);
        for name in ["old", "new"] {
            let output = folder.output(&["build", "--else", "64496", "-o", &format!("{name}.asmap"), &format!("{name}.txt")]);
            assert_eq!(status(&output), 0, "{}", said(&output));
        }
        // Every fifth line of the new list gets the old number back.
        let undone = |place: &usize| place % 5 == 0;
        let pairs = || lines.lines().zip(new.lines()).enumerate();
        let mixed: String = pairs().map(|(place, (old, new))| format!("{}\n", if undone(&place) { old } else { new })).collect();
        folder.write("mixed.txt", mixed);
        assert_eq!(status(&folder.output(&["build", "--else", "64496", "-o", "mixed.asmap", "mixed.txt"])), 0);
        let [of_old, of_new, of_mixed] = ["old", "new", "mixed"].map(|name| {
            let map = fs::read(folder.path(&format!("{name}.asmap"))).expect("it was written");
            corbastrigo::AsMap::checked(map).expect("accepted")
        });
        let wanted = pairs().filter(|(place, (old, new))| undone(place) && old != new).count();
        for (place, (old, _)) in pairs() {
            let address: IpAddr = old.split('/').next().and_then(|address| address.parse().ok()).expect("an address");
            let from = if undone(&place) { &of_old } else { &of_new };
            assert_eq!(of_mixed.mapped_as(address), from.mapped_as(address), "seed {seed}, line {place}");
        }
        // Each change of the whole is one of those that were undone, and all of them are there.
        let records = |old: &str, new: &str| folder.output(&["diff", "--records", old, new]).stdout;
        let told = records("new.asmap", "mixed.asmap");
        let back: Vec<_> = corbastrigo::changes(&told).collect();
        let changes = records("old.asmap", "new.asmap");
        assert!(wanted > 0 && back.len() >= wanted);
        let undone_then_new = |change: &corbastrigo::Change| {
            corbastrigo::changes(&changes).any(|new| {
                let inside =
                    |address: [u8; 16]| u128::from_be_bytes(address) & !(u128::MAX.checked_shr(new.length.into()).unwrap_or(0));
                inside(change.address) == u128::from_be_bytes(new.address) && (change.old, change.new) == (new.new, new.old)
            })
        };
        assert!(back.iter().all(undone_then_new), "seed {seed}");
    }
}
