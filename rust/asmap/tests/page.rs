//! docs/ASMAP.md and docs/LEARN.md, held to the command: each line `$ COMMAND` of their indented blocks is run by a shell, and what stands
//! below it must be what it prints. With ASMAP_WRITE=1 in the environment the page gets what was printed.
mod common;
use common::{packed, text, Folder};
use corbastrigo::Refusal;
use serde_json::Value;
use std::fs;
use std::path::{Path, PathBuf};
use std::process::Command;

fn page_file(name: &str) -> PathBuf {
    Path::new(env!("CARGO_MANIFEST_DIR")).join("../../docs").join(name)
}

fn page(name: &str) -> String {
    fs::read_to_string(page_file(name)).expect("the page is there")
}

/// What a node's getnodeaddresses prints, in short.
const PEERS: &str = r#"[
  { "time": 1763280000, "services": 3081, "address": "3.4.5.6", "port": 8333, "network": "ipv4" },
  { "time": 1763280000, "services": 3081, "address": "2001:db8::1", "port": 8333, "network": "ipv6" },
  { "time": 1763280000, "services": 1033, "address": "fc00::1", "port": 8333, "network": "cjdns" }
]
"#;

/// What the command lines of the pages find: the maps of every test, the files of docs/story, and these.
fn folder() -> Folder {
    let folder = Folder::new();
    folder.write("defaults.asmap", packed(&[(3, 1), (1, 41), (3, 2), (2, 2), (0, 7), (2, 2), (0, 8)]));
    folder.write("addresses.txt", "1.2.3.4\n8.8.8.8\n");
    folder.write("peers.json", PEERS);
    for name in ["node.asmap", "tree.awk", "sample.awk"] {
        folder.write(name, fs::read(page_file("story").join(name)).expect("docs/story has it"));
    }
    folder.write("candidates.txt", "1.2.3.4:8333\n1.2.9.9:8333\n3.4.0.1:8333\n8.8.8.8:8333   # a resolver\n[2001:db8::1]:8333\n");
    folder.write("occupied.txt", "4294967554\n4294968068   # 3.4.0.0/16\n4294969352\n4294968068\n");
    folder.write("stored.txt", "258\n772   # 3.4.0.0/16\n");
    folder
}

/// What a shell prints for a line, indented as the page has it. Blank lines stay blank.
fn printed(folder: &Folder, line: &str) -> String {
    let bin = Path::new(env!("CARGO_BIN_EXE_asmap")).parent().expect("the command has a folder");
    let path = std::env::join_paths([bin, "/usr/bin".as_ref(), "/bin".as_ref()]).expect("a path");
    let mut shell = Command::new("sh");
    shell.args(["-c", &format!("exec 2>&1; {line}")]).current_dir(folder.path(".")).env("PATH", path).env_remove("NO_COLOR");
    let output = shell.output().expect("a shell runs");
    text(&output.stdout).lines().map(|line| format!("    {line}").trim_end().to_string() + "\n").collect()
}

/// How many of the page's lines are what a command printed: indented ones, and blank ones with such a line behind them.
fn printed_lines(lines: &[&str]) -> usize {
    let indented = |line: &&str| line.starts_with("    ") && !line.starts_with("    $ ");
    let printed =
        |place: &usize| indented(&lines[*place]) || lines[*place].is_empty() && lines.get(place + 1).is_some_and(indented);
    (0..lines.len()).take_while(printed).count()
}

/// The page with what its commands print now, and how many commands it has.
fn renewed(page: &str) -> (String, usize) {
    let folder = folder();
    let (mut renewed, mut commands) = (String::new(), 0);
    let lines: Vec<&str> = page.lines().collect();
    let mut rest = &lines[..];
    while let [line, after @ ..] = rest {
        renewed += &format!("{line}\n");
        rest = after;
        if let Some(command) = line.strip_prefix("    $ ") {
            commands += 1;
            renewed += &printed(&folder, command);
            rest = &rest[printed_lines(rest)..];
        }
    }
    (renewed, commands)
}

#[test]
fn every_example_of_a_page_prints_what_the_page_says() {
    for name in ["ASMAP.md", "LEARN.md"] {
        let page = page(name);
        let (renewed, commands) = renewed(&page);
        assert!(commands >= 8, "{name} has {commands} commands");
        if std::env::var_os("ASMAP_WRITE").is_some_and(|value| value == "1") {
            fs::write(page_file(name), renewed).expect("the page can be written");
            continue;
        }
        let differs = page.lines().zip(renewed.lines()).find(|(page, now)| page != now);
        assert!(page == renewed, "{name} differs first here (page, printed now): {differs:?}");
    }
}

/// The names of an object's fields, and of those in the objects that it holds.
fn fields(object: &Value) -> Vec<&String> {
    let own = object.as_object().into_iter().flat_map(|fields| fields.keys());
    let held = object.as_object().into_iter().flat_map(|fields| fields.values());
    own.chain(held.chain(object.as_array().into_iter().flatten()).flat_map(fields)).collect()
}

/// The sections of the page that name the fields, and a command line that prints them.
const OBJECTS: [(&[&str], &[&str]); 17] = [
    (&["check"], &["check", "two.asmap", "cut.asmap"]),
    (&["walk"], &["walk", "two.asmap", "1.2.3.4"]),
    (&["walk", "trace"], &["trace", "two.asmap", "1.2.3.4"]),
    (&["list"], &["list", "two.asmap"]),
    (&["diff"], &["diff", "--addresses", "peers.json", "two.asmap", "loopback.asmap"]),
    (&["check", "diff"], &["diff", "two.asmap", "cut.asmap"]),
    (&["diff", "undo-check"], &["undo-check", "two.asmap", "loopback.asmap"]),
    (&["unpack"], &["unpack", "two.asmap"]),
    (&["pack"], &["pack", "-o", "new.asmap", "list.txt"]),
    (&["build"], &["build", "--else", "9", "-o", "built.asmap", "prefixes.txt"]),
    (&["load"], &["load", "--pairs", "2", "-o", "load.asmap"]),
    (&["group"], &["group", "1.2.3.4"]),
    (&["group"], &["group", "--old-prefixes", "::ffff:1.2.3.4"]),
    (&["pick"], &["pick", "--max", "4", "candidates.txt"]),
    (&["scan"], &["scan", "--occupied", "occupied.txt", "4294968068"]),
    (&["page"], &["page", "candidates.txt"]),
    (&["filter"], &["filter", "2002:a00:1::"]),
];

/// The section of a subcommand.
fn section<'a>(page: &'a str, subcommand: &str) -> &'a str {
    let start = page.find(&format!("## asmap {subcommand} ")).expect("a section");
    let end = page[start + 2..].find("\n## ").map_or(page.len(), |length| start + 2 + length);
    &page[start..end]
}

#[test]
fn the_page_names_every_field() {
    let page = page("ASMAP.md");
    let folder = folder();
    folder.write("list.txt", "RETURN 1\n");
    folder.write("prefixes.txt", "1.2.0.0/16 AS1\n");
    for (sections, arguments) in OBJECTS {
        let sections: String = sections.iter().map(|subcommand| section(&page, subcommand)).collect();
        let output = folder.output(&[&["--json"], arguments].concat());
        assert!(!output.stdout.is_empty(), "{arguments:?}");
        let objects = text(&output.stdout).lines().map(|line| serde_json::from_str(line).expect("an object"));
        objects.for_each(|object: Value| {
            fields(&object).iter().for_each(|field| assert!(sections.contains(&format!("`{field}`")), "{field} is missing"));
        });
    }
}

#[test]
fn the_page_to_learn_from_names_every_refusal() {
    let page = page("LEARN.md");
    for refusal in Refusal::NAMED {
        let (number, words) = (refusal.number(), refusal.reason());
        let (of_check, of_others) =
            (format!("    {number}.asmap: refused {number}: {words}\n"), format!("\n| {number} | {words} | "));
        assert!(page.contains(&of_check) || page.contains(&of_others), "{refusal:?}");
    }
}

#[test]
fn the_page_names_every_refusal_of_the_check() {
    let page = page("ASMAP.md");
    for refusal in Refusal::NAMED[..10].iter().chain([&Refusal::CutOperand]) {
        let row = format!("\n| {} | {} | ", refusal.number(), refusal.reason());
        assert!(page.contains(&row), "{row}");
    }
}
