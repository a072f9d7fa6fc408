//! What the tests of the command share: a folder with maps in which it runs, and the stored outputs that it is held to.
//!
//! With ASMAP_WRITE=1 in the environment the stored outputs are written anew; `git diff` then shows what changed.
#![allow(dead_code)] // No test file uses all of it.
use assert_cmd::Command;
use corbastrigo::{codes, netgroup, old_prefix_page, old_prefix_pick, page, pick, prefix_group, AsMap, Page, Pick, Refusal};
use std::collections::HashSet;
use std::fs::{self, File};
use std::net::{Ipv4Addr, Ipv6Addr, SocketAddr};
use std::path::{Path, PathBuf};
use std::process::{self, Output, Stdio};
use tempfile::TempDir;

/// 1.2.0.0/16 is sent to 1, 3.4.0.0/16 to 2. It has no DEFAULT (document 01: TWO_PREFIX_ASMAP).
pub const TWO_PREFIXES: [u8; 35] = [
    0xfb, 0x03, 0xec, 0x0f, 0xb0, 0x3f, 0xc0, 0xfe, 0x00, 0xfb, 0x03, 0xec, 0x0f, 0xb0, 0x3f, 0xc0, 0xfe, 0x00, 0xfb, 0x03, 0xec,
    0x0f, 0xb0, 0xff, 0xff, 0xfe, 0xff, 0xfb, 0x80, 0x00, 0x00, 0x00, 0x00, 0x00, 0x01,
];

/// ::ffff:127.0.0.1 is sent to 1, .2 to 2, and everything else to its default, 9 (the original's LOOPBACK_ASMAP).
pub const LOOPBACK: [u8; 45] = [
    0x07, 0x80, 0x18, 0xfb, 0x03, 0xec, 0x0f, 0xb0, 0x3f, 0xc0, 0xfe, 0x00, 0xfb, 0x03, 0xec, 0x0f, 0xb0, 0x3f, 0xc0, 0xfe, 0x00,
    0xfb, 0x03, 0xec, 0x07, 0xd8, 0xff, 0x7f, 0xff, 0xff, 0xfd, 0xfd, 0xf7, 0x07, 0xd8, 0x1f, 0x60, 0x1f, 0x10, 0x3a, 0x01, 0x00,
    0x0c, 0x00, 0x80,
];

/// A folder of a test's own, in which the command runs. It goes when the test is over.
pub struct Folder(TempDir);

impl Folder {
    /// With `two.asmap` (TWO_PREFIXES), `cut.asmap` (the same without its last byte) and `loopback.asmap` (LOOPBACK).
    pub fn new() -> Folder {
        let folder = Folder(tempfile::tempdir_in(env!("CARGO_TARGET_TMPDIR")).expect("a folder"));
        folder.write("two.asmap", TWO_PREFIXES);
        folder.write("cut.asmap", &TWO_PREFIXES[..34]);
        folder.write("loopback.asmap", LOOPBACK);
        folder
    }

    pub fn path(&self, name: &str) -> PathBuf {
        self.0.path().join(name)
    }

    pub fn write(&self, name: &str, bytes: impl AsRef<[u8]>) {
        fs::write(self.path(name), bytes).expect("a file can be written");
    }

    /// A file of so many bytes that takes no room.
    pub fn write_sparse(&self, name: &str, bytes: u64) {
        File::create(self.path(name)).and_then(|file| file.set_len(bytes)).expect("a sparse file can be made");
    }

    /// The command, in this folder.
    pub fn asmap(&self) -> Command {
        command_in(self.0.path())
    }

    /// What the command answers to these arguments, with this on its standard input.
    pub fn output_of(&self, arguments: &[&str], input: impl AsRef<[u8]>) -> Output {
        self.asmap().args(arguments).write_stdin(input.as_ref()).output().expect("the command runs")
    }

    /// What the command answers to these arguments.
    pub fn output(&self, arguments: &[&str]) -> Output {
        self.asmap().args(arguments).output().expect("the command runs")
    }
}

fn command_in(folder: &Path) -> Command {
    let mut command = Command::cargo_bin("asmap").expect("the command is built");
    command.current_dir(folder).env_remove("NO_COLOR");
    command
}

/// The command, in a folder without maps, for what needs no file of a test's own.
pub fn asmap() -> Command {
    command_in(Path::new(env!("CARGO_TARGET_TMPDIR")))
}

/// What was printed, as text.
pub fn text(bytes: &[u8]) -> &str {
    std::str::from_utf8(bytes).expect("the output is UTF-8")
}

/// The exit status.
pub fn status(output: &Output) -> i32 {
    output.status.code().expect("the command ended by itself")
}

/// What was said on standard error.
pub fn said(output: &Output) -> &str {
    text(&output.stderr)
}

/// The names in a folder, sorted.
pub fn names(folder: &Folder) -> Vec<String> {
    let entries = fs::read_dir(folder.path(".")).expect("the folder is there");
    let mut names: Vec<String> = entries.map(|entry| entry.expect("an entry").file_name().into_string().expect("a name")).collect();
    names.sort();
    names
}

/// Holds an output to `tests/stored/NAME.txt`, byte for byte: the exit status, standard output and standard error.
pub fn stored(name: &str, output: &Output) {
    let found = format!(
        "exit status {}\n--- standard output\n{}--- standard error\n{}",
        status(output),
        text(&output.stdout),
        said(output)
    );
    let file = Path::new(env!("CARGO_MANIFEST_DIR")).join("tests/stored").join(format!("{name}.txt"));
    if std::env::var_os("ASMAP_WRITE").is_some_and(|value| value == "1") {
        fs::write(&file, &found).expect("a stored output can be written");
        return;
    }
    let wanted = fs::read_to_string(&file).unwrap_or_else(|error| panic!("{}: {error}; ASMAP_WRITE=1 writes it", file.display()));
    assert!(found == wanted, "{name} differs from its stored output\n--- found\n{found}\n--- stored\n{wanted}");
}

/// Whether a program is there. What needs one that is missing is named, and fails where CI is set.
pub fn is_there(program: &str) -> bool {
    let found = process::Command::new(program).arg("--version").stdout(Stdio::null()).stderr(Stdio::null()).status().is_ok();
    assert!(found || std::env::var_os("CI").is_none(), "{program} is missing");
    if !found {
        eprintln!("skipped: {program} is missing");
    }
    found
}

/// What the command prints on a terminal, which `script` makes.
pub fn on_a_terminal(folder: &Folder, command: &str, no_color: Option<&str>) -> String {
    scripted(folder, &format!("{} {command}", env!("CARGO_BIN_EXE_asmap")), no_color)
}

/// The same on a terminal of so many columns.
pub fn on_a_terminal_of(columns: usize, folder: &Folder, command: &str, no_color: Option<&str>) -> String {
    scripted(folder, &format!("stty rows 24 cols {columns} && {} {command}", env!("CARGO_BIN_EXE_asmap")), no_color)
}

fn scripted(folder: &Folder, line: &str, no_color: Option<&str>) -> String {
    let mut script = process::Command::new("script");
    script.args(["-qec", line, "/dev/null"]).current_dir(folder.path("."));
    script.env_remove("NO_COLOR").envs(no_color.map(|value| ("NO_COLOR", value))).stdin(Stdio::null());
    String::from_utf8(script.output().expect("script runs").stdout).expect("UTF-8")
}

/// Draws that are the same in every run (splitmix).
pub struct Draws(pub u64);

impl Draws {
    /// A number below another.
    pub fn below(&mut self, most: u32) -> u32 {
        self.0 = self.0.wrapping_add(0x9e37_79b9_7f4a_7c15);
        let mixed = (self.0 ^ self.0 >> 30).wrapping_mul(0xbf58_476d_1ce4_e5b9);
        let mixed = (mixed ^ mixed >> 27).wrapping_mul(0x94d0_49bb_1331_11eb);
        ((mixed ^ mixed >> 31) % u64::from(most)) as u32
    }
}

/// An address that is drawn: half of them near those that the map of two prefixes knows.
pub fn drawn(draws: &mut Draws) -> SocketAddr {
    let bytes: [u8; 4] = std::array::from_fn(|_| draws.below(256) as u8);
    let port = 1 + draws.below(3) as u16;
    match draws.below(4) {
        0 => (Ipv4Addr::from(bytes), port).into(),
        1 => (Ipv4Addr::new(1 + 2 * (bytes[0] & 1), 2 + 2 * (bytes[1] & 1), 0, bytes[3] & 3), port).into(),
        2 => (Ipv6Addr::new(0x2001, u16::from(bytes[0] & 3), 0, 0, 0, 0, 0, 1), port).into(),
        _ => (Ipv4Addr::from(bytes).to_ipv6_mapped(), port).into(),
    }
}

/// What groups go by: how the command is asked for it, which word it has for it, and what the library says then.
#[derive(Clone, Copy, Debug)]
pub enum By {
    Map,
    Prefixes,
    OldPrefixes,
}

impl By {
    pub const ALL: [By; 3] = [By::Map, By::Prefixes, By::OldPrefixes];

    pub fn arguments(self) -> &'static [&'static str] {
        match self {
            By::Map => &["--map", "two.asmap"],
            By::Prefixes => &[],
            By::OldPrefixes => &["--old-prefixes"],
        }
    }

    pub fn word(self) -> &'static str {
        match self {
            By::Map => "map",
            By::Prefixes => "prefix",
            By::OldPrefixes => "old_prefix",
        }
    }

    fn map(self) -> Option<AsMap> {
        matches!(self, By::Map).then(|| AsMap::checked(TWO_PREFIXES.to_vec()).expect("accepted"))
    }

    pub fn group(self, peer: SocketAddr) -> u64 {
        match self {
            By::OldPrefixes => prefix_group(peer.ip()),
            By::Map | By::Prefixes => netgroup(peer, self.map().as_ref()),
        }
    }

    pub fn pick(self, ranked: &[SocketAddr], max: usize, occupied: &HashSet<u64>) -> Result<Pick, Refusal> {
        match self {
            By::OldPrefixes => old_prefix_pick(ranked, max, occupied),
            By::Map | By::Prefixes => pick(ranked, max, occupied, self.map().as_ref()),
        }
    }

    pub fn page(self, candidates: &[SocketAddr]) -> Result<Page, Refusal> {
        match self {
            By::OldPrefixes => old_prefix_page(candidates),
            By::Map | By::Prefixes => page(candidates, self.map().as_ref()),
        }
    }
}

/// Instructions in order, each as opcode and operand, and how many bits they have.
#[derive(Default)]
struct Program {
    instructions: Vec<(u32, u32)>,
    bits: usize,
}

impl Program {
    fn push(&mut self, opcode: u32, operand: u32) {
        self.instructions.push((opcode, operand));
        self.bits += codes::encode_instruction(opcode, operand).expect("an instruction").len;
    }

    fn append(&mut self, other: Program) {
        self.instructions.extend(other.instructions);
        self.bits += other.bits;
    }

    fn pack(&self) -> Vec<u8> {
        let mut place = 0;
        let record = |&(opcode, operand): &(u32, u32)| {
            let size = codes::encode_instruction(opcode, operand).expect("an instruction").len as u32;
            place += size;
            [opcode, operand, place - size, size].map(u32::to_le_bytes).concat()
        };
        let records: Vec<u8> = self.instructions.iter().flat_map(record).collect();
        corbastrigo::pack(&records).expect("the records pack")
    }
}

/// The bytes of instructions, each given as opcode and operand, whether the check accepts them or not.
pub fn packed(instructions: &[(u32, u32)]) -> Vec<u8> {
    let mut program = Program::default();
    instructions.iter().for_each(|&(opcode, operand)| program.push(opcode, operand));
    program.pack()
}

/// A tree of JUMPs, some below a DEFAULT or a MATCH, with a RETURN at each leaf, of so many numbers.
fn tree(depth: u32, numbers: u32, draws: &mut Draws) -> Program {
    let mut program = Program::default();
    if depth == 0 {
        program.push(0, 1 + draws.below(numbers));
        return program;
    }
    if draws.below(8) == 0 {
        program.push(3, 1 + draws.below(numbers));
    }
    if draws.below(4) == 0 {
        program.push(2, 2 + draws.below(510));
    }
    let zero = tree(depth - 1, numbers, draws);
    program.push(1, zero.bits as u32);
    program.append(zero);
    program.append(tree(depth - 1, numbers, draws));
    program
}

/// A map of the shape that real ones have, of 2 to the depth leaves. The check accepts it.
pub fn large_map(depth: u32, seed: u64) -> Vec<u8> {
    drawn_map(depth, 400_000, seed)
}

/// The same with so many numbers: with few of them, neighbours often have the same.
pub fn drawn_map(depth: u32, numbers: u32, seed: u64) -> Vec<u8> {
    let map = tree(depth, numbers, &mut Draws(seed)).pack();
    corbastrigo::sanity_check(&map).expect("the map is accepted");
    map
}

/// 128 jumps that are all open at the last one: each skips what is below it. The list is made from its innermost RETURN outward.
pub fn deep_map() -> Vec<u8> {
    let bits = |opcode, operand| codes::encode_instruction(opcode, operand).expect("an instruction").len as u32;
    let (mut list, mut inner) = (String::from("RETURN 1\n"), bits(0, 1));
    for number in 2..130 {
        list = format!("JUMP {inner}\n{list}RETURN {number}\n");
        inner += bits(1, inner) + bits(0, number);
    }
    let output = asmap().args(["pack", "-"]).write_stdin(list).output().expect("the command runs");
    let size = inner.div_ceil(8);
    assert_eq!(said(&output), format!("asmap: the map is accepted: {size} bytes, 257 instructions, depth 128\n"));
    output.stdout
}

/// Maps of every shape: document 01's, the smallest, one of 128 open jumps, and drawn ones.
pub fn maps() -> Vec<Vec<u8>> {
    let mut maps = vec![TWO_PREFIXES.to_vec(), LOOPBACK.to_vec(), vec![0; 3], deep_map()];
    maps.extend((0..60).map(|seed| large_map(1 + seed as u32 % 8, seed)));
    maps
}
