//! The arguments, as clap takes them. The texts here are the help, the man page and the completions.
use crate::failure::Failure;
use crate::width::Width;
use clap::{Args, Parser, Subcommand};
use clap_complete::Shell;
use corbastrigo::Generator;
use std::path::PathBuf;

const AFTER: &str = "\
Reading the numbers:
  0 is not \"unmapped\": a walk that was aborted has the number 0, and so has
  one that differed before it met a DEFAULT.
  A default holds until the walk meets another. No JUMP and no branch ends it.
  Addresses that come out right say nothing of a map. The check does.

Exit status:
  0  done
  1  the answer is no: a map or a record is refused, or what was compared differs
  2  misuse, or a file that cannot be read or written
  3  of diff and undo-check: a map is refused, so that nothing was compared

Environment:
  NO_COLOR  set to anything, it keeps colour out; there is none but on a terminal";

/// Bitcoin's address maps (asmap): check them, walk them, compare them, see why an address ends where it does
#[derive(Debug, Parser)]
#[command(name = "asmap", version, after_help = AFTER, arg_required_else_help = true)]
pub struct Arguments {
    /// Print one JSON object a line, for scripts, instead of text
    #[arg(long, global = true)]
    pub json: bool,
    #[command(subcommand)]
    pub command: Command,
}

#[derive(Debug, Subcommand)]
pub enum Command {
    /// Say whether maps are sane, and where and why not
    #[command(
        after_help = "A map that its end cuts:\n  refused 4   within an opcode: usually a page was lost, or a copy broke off\n  refused 19  within an operand: usually the map was edited; a lost end may be there too\n\nExample:\n  asmap check before.asmap after.asmap"
    )]
    Check(Check),
    /// Walk a map by addresses: the number that each is sent to, and how its walk ended
    #[command(
        after_help = "Examples:\n  asmap walk node.asmap 1.2.3.4 2001:db8::1\n  asmap walk node.asmap - < addresses.txt\n  asmap walk --width 32 ipv4.asmap 1.2.3.4"
    )]
    Walk(Walk),
    /// Show one walk step by step
    #[command(after_help = "Example:\n  asmap trace node.asmap 1.2.3.4")]
    Trace(Trace),
    /// List every prefix that a map tells apart, with its number
    ///
    /// One prefix a line, rising by address, as Bitcoin Core's asmap-tool writes them: 1.2.0.0/16 AS1. Those below ::ffff:0:0/96 stand as
    /// IPv4. Every address lies in just one of them, and its walk ends with that number. Neighbours with one number are not joined: each
    /// RETURN has a line, and each bit of a MATCH one for the side that differs, with the default of that path.
    ///
    /// AS0 is not "unmapped": the walk of such an address differed at a MATCH before any DEFAULT was met.
    #[command(after_help = "Examples:\n  asmap list node.asmap\n  asmap list --records -o node.prefixes node.asmap")]
    List(List),
    /// Say what changes between two maps, for every address
    ///
    /// One prefix a line, rising by address, in the form of Bitcoin Core's asmap-tool: 1.2.0.0/16 AS2 # was AS1. They are the fewest
    /// prefixes that hold every address whose number changes, and no other; those below ::ffff:0:0/96 stand as IPv4. Behind them, in
    /// lines that begin with #, stands how many addresses that is, and which numbers gain and lose most of them.
    ///
    /// The exit status is 0 where no address changes, whatever the maps' bytes, 1 where one does, and 3 where a map is refused: then
    /// nothing is compared.
    ///
    /// AS0 is not "unmapped": the walk of such an address differed at a MATCH before any DEFAULT was met.
    #[command(
        after_help = "Examples:\n  asmap diff before.asmap after.asmap\n  asmap diff --addresses peers.json before.asmap after.asmap\n  asmap diff --records -o changes before.asmap after.asmap"
    )]
    Diff(Diff),
    /// Say whether a map that was brought back can take the place of the old one
    ///
    /// The first line begins with SAFE or with DO NOT USE. It is safe where the bytes are the old map's, or where they are others and
    /// every address has the same number. Else what changes stands below, as `asmap diff` has it.
    ///
    /// The exit status is 0 where it is safe, 1 where a number changes, and 3 where a map is refused.
    #[command(name = "undo-check", after_help = "Example:\n  asmap undo-check before.asmap restored.asmap")]
    UndoCheck(UndoCheck),
    /// List a map's instructions
    ///
    /// One instruction a line, in the map's order: RETURN and DEFAULT with an AS number, MATCH with the address bits that it compares, JUMP
    /// with the number of map bits that an address bit of 1 skips. These stand indented below the JUMP, and behind them, no longer
    /// indented, what the 1 goes to. Behind `#` is the map bit at which the instruction starts.
    ///
    /// The indentation shows open jumps, not how far a default holds: a walk keeps its default until it meets another.
    #[command(after_help = "Examples:\n  asmap unpack node.asmap\n  asmap unpack --records -o node.records node.asmap")]
    Unpack(Unpack),
    /// Make a map from a list of instructions
    ///
    /// The list is what `asmap unpack` writes. Indentation is free, opcodes may be in any case, and blank lines and what is behind `#` are
    /// left out. The map is checked, and standard error says what the check says. A map that it refuses is not written, and the exit status
    /// is 1; with --unchecked it is written, and the exit status is 0.
    #[command(after_help = "Example:\n  asmap unpack node.asmap | asmap pack -o copy.asmap -")]
    Pack(Pack),
    /// Make a map from a list of prefixes
    ///
    /// The list is what `asmap list` writes, with what was changed in it: one prefix a line with its number, 1.2.0.0/16 AS1. Lines may stand in
    /// any order, and blank lines and what is behind `#` are left out. All addresses that no line holds get the number of --else. Neighbours of
    /// one number are joined, so that the same numbers make the same map whatever the lines are. The check accepts every map that is built.
    ///
    /// Lines that overlap are refused, 21, and so is a prefix with ones behind its length; numbers other than 1 to 33521664 are refused, 22.
    /// `asmap list` writes AS0 of addresses whose walk differed before any DEFAULT was met: leave these lines out, so that their addresses get
    /// the number of --else, or give them a number of their own.
    #[command(
        after_help = "Examples:\n  asmap list node.asmap > list.txt\n  asmap build --else 64496 -o built.asmap list.txt\n  asmap list node.asmap | grep -v ' AS0$' | asmap build --else 64496 -o built.asmap -"
    )]
    Build(Build),
    /// Make a load: a map to measure with that everyone can make again from a seed
    ///
    /// A load is so many pairs of a DEFAULT and a MATCH of one bit, then a RETURN. Their numbers and bits are drawn from the seed, so that the
    /// same seed and number of pairs give the same bytes everywhere. The check accepts every load. Standard error says how many bytes and
    /// instructions it has, and the address that walks through all of them.
    ///
    /// The seed 0, and more than 128 pairs, are refused, 20.
    #[command(after_help = "Examples:\n  asmap load --pairs 128 -o load.asmap\n  asmap load --seed 7 --pairs 2 -o seven.asmap")]
    Load(Load),
    /// Say in which group addresses are
    ///
    /// With a map the group is the AS number that the address is sent to; without one it is the prefix of the address, as a number. Of an IPv4
    /// address a.b.c.d, also where it is mapped into IPv6, that is 4,294,967,296 + 256 * a + b; of any other IPv6 address it is the first four
    /// bytes. So IPv4 and IPv6 share no group. A group of 0 says why it is 0.
    ///
    /// With --old-prefixes it is the number that prefixes had before: 256 * a + b of an IPv4 address, the first four bytes of an IPv6 address, so
    /// 0 of every mapped one. Do not mix the two: an old 258 may be 1.2.0.0/16 or 0:102::/32.
    #[command(
        after_help = "Examples:\n  asmap group 1.2.3.4\n  asmap group --map node.asmap 1.2.3.4 2001:db8::1\n  asmap group --old-prefixes 1.2.3.4"
    )]
    Group(Group),
    /// Pick peers from a ranked list, spread over groups
    ///
    /// First, in order, each candidate whose group is neither occupied nor taken; then, in order, what is still wanted of the others. In
    /// both files blank lines and what is behind `#` are left out. At most 4,096 candidates and 4,096 occupied groups are taken.
    ///
    /// Groups are those of `asmap group` with the same options, and the occupied ones have to be: --old-prefixes is for those that were stored
    /// by the old numbering of prefixes.
    #[command(after_help = "Example:\n  asmap pick --map node.asmap --max 8 --occupied groups.txt candidates.txt")]
    Pick(Pick),
    /// Say whether groups are occupied, and at which place
    ///
    /// Each group is looked for among the occupied ones, in their order, up to the first hit. Places count from 0. The groups that were read
    /// are counted: that place plus one, or all where there is no hit. In the file blank lines and what is behind `#` are left out. At most
    /// 4,096 occupied groups are taken, one that stands twice as two.
    ///
    /// The exit status is 0 for occupied groups and for free ones alike.
    #[command(after_help = "Example:\n  asmap scan --occupied groups.txt 4294967554 4294968068")]
    Scan(Scan),
    /// Print how a list of candidates spreads over groups: each group with its candidates and their per cent
    ///
    /// One group a line, rising, 25 bytes each: the group right-aligned in 10 columns, a space, its candidates in 6, a space, their per cent
    /// of all in 6, a line feed. Per cents are rounded to a tenth, halves up, so that they need not add up to 100.0. On a terminal each line
    /// has a bar behind it. In the file blank lines and what is behind `#` are left out. At most 4,096 candidates are taken.
    ///
    /// Groups are those of `asmap group` with the same options. Group 0 is not "unmapped": on a terminal, and with --json, stands what it comes
    /// from.
    #[command(after_help = "Examples:\n  asmap page candidates.txt\n  asmap page --map node.asmap candidates.txt | lpr")]
    Page(Page),
    /// Say which addresses can be no peer on the open Internet, and by which range
    ///
    /// The exit status is 0 for routable and unroutable addresses alike.
    #[command(after_help = "Example:\n  asmap filter 10.0.0.1 2001:db8::1")]
    Filter(Filter),
    /// Print the manual page
    #[command(hide = true)]
    Man,
    /// Print completions for a shell
    #[command(after_help = "Example:\n  asmap completions bash > asmap.bash")]
    Completions(Completions),
}

/// What every subcommand takes that checks maps, but for those of groups, which are by maps of 128 bits.
#[derive(Args, Clone, Copy, Debug)]
pub struct Bits {
    /// How many bits an address has: 128, or 32 for a map of IPv4 alone, without the 96 bits in front
    #[arg(long, value_name = "BITS", default_value_t = 128)]
    width: u32,
}

impl Bits {
    pub fn width(&self) -> Result<Width, Failure> {
        Width::asked(self.width)
    }
}

#[derive(Args, Debug)]
pub struct Check {
    /// Files of maps
    #[arg(required = true, value_name = "MAP")]
    pub maps: Vec<PathBuf>,
    #[command(flatten)]
    pub bits: Bits,
}

#[derive(Args, Debug)]
pub struct Walk {
    /// The file of a map
    pub map: PathBuf,
    /// Addresses; `-` reads them from standard input, one a line
    #[arg(required = true, value_name = "ADDRESS")]
    pub addresses: Vec<String>,
    /// Walk a map that the check refuses; every line then says so
    #[arg(long)]
    pub unchecked: bool,
    #[command(flatten)]
    pub bits: Bits,
}

#[derive(Args, Debug)]
pub struct Trace {
    /// The file of a map
    pub map: PathBuf,
    /// The address
    pub address: String,
    /// Trace a walk of a map that the check refuses; the output then says so
    #[arg(long)]
    pub unchecked: bool,
    #[command(flatten)]
    pub bits: Bits,
}

#[derive(Args, Debug)]
pub struct List {
    /// The file of a map
    pub map: PathBuf,
    /// Write records of 24 bytes instead of text
    #[arg(long)]
    pub records: bool,
    /// Write to this file instead of standard output
    #[arg(short, long, value_name = "FILE")]
    pub output: Option<PathBuf>,
    #[command(flatten)]
    pub bits: Bits,
}

#[derive(Args, Debug)]
pub struct Diff {
    /// The file of the old map
    pub old: PathBuf,
    /// The file of the new map
    pub new: PathBuf,
    /// Say also what becomes of the addresses in this file: one a line, or what getnodeaddresses prints; `-` reads standard input
    #[arg(long, value_name = "FILE")]
    pub addresses: Option<PathBuf>,
    /// Write the library's records of 28 bytes instead of text: the pieces as they are, not joined
    #[arg(long)]
    pub records: bool,
    /// Write to this file instead of standard output
    #[arg(short, long, value_name = "FILE")]
    pub output: Option<PathBuf>,
    #[command(flatten)]
    pub bits: Bits,
}

#[derive(Args, Debug)]
pub struct UndoCheck {
    /// The file of the map as it was before
    pub old: PathBuf,
    /// The file of the map that was brought back
    pub restored: PathBuf,
    #[command(flatten)]
    pub bits: Bits,
}

#[derive(Args, Debug)]
pub struct Unpack {
    /// The file of a map
    pub map: PathBuf,
    /// Write records of 16 bytes instead of text
    #[arg(long)]
    pub records: bool,
    /// Write to this file instead of standard output
    #[arg(short, long, value_name = "FILE")]
    pub output: Option<PathBuf>,
    #[command(flatten)]
    pub bits: Bits,
}

#[derive(Args, Debug)]
pub struct Pack {
    /// The list of instructions as `asmap unpack` writes it; `-` reads standard input
    #[arg(value_name = "LIST")]
    pub list: PathBuf,
    /// The list is records of 16 bytes instead of text
    #[arg(long)]
    pub records: bool,
    /// Write the map to this file instead of standard output
    #[arg(short, long, value_name = "FILE")]
    pub output: Option<PathBuf>,
    /// Write a map that the check refuses too, for tests and teaching
    #[arg(long)]
    pub unchecked: bool,
    #[command(flatten)]
    pub bits: Bits,
}

#[derive(Args, Debug)]
pub struct Build {
    /// The list of prefixes as `asmap list` writes it; `-` reads standard input
    #[arg(value_name = "LIST")]
    pub list: PathBuf,
    /// The number of all addresses that the list does not hold, in decimal: 1 to 33521664
    #[arg(long = "else", value_name = "NUMBER")]
    pub others: u32,
    /// The list is records of 24 bytes, as `asmap list --records` writes them, instead of text; they have to rise by address
    #[arg(long)]
    pub records: bool,
    /// Write the map to this file instead of standard output
    #[arg(short, long, value_name = "FILE")]
    pub output: Option<PathBuf>,
    #[command(flatten)]
    pub bits: Bits,
}

#[derive(Args, Debug)]
pub struct Load {
    /// The seed, in decimal: any number of 64 bits but 0
    #[arg(long, value_name = "SEED", default_value_t = Generator::DEFAULT_SEED)]
    pub seed: u64,
    /// How many pairs the load has: at most 128
    #[arg(long, value_name = "N")]
    pub pairs: usize,
    /// Write the map to this file instead of standard output
    #[arg(short, long, value_name = "FILE")]
    pub output: Option<PathBuf>,
}

/// What groups go by.
#[derive(Args, Debug)]
pub struct Grouped {
    /// Group by this map; without one the prefix of the address is its group
    #[arg(short, long, value_name = "MAP")]
    pub map: Option<PathBuf>,
    /// Without a map, number prefixes as before, for groups that were stored so: IPv4 from 0 on, among IPv6
    #[arg(long, conflicts_with = "map")]
    pub old_prefixes: bool,
}

#[derive(Args, Debug)]
pub struct Group {
    /// Addresses; `-` reads them from standard input, one a line
    #[arg(required = true, value_name = "ADDRESS")]
    pub addresses: Vec<String>,
    #[command(flatten)]
    pub by: Grouped,
}

#[derive(Args, Debug)]
pub struct Pick {
    /// Candidates, the best first, one a line: 1.2.3.4:8333 or [2001:db8::1]:8333; `-` reads standard input
    pub candidates: PathBuf,
    /// How many peers are wanted at most
    #[arg(long, value_name = "N")]
    pub max: usize,
    #[command(flatten)]
    pub by: Grouped,
    /// Groups that are occupied already, one a line, in decimal; `-` reads standard input
    #[arg(long, value_name = "FILE")]
    pub occupied: Option<PathBuf>,
}

#[derive(Args, Debug)]
pub struct Scan {
    /// Groups to look for, in decimal, as `asmap group` shows them
    #[arg(required = true, value_name = "GROUP")]
    pub groups: Vec<String>,
    /// Groups that are occupied, one a line, in decimal; `-` reads standard input
    #[arg(long, value_name = "FILE")]
    pub occupied: PathBuf,
}

#[derive(Args, Debug)]
pub struct Page {
    /// Candidates, one a line: 1.2.3.4:8333 or [2001:db8::1]:8333; `-` reads standard input
    pub candidates: PathBuf,
    #[command(flatten)]
    pub by: Grouped,
}

#[derive(Args, Debug)]
pub struct Filter {
    /// Addresses; `-` reads them from standard input, one a line
    #[arg(required = true, value_name = "ADDRESS")]
    pub addresses: Vec<String>,
}

#[derive(Args, Debug)]
pub struct Completions {
    /// The shell
    pub shell: Shell,
}
