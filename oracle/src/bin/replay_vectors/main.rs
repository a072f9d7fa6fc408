//! The answers that the program `replay_vectors` works through: with `--list` the list that it reads (crates/replay_vectors/stdin), with
//! `--table NAME` a table of docs/tables, with `--tables` the names of those, and without a word what the program prints
//! (crates/replay_vectors/stdout). The answers are the original's and, where it has no say, those of documents 01 and 02 and what follows
//! from them.
//!
//! # The list
//!
//! A line is a letter for the call and words with one blank before each: the inputs, the answer, and what each output holds at exit. A line
//! that starts with `#` is a heading.
//!
//! A word is bytes, written as pairs of hexadecimal digits. `ee*40` says the pairs 40 times; `0000*4096+01` says them 4,096 times, each
//! time with 01 added to the number that they are. A comma joins such pieces (`04,00*11,ffff`), and `-` is a word of no bytes. Numbers are
//! little-endian; as an input a number may leave out zeros at its end.
//!
//! An answer is the byte 0 or the refusal's number and, where the call is done, its results one after the other, here with their bytes.
//! An output is as long as its word. Before the call each byte of it is ee, each place 999, and each group 888: what a call does not
//! write has to be so at exit too.
//!
//! The program has room for a list of 2,097,151 bytes, for 262,144 bytes in the words of a line, for outputs of 8,192 bytes or of 4,096
//! places and groups, and for 4,100 occupied groups.
//!
//!     d ROW MAP BIT ANSWER               code read: value (4), the bit after it (8). Rows: 0 opcode, 1 AS number, 2 MATCH, 3 JUMP
//!     e ROW VALUE ANSWER                 code written: how many bits (1), the bits, the first lowest (8)
//!     i MAP BIT ANSWER                   instruction read: opcode (4), operand (4), its first bit (8), how many bits (8)
//!     j OPCODE OPERAND ANSWER            instruction written: as a code
//!     b ITEM MAP BIT ANSWER              bit reader: as a code read, by row or 4 for a bit; then, also after a refusal, where the reader
//!                                        stands (8) and how many bits are left (8)
//!     c MAP ANSWER                       check: count (4), depth (1)
//!     k MAP ANSWER                       where a check stops: reason (1), 0 where it accepts, and the bit (8)
//!     w MAP ADDRESS ANSWER               walk: kind of end (1: RETURN 1, difference 2, too few address bits 3, cut opcode 4, cut operand
//!                                        19), number (4), count (4), bits (1)
//!     u MAP ANSWER RECORDS               unpack: bytes written (4)
//!     p RECORDS ANSWER MAP               pack: bytes written (4)
//!     l MAP ANSWER PREFIXES              list: bytes written (4)
//!     q MAP ANSWER                       bytes of a list: how many (8)
//!     v OLD NEW ANSWER CHANGES           two maps compared: bytes written (4)
//!     y OLD NEW ANSWER FIRST             bytes of that: how many (8). FIRST holds the first address that differs
//!     C WIDTH MAP ANSWER                 the same calls at a width, which is a number of four bytes: check,
//!     K WIDTH MAP ANSWER                 where it stops,
//!     W WIDTH MAP ADDRESS ANSWER         walk,
//!     U WIDTH MAP ANSWER RECORDS         unpack,
//!     L WIDTH MAP ANSWER PREFIXES        list,
//!     Q WIDTH MAP ANSWER                 bytes of a list,
//!     V WIDTH OLD NEW ANSWER CHANGES     two maps compared,
//!     Y WIDTH OLD NEW ANSWER FIRST       bytes of that
//!     n CANDIDATE ANSWER                 group by prefix, of the old numbering: group (8)
//!     g BY CANDIDATE MAP ANSWER          group (8). BY is 1 with a map; without, where the map is not to be looked at, it is 0 for document
//!                                        02's numbering (CR 7) and 2 for the old one, which is the original's
//!     h BY CANDIDATE MAP ANSWER          the same with a map that is not checked
//!     s BY LIST OCCUPIED MAX MAP ANSWER PLACES GROUPS
//!                                        pick: total, first, examined, instructions (8 each). Occupied groups have 8 bytes each, as GROUPS
//!                                        have, and PLACES 2
//!     t (the same)                       pick with a map that is not checked
//!     o GROUP OCCUPIED ANSWER            occupied scan: whether there is a hit (1), its place or 0 (8), how many groups were read (8)
//!     a BY LIST MAP ANSWER PAGE          page: bytes written (4). BY as above
//!     z BY LIST MAP ANSWER PAGE          the same with a map that is not checked
//!     m IPV4 ADDRESS                     IPv4-mapped address
//!     f ADDRESS ANSWER                   unroutable (1)
//!     r NETWORK PORT ADDRESS ANSWER      relay skip (1)
//!     X NUMBER ANSWER                    the draw after a number, which is the seed or the draw before (8)
//!     x SEED PAIRS ANSWER LOAD           load of so many pairs: bytes written (4)
//!     B WIDTH GIVEN RECORDS ANSWER MAP   map built at a width from prefixes and a number for all other addresses: bytes written (4)
//!
//! # A new call
//!
//! Here: a letter above and in `list::CALLS`, a method of `List`, and cases. In the program: a function that makes the call and compares; and in
//! its `calls.rt` a case of `Call` with its row in `KINDS` (the letter, and the name where the counts are printed), the lengths of its words in
//! `Call::parts`, and that function in `Call::made`.
mod addresses;
mod building;
mod codes;
mod comparisons;
mod crowded;
mod cuts;
mod list;
mod listings;
mod loads;
mod numbering;
mod pages;
mod peers;
mod programs;
mod sample;
mod scans;
mod tables;
mod widths;
mod word;

use list::{List, CALLS};
use tables::Tables;

fn print_counts(list: &List) {
    let count = |start: &str| list.lines.iter().filter(|line| line.starts_with(start)).count();
    for (letter, name) in CALLS {
        println!("{name}: {} answers, 0 differ", count(&format!("{letter} ")));
    }
    println!("{} lines, {} of them headings, 0 with a wrong count of words, 0 not read", list.lines.len(), count("#"));
}

fn main() {
    let (mut list, mut tables) = (List::default(), Tables::new());
    codes::cases(&mut list, &mut tables);
    programs::cases(&mut list, &mut tables);
    listings::cases(&mut list, &mut tables);
    comparisons::cases(&mut list, &mut tables);
    widths::cases(&mut list, &mut tables);
    peers::cases(&mut list, &mut tables);
    crowded::cases(&mut list);
    scans::cases(&mut list, &mut tables);
    pages::cases(&mut list, &mut tables);
    numbering::cases(&mut list, &mut tables);
    cuts::cases(&mut list, &mut tables);
    loads::cases(&mut list, &mut tables);
    building::cases(&mut list, &mut tables);
    addresses::cases(&mut list, &mut tables);
    sample::cases(&mut list);
    let words: Vec<String> = std::env::args().skip(1).collect();
    match words.iter().map(String::as_str).collect::<Vec<&str>>()[..] {
        ["--list"] => list.lines.iter().for_each(|line| println!("{line}")),
        ["--tables"] => Tables::names().for_each(|name| println!("{name}")),
        ["--table", name] => tables.print(name),
        _ => print_counts(&list),
    }
}
