//! The library's calls, through the archive, against the original and, where it has no say, documents 01 and 02 worked through on its
//! decoders (package `oracle`). Every result of a call is compared: the answer, each number and each place that was lent, written or not. A
//! call is one comparison.
//!
//!     scale [--long] [--seed N]
mod builds;
mod calls;
mod changes;
mod codes;
mod crowded;
mod cuts;
mod filters;
mod limits;
mod listing;
mod loads;
mod numberings;
mod pages;
mod picks;
mod programs;
mod safe;
mod scans;
mod tally;
mod widths;

use maps::Random;
use std::time::{Instant, SystemTime, UNIX_EPOCH};
use tally::Tally;

/// How much of each part is run.
#[derive(Clone, Copy, PartialEq)]
pub enum Form {
    Short,
    Long,
}

impl Form {
    pub fn choose<T>(self, short: T, long: T) -> T {
        match self {
            Form::Short => short,
            Form::Long => long,
        }
    }
}

fn words() -> (Form, u64) {
    let now = SystemTime::now().duration_since(UNIX_EPOCH).map_or(1, |time| time.as_nanos() as u64);
    let (mut form, mut seed) = (Form::Short, now);
    let mut words = std::env::args().skip(1);
    while let Some(word) = words.next() {
        match (word.as_str(), words.next()) {
            ("--long", next) => {
                form = Form::Long;
                if next.as_deref() == Some("--seed") {
                    seed = words.next().and_then(|n| n.parse().ok()).expect("--seed N");
                }
            }
            ("--seed", Some(n)) => seed = n.parse().expect("--seed N"),
            _ => panic!("scale [--long] [--seed N]"),
        }
    }
    (form, seed)
}

fn main() {
    let (form, seed) = words();
    println!("scale: seed {seed}");
    let mut tally = Tally::default();
    type Part = fn(&mut Tally, &mut Random, Form);
    let parts: [(&str, Part); 18] = [
        ("codes", codes::run),
        ("short strings", programs::short_strings),
        ("random bytes", programs::random_bytes),
        ("trees", programs::trees),
        ("records", programs::records),
        ("picks", picks::run),
        ("filters", filters::run),
        ("safe crate", safe::run),
        ("limits", limits::run),
        ("two maps", changes::run),
        ("occupied scans", scans::run),
        ("crowded picks", crowded::run),
        ("widths", widths::run),
        ("pages", pages::run),
        ("cuts", cuts::run),
        ("loads", loads::run),
        ("numberings", numberings::run),
        ("built maps", builds::run),
    ];
    for (number, (name, part)) in parts.into_iter().enumerate() {
        let (start, before) = (Instant::now(), tally.compared);
        part(&mut tally, &mut Random(seed.wrapping_add(number as u64)), form);
        println!("scale: {name}: {} comparisons, {:.1} s", tally.compared - before, start.elapsed().as_secs_f64());
    }
    let [opcode, operand] = tally.cut;
    println!(
        "scale: maps accepted {}, refused {}, of these {opcode} cut in an opcode, {operand} in an operand",
        tally.accepted, tally.refused
    );
    let [returned, differed, short, opcode, operand] = tally.ended;
    println!("scale: walks ended by RETURN {returned}, difference {differed}, too few bits {short}, cut opcode {opcode}, cut operand {operand}");
    println!("scale: {} comparisons, {} differences, seed {seed}", tally.compared, tally.different);
    std::process::exit(i32::from(tally.different != 0));
}
