//! The original and ours on the same inputs in one run, both for release, as ratios with their spread. What each part measures is told
//! in docs/BENCHMARKS.md.
//!
//!     bench                     every part
//!     bench PART...             some of: check walk width records list compare build codes group pick scan page load filters growth
//!     bench --count CALL BYTES  one call of ours alone, many times, for a tool that counts instructions: check, walk, unpack,
//!                               pack, list or compare
#[allow(dead_code)]
#[path = "../../../shared/docs/src/crates/rbitcoin-net/src/asmap.rs"]
mod asmap;
#[allow(dead_code)]
#[path = "../../../shared/docs/src/crates/rbitcoin-net/src/netaddr.rs"]
mod netaddr;
#[allow(dead_code)]
#[path = "../../../shared/docs/src/crates/rbitcoin-net/src/netgroup.rs"]
mod netgroup;

/// Stands in for the original's error.rs: the one error that netaddr.rs makes.
mod error {
    #[derive(Debug)]
    #[allow(dead_code)]
    pub enum NetError {
        Encode(String),
    }
}

mod build;
mod compare;
mod inputs;
mod load;
mod measure;
mod occupied;
mod page;
mod parts;
mod width;

fn main() {
    let words: Vec<String> = std::env::args().skip(1).collect();
    let words: Vec<&str> = words.iter().map(String::as_str).collect();
    if let ["--count", call, bytes] = words[..] {
        return parts::count(call, bytes.parse().expect("a number of bytes"));
    }
    let all = [
        "check", "walk", "width", "records", "list", "compare", "build", "codes", "group", "pick", "scan", "page", "load",
        "filters", "growth",
    ];
    let chosen = if words.is_empty() { &all[..] } else { &words };
    for part in chosen {
        match *part {
            "check" => parts::check(),
            "walk" => parts::walk(),
            "width" => width::part(),
            "records" => parts::records(),
            "list" => parts::list(),
            "compare" => compare::part(),
            "build" => build::part(),
            "codes" => parts::codes(),
            "group" => parts::group(),
            "pick" => parts::pick(),
            "scan" => occupied::scan(),
            "page" => page::part(),
            "load" => load::part(),
            "filters" => parts::filters(),
            "growth" => parts::growth(),
            other => panic!("no part is named {other}"),
        }
    }
}
