//! The addresses of a file, by two maps: how many of them change, and from what number to what.
use crate::compared::Pair;
use crate::failure::Failure;
use crate::files::{self, Lines};
use crate::width::Width;
use crate::words::grouped;
use serde_json::Value;
use std::collections::BTreeMap;
use std::net::IpAddr;
use std::path::Path;

/// The most bytes of a list in JSON, which is read whole. What a node knows, some 80,000 addresses at most, takes half of it.
const MOST_JSON: usize = 32 << 20;

/// An address that changes.
#[derive(Clone, Copy)]
pub struct Moved {
    pub address: IpAddr,
    pub old: u32,
    pub new: u32,
}

/// What two maps say of the addresses of a file.
pub struct Sampled {
    pub name: String,
    /// How many addresses were asked for: as often as each stands in the file.
    pub given: u64,
    /// Those that change, in order.
    pub moved: Vec<Moved>,
    /// Entries that no map has a number for, by their network.
    pub skipped: BTreeMap<String, u64>,
}

impl Sampled {
    /// Looks up every address of a file, or of standard input where its name is `-`: one a line, or as a node's getnodeaddresses prints
    /// them.
    pub fn read(path: &Path, pair: &Pair) -> Result<Sampled, Failure> {
        let mut sampled = Sampled { name: files::input_name(path), given: 0, moved: Vec::new(), skipped: BTreeMap::new() };
        let mut lines = files::lines(path)?;
        if lines.starts_with(b'[')? {
            sampled.of_json(lines, pair)?;
        } else {
            sampled.of_lines(lines, pair)?;
        }
        Ok(sampled)
    }

    /// How many addresses go from one number to another, with the first of them; the most first.
    pub fn moves(&self) -> Vec<(u64, Moved)> {
        let mut moves: BTreeMap<(u32, u32), (u64, Moved)> = BTreeMap::new();
        for &moved in &self.moved {
            moves.entry((moved.old, moved.new)).or_insert((0, moved)).0 += 1;
        }
        let mut moves: Vec<(u64, Moved)> = moves.into_values().collect();
        moves.sort_by_key(|&(count, _)| std::cmp::Reverse(count));
        moves
    }

    fn look_up(&mut self, address: IpAddr, pair: &Pair) -> Result<(), Failure> {
        let (old, new) = pair.numbers(address)?;
        self.given += 1;
        if old != new {
            self.moved.push(Moved { address, old, new });
        }
        Ok(())
    }

    fn of_lines(&mut self, mut lines: Lines, pair: &Pair) -> Result<(), Failure> {
        while let Some(line) = lines.next() {
            let line = line?;
            if !line.trim().is_empty() {
                let address = pair.width.address(line.trim()).map_err(|failure| lines.at_line(failure))?;
                self.look_up(address, pair)?;
            }
        }
        Ok(())
    }

    fn of_json(&mut self, lines: Lines, pair: &Pair) -> Result<(), Failure> {
        let said = |why: String| Failure::new(format!("{}: {why}", self.name));
        let Some(bytes) = lines.rest(MOST_JSON)? else {
            let most = grouped(MOST_JSON as u64);
            return Err(said(format!("a list in JSON of more than {most} bytes is not read; give its addresses one a line")));
        };
        let entries: Vec<Value> =
            serde_json::from_slice(&bytes).map_err(|error| said(format!("it is no list in JSON: {error}")))?;
        for (place, entry) in entries.iter().enumerate() {
            let at_entry = |failure| match failure {
                Failure::Said(why) => Failure::new(format!("{}: entry {}: {why}", self.name, place + 1)),
                other => other,
            };
            match entry_of(entry, pair.width).map_err(at_entry)? {
                Entry::Address(address) => self.look_up(address, pair)?,
                Entry::Skipped(network) => *self.skipped.entry(network.to_string()).or_default() += 1,
            }
        }
        Ok(())
    }
}

/// An entry of getnodeaddresses: an address that maps know, or the network of another.
enum Entry<'a> {
    Address(IpAddr),
    Skipped(&'a str),
}

fn entry_of(entry: &Value, width: Width) -> Result<Entry<'_>, Failure> {
    let field = |name: &str| {
        let text = entry.get(name).and_then(Value::as_str);
        text.ok_or_else(|| Failure::new(format!("it has no text {name:?}; expected the list that getnodeaddresses prints")))
    };
    let (address, network) = (field("address")?, field("network")?);
    match network {
        // A map of IPv4 alone has numbers for no other network.
        "ipv6" if width.is_ipv4() => Ok(Entry::Skipped(network)),
        "ipv4" | "ipv6" => width.address(address).map(Entry::Address),
        // What looks like an IPv6 address there is none of the Internet's: CJDNS has fc00::/8 to itself.
        _ => Ok(Entry::Skipped(network)),
    }
}
