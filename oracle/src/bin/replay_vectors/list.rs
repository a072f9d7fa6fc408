//! The list: a method for each kind of line, which asks the original and document 01 for the answer.
use crate::word;
use maps::Random;
use oracle::asmap::{self, consume_bit_le};
use oracle::building;
use oracle::changes::{self, Change};
use oracle::codes::{in_range, instruction, Row, ROWS};
use oracle::document::{self, End, Refusal, Verdict, Walk, CUT_OPCODE};
use oracle::filters::message;
use oracle::listing::{self, Prefix, RECORD};
use oracle::loads;
use oracle::page;
use oracle::picks::{self, By, Groups, Pick};
use oracle::scan::{self, Scan};
use oracle::width::{Width, W128};
use oracle::{cuts, netaddr, past_its_check, records};
use std::net::{IpAddr, Ipv4Addr, Ipv6Addr};
use std::panic;

/// The calls in the order in which the program counts them: letter and name.
pub const CALLS: [(char, &str); 36] = [
    ('d', "code read"),
    ('e', "code written"),
    ('i', "instruction read"),
    ('j', "instruction written"),
    ('b', "bit reader"),
    ('c', "check"),
    ('k', "where a check stops"),
    ('w', "walk"),
    ('u', "unpack"),
    ('p', "pack"),
    ('l', "list"),
    ('q', "bytes of a list"),
    ('v', "compare"),
    ('y', "bytes of a comparison"),
    ('C', "check at a width"),
    ('K', "where a check at a width stops"),
    ('W', "walk at a width"),
    ('U', "unpack at a width"),
    ('L', "list at a width"),
    ('Q', "bytes of a list at a width"),
    ('V', "compare at a width"),
    ('Y', "bytes of a comparison at a width"),
    ('n', "group by prefix"),
    ('g', "group"),
    ('h', "group, map unchecked"),
    ('s', "pick"),
    ('t', "pick, map unchecked"),
    ('o', "occupied scan"),
    ('a', "page"),
    ('z', "page, map unchecked"),
    ('m', "IPv4-mapped address"),
    ('f', "unroutable"),
    ('r', "relay skip"),
    ('X', "draw"),
    ('x', "load"),
    ('B', "build"),
];

/// The item of the reader that is no code.
pub const BIT: u8 = 4;

/// What a call hands back: a refusal, or its results one after the other.
type Answer = Result<Vec<u8>, Refusal>;

#[derive(Default)]
pub struct List {
    pub lines: Vec<String>,
    /// The number that is handed over as the width, where the calls that take one are asked.
    width: Option<u32>,
}

/// What a pick is handed. The rooms are those of the places and of the groups. Without a map one is there and not looked at.
#[derive(Clone, Copy)]
pub struct Picking<'a> {
    pub list: &'a [u8],
    pub occupied: &'a [u64],
    pub max: usize,
    pub by: By<'a>,
    pub map: &'a [u8],
    pub rooms: [usize; 2],
}

/// What a page is handed: the room is the output's. Without a map one is there and not looked at.
#[derive(Clone, Copy)]
pub struct Paging<'a> {
    pub list: &'a [u8],
    pub by: By<'a>,
    pub map: &'a [u8],
    pub room: usize,
}

fn answered(answer: &Answer) -> Vec<u8> {
    match answer {
        Ok(results) => [&[0][..], results].concat(),
        Err(reason) => vec![*reason as u8],
    }
}

/// What bytes written to an output of so many bytes leave in it: ee is what was there before.
fn output(written: &[u8], room: usize) -> Vec<u8> {
    let mut bytes = vec![0xee; room];
    bytes[..written.len()].copy_from_slice(written);
    bytes
}

/// A call that writes bytes: its answer, what its output holds then, and how many bytes it wrote.
struct Written {
    answer: Vec<u8>,
    left: Vec<u8>,
    bytes: Result<usize, Refusal>,
}

/// What was made, written to an output with so much room.
fn written_to(made: Answer, room: usize) -> Written {
    let fits = made.and_then(|bytes| if bytes.len() > room { Err(14) } else { Ok(bytes) });
    let bytes = fits.as_ref().map(Vec::len).map_err(|&reason| reason);
    let answer = answered(&bytes.map(|bytes| (bytes as u32).to_le_bytes().to_vec()));
    Written { answer, left: output(&fits.unwrap_or_default(), room), bytes }
}

fn le<const N: usize>(numbers: impl IntoIterator<Item = [u8; N]>) -> Vec<u8> {
    numbers.into_iter().flatten().collect()
}

/// Groups, eight bytes each.
fn numbers(groups: &[u64]) -> Vec<u8> {
    le(groups.iter().map(|group| group.to_le_bytes()))
}

impl List {
    /// A line that starts with `#` is passed over.
    pub fn heading(&mut self, text: &str) {
        self.lines.push(format!("# {text}"));
    }

    fn add(&mut self, call: char, words: &[&[u8]]) {
        let words: Vec<String> = words.iter().map(|bytes| word::text(bytes)).collect();
        self.lines.push(format!("{call} {}", words.join(" ")));
    }

    /// Inside, the calls over maps that can take a width are asked with this number for it, and not those that have 128 bits.
    pub fn at<T>(&mut self, width: u32, cases: impl FnOnce(&mut List) -> T) -> T {
        let before = self.width.replace(width);
        let made = cases(self);
        self.width = before;
        made
    }

    /// A line of such a call: its letter is capital where it takes a width, which is its first word then.
    fn add_at_width(&mut self, call: char, words: &[&[u8]]) {
        match self.width {
            None => self.add(call, words),
            Some(width) => self.add(call.to_ascii_uppercase(), &[&[&word::number(width.into())[..]], words].concat()),
        }
    }

    fn width(&self) -> Result<Width, Refusal> {
        self.width.map_or(Ok(W128), Width::of)
    }

    // ---- codes

    pub fn read_code(&mut self, row: &Row, map: &[u8], at: usize) -> Option<(u32, usize)> {
        let got = row.read(map, at);
        self.add('d', &[&[row.number], map, &word::number(at as u64), &answered(&decoded(got, row.cut()))]);
        got
    }

    /// The bits, or none where the value is out of its row's range. The original has no refusal: it panics, or what it writes is not
    /// read back as the value.
    pub fn write_code(&mut self, row: &Row, value: u32) -> Option<Vec<bool>> {
        let bits = row.holds(value).then(|| row.write(value));
        if bits.is_none() {
            assert!(is_lost(row, value), "the original writes {} {value}", row.name);
        }
        self.add('e', &[&[row.number], &word::number(value.into()), &answered(&written(bits.as_deref()))]);
        bits
    }

    /// Opcode and operand, and the bit after them, or which of the two is cut.
    pub fn read_instruction(&mut self, map: &[u8], at: usize) -> Result<(u32, u32, usize), Refusal> {
        let mut next = at;
        let got = document::instruction_at(&mut next, map).map(|(opcode, operand)| (opcode, operand, next));
        assert_eq!(got.err(), cuts::cut_at(map, at), "bit {at} of {map:?}");
        let results = |(opcode, operand, next): (u32, u32, usize)| {
            [le([opcode, operand].map(u32::to_le_bytes)), le([at, next - at].map(usize::to_le_bytes))].concat()
        };
        self.add('i', &[map, &word::number(at as u64), &answered(&got.map(results))]);
        got
    }

    pub fn write_instruction(&mut self, opcode: u32, operand: u32) {
        let bits = in_range(opcode, operand).then(|| instruction(opcode, operand));
        let inputs = [opcode, operand].map(|n| word::number(n.into()));
        self.add('j', &[&inputs[0], &inputs[1], &answered(&written(bits.as_deref()))]);
    }

    /// The original's functions move a cursor. A code that the map's end cuts leaves it at the end, where a reader stays at the code's
    /// first bit.
    pub fn read_item(&mut self, item: u8, map: &[u8], at: usize) -> Option<(u32, usize)> {
        let (got, cut) = match item {
            BIT => {
                let mut next = at;
                // A bit is no operand.
                (consume_bit_le(&mut next, map).map(|bit| (u32::from(bit), next)), CUT_OPCODE)
            }
            row => (ROWS[row as usize].read(map, at), ROWS[row as usize].cut()),
        };
        let place = got.map_or(at, |(_, next)| next);
        let left = (8 * map.len()).saturating_sub(place);
        let answer = [answered(&decoded(got, cut)), le([place, left].map(usize::to_le_bytes))].concat();
        self.add('b', &[&[item], map, &word::number(at as u64), &answer]);
        got
    }

    // ---- maps

    /// Two lines: the check's, and that of where it stops.
    pub fn check(&mut self, map: &[u8]) -> Result<(Verdict, usize), Refusal> {
        let checked = self.width().map(|width| checked(map, width));
        let answer = checked.and_then(|(verdict, _)| match verdict {
            Verdict::Accepted { count, depth } => Ok([&count.to_le_bytes()[..], &[depth as u8]].concat()),
            Verdict::Refused(reason) => Err(reason),
        });
        self.add_at_width('c', &[map, &answered(&answer)]);
        let reason = answer.err().unwrap_or(0) as u8;
        let stop = checked.map(|(_, place)| [&[reason][..], &place.to_le_bytes()].concat());
        self.add_at_width('k', &[map, &answered(&stop)]);
        checked
    }

    pub fn walk(&mut self, map: &[u8], address: &[u8]) -> Result<Walk, Refusal> {
        let walked = self.width().and_then(|width| walked(map, address, width));
        let results = walked.as_ref().map_err(|&reason| reason).map(|walk| {
            [&[walk.end.number()][..], &le([walk.number, walk.count].map(u32::to_le_bytes)), &[walk.bits as u8]].concat()
        });
        self.add_at_width('w', &[map, address, &answered(&results)]);
        walked
    }

    pub fn unpack(&mut self, map: &[u8], room: usize) {
        let unpacked = self.width().and_then(|width| records::unpack_bits(map, width));
        let Written { answer, left, .. } = written_to(unpacked, room);
        self.add_at_width('u', &[map, &answer, &left]);
    }

    pub fn pack(&mut self, records: &[u8], room: usize) {
        let Written { answer, left, .. } = written_to(records::pack(records), room);
        self.add('p', &[records, &answer, &left]);
    }

    /// A line for the bytes that a listing needs, and one for each output: `rooms` says how long they are where so many bytes are needed,
    /// or, of a map that is refused, a record's.
    pub fn list(&mut self, map: &[u8], rooms: fn(usize) -> Vec<usize>) -> Result<Vec<Prefix>, Refusal> {
        let listed = self.width().and_then(|width| listed(map, width));
        let made = listed.as_ref().map(|prefixes| listing::records(prefixes)).map_err(|&reason| reason);
        let needed = made.as_ref().map(|bytes| bytes.len().to_le_bytes().to_vec()).map_err(|&reason| reason);
        self.add_at_width('q', &[map, &answered(&needed)]);
        for room in rooms(made.as_ref().map_or(RECORD, Vec::len)) {
            let Written { answer, left, .. } = written_to(made.clone(), room);
            self.add_at_width('l', &[map, &answer, &left]);
        }
        listed
    }

    /// A comparison into an output with so much room. Hands back how many bytes it wrote.
    pub fn compare_into(&mut self, maps: [&[u8]; 2], room: usize) -> Result<usize, Refusal> {
        let made = self.compared(maps).map(|changes| changes::records(&changes));
        let Written { answer, left, bytes } = written_to(made, room);
        self.add_at_width('v', &[maps[0], maps[1], &answer, &left]);
        bytes
    }

    /// The bytes that a comparison needs, and the first address that differs, into an output with so much room.
    pub fn compare_bytes(&mut self, maps: [&[u8]; 2], room: usize) -> Result<usize, Refusal> {
        let told = self.compared(maps).and_then(|changes| if room < 16 { Err(14) } else { Ok(changes) });
        let first = told.as_ref().map_or(vec![], |changes| changes::first_of(changes).to_vec());
        let bytes = told.map(|changes| changes::RECORD * changes.len());
        let needed = bytes.map(|bytes| bytes.to_le_bytes().to_vec());
        self.add_at_width('y', &[maps[0], maps[1], &answered(&needed), &output(&first, room)]);
        bytes
    }

    /// Lines for the bytes that a comparison needs, and for each output: `rooms` says how long they are where so many bytes are needed,
    /// or, of a map that is refused, a record's.
    pub fn compare(&mut self, maps: [&[u8]; 2], rooms: fn(usize) -> Vec<usize>) -> Result<Vec<Change>, Refusal> {
        let needed = self.compare_bytes(maps, 16).unwrap_or(changes::RECORD);
        for room in rooms(needed) {
            let _ = self.compare_into(maps, room);
        }
        self.compared(maps)
    }

    fn compared(&self, maps: [&[u8]; 2]) -> Result<Vec<Change>, Refusal> {
        self.width().and_then(|width| compared(maps, width))
    }

    // ---- peers

    /// By the old numbering, whatever else changes.
    pub fn prefix_group(&mut self, candidate: &[u8]) {
        self.add('n', &[candidate, &answered(&group(By::OldPrefixes, candidate))]);
    }

    /// Without a map one is there and not looked at.
    pub fn group(&mut self, by: By, candidate: &[u8], map: &[u8]) {
        self.add('g', &[&[word_of(by)], candidate, map, &answered(&group(by, candidate))]);
    }

    pub fn group_unchecked(&mut self, by: By, candidate: &[u8], map: &[u8]) {
        self.add('h', &[&[word_of(by)], candidate, map, &answered(&group(by, candidate))]);
    }

    pub fn pick(&mut self, inputs: &Picking) -> Result<Pick, Refusal> {
        self.picked('s', inputs)
    }

    pub fn pick_unchecked(&mut self, inputs: &Picking) -> Result<Pick, Refusal> {
        self.picked('t', inputs)
    }

    fn picked(&mut self, call: char, inputs: &Picking) -> Result<Pick, Refusal> {
        let Picking { list, occupied, max, by, map, rooms } = *inputs;
        let made = picks::pick(list, occupied, max, &Groups::new(by), rooms);
        let (mut places, mut groups) = (vec![999u16; rooms[0]], vec![888u64; rooms[1]]);
        let answer = made.as_ref().map_err(|&reason| reason).map(|pick| {
            pick.places.iter().zip(&mut places).for_each(|(&place, left)| *left = place as u16);
            groups[..pick.groups.len()].copy_from_slice(&pick.groups);
            le([pick.places.len() as u64, pick.groups.len() as u64, pick.examined as u64, pick.instructions].map(u64::to_le_bytes))
        });
        let taken = numbers(occupied);
        let outputs = [le(places.iter().map(|place| place.to_le_bytes())), numbers(&groups)];
        let max = word::number(max as u64);
        self.add(call, &[&[word_of(by)], list, &taken, &max, map, &answered(&answer), &outputs[0], &outputs[1]]);
        made
    }

    /// Whether there is a hit, 1 or 0, its place, 0 where there is none, and how many groups were read.
    pub fn scan(&mut self, group: u64, occupied: &[u64]) -> Result<Scan, Refusal> {
        let made = scan::scan(group, occupied);
        let answer = made.map(|Scan { hit, read }| {
            [&[u8::from(hit.is_some())][..], &le([hit.unwrap_or(0), read].map(usize::to_le_bytes))].concat()
        });
        self.add('o', &[&word::number(group), &numbers(occupied), &answered(&answer)]);
        made
    }

    pub fn page(&mut self, inputs: &Paging) -> Result<String, Refusal> {
        self.paged('a', inputs)
    }

    pub fn page_unchecked(&mut self, inputs: &Paging) -> Result<String, Refusal> {
        self.paged('z', inputs)
    }

    fn paged(&mut self, call: char, inputs: &Paging) -> Result<String, Refusal> {
        let Paging { list, by, map, room } = *inputs;
        let made = page::page(list, &Groups::new(by));
        let Written { answer, left, bytes } = written_to(made.clone().map(String::into_bytes), room);
        self.add(call, &[&[word_of(by)], list, map, &answer, &left]);
        bytes.and(made)
    }

    // ---- addresses

    pub fn mapped(&mut self, address: Ipv4Addr) -> [u8; 16] {
        let bytes = asmap::ip16_for_lookup(IpAddr::V4(address));
        self.add('m', &[&address.octets(), &bytes]);
        bytes
    }

    pub fn filter(&mut self, address: &[u8]) -> Result<bool, Refusal> {
        let filtered = <[u8; 16]>::try_from(address).map_err(|_| 11);
        let answer = filtered.map(|bytes| netaddr::clearnet_unroutable(IpAddr::from(Ipv6Addr::from(bytes))));
        self.add('f', &[address, &answered(&answer.map(|yes| vec![u8::from(yes)]))]);
        answer
    }

    pub fn relay(&mut self, id: u8, port: u16, address: &[u8]) -> Result<bool, Refusal> {
        let answer = message(id, address, port).map(|message| netaddr::addrv2_skip_relay(&message)).ok_or(17);
        self.add('r', &[&[id], &word::number(port.into()), address, &answered(&answer.map(|yes| vec![u8::from(yes)]))]);
        answer
    }

    // ---- loads

    /// The draw after a number, which is the seed or the draw before.
    pub fn draw(&mut self, s: u64) -> Result<u64, Refusal> {
        let draw = loads::next_draw(s);
        self.add('X', &[&word::number(s), &answered(&draw.map(|draw| draw.to_le_bytes().to_vec()))]);
        draw
    }

    /// A load into an output with so much room. Hands back how many bytes it wrote.
    pub fn load(&mut self, seed: u64, pairs: u64, room: usize) -> Result<usize, Refusal> {
        let made = loaded(seed, pairs);
        let Written { answer, left, bytes } = written_to(made, room);
        self.add('x', &[&word::number(seed), &word::number(pairs), &answer, &left]);
        bytes
    }

    // ---- maps built from prefixes

    /// A map at a width, of records and a number for all other addresses, into an output with so much room. Hands back how many bytes it
    /// wrote.
    pub fn build(&mut self, width: u32, given: u32, records: &[u8], room: usize) -> Result<usize, Refusal> {
        let Written { answer, left, bytes } = written_to(built(records, given, width), room);
        self.add('B', &[&word::number(width.into()), &word::number(given.into()), records, &answer, &left]);
        bytes
    }
}

fn decoded(got: Option<(u32, usize)>, cut: Refusal) -> Answer {
    got.map(|(value, next)| [&value.to_le_bytes()[..], &next.to_le_bytes()].concat()).ok_or(cut)
}

fn written(bits: Option<&[bool]>) -> Answer {
    bits.map(|bits| [&[bits.len() as u8][..], &oracle::codes::word(bits).to_le_bytes()].concat()).ok_or(15)
}

/// A panic of the original is the answer here, and says nothing on standard error.
fn is_lost(row: &Row, value: u32) -> bool {
    let hook = panic::take_hook();
    panic::set_hook(Box::new(|_| {}));
    let written = panic::catch_unwind(|| row.write(value));
    panic::set_hook(hook);
    match written {
        Err(_) => true,
        Ok(bits) => row.read(&asmap::pack_le(&bits), 0) != Some((value, bits.len())),
    }
}

/// The verdict is held to the original's at that width, and what is accepted at 32 is so at 128, with the same count and depth.
fn checked(map: &[u8], width: Width) -> (Verdict, usize) {
    let (verdict, place) = document::check_stop_bits(map, width);
    let accepted = matches!(verdict, Verdict::Accepted { .. });
    assert_eq!(accepted, asmap::sanity_check_bits(map, width.bits() as i32), "the original's verdict on {map:?} at {width:?}");
    assert!(!accepted || document::check_stop(map) == (verdict, place), "{map:?} is accepted at {width:?}, and otherwise at 128");
    cuts::hold_check(map, verdict, place);
    (verdict, place)
}

/// An address as the original takes it: with zeros behind one of 4 bytes.
fn with_zeros(address: &[u8]) -> [u8; 16] {
    let mut bytes = [0; 16];
    bytes[..address.len()].copy_from_slice(address);
    bytes
}

/// The number is held to the original's, put past its check; and no walk of a map that is accepted at that width aborts or reads more than
/// it may. The original has no walk at 32; but a walk that there are enough bits for asks for none behind the address, and so the original's
/// goes the same way, to a cut too.
fn walked(map: &[u8], address: &[u8], width: Width) -> Result<Walk, Refusal> {
    let walk = document::walk_bits(map, address, width)?;
    cuts::hold_walk(map, &walk);
    if width == W128 || walk.end != End::TooFewBits {
        let original = past_its_check(map).interpret_ip16(&with_zeros(address));
        assert_eq!(walk.number, original, "the original's number for {address:?} by {map:?}");
    }
    if asmap::sanity_check_bits(map, width.bits() as i32) {
        assert!(!walk.end.aborts(), "{address:?} by {map:?}");
        assert!(walk.count <= 2 * width.bits() + 1, "{address:?} by {map:?}");
    }
    Ok(walk)
}

/// Of a map that is accepted the prefixes are held to the original's walk, by addresses that are the same in every run.
fn listed(map: &[u8], width: Width) -> Result<Vec<Prefix>, Refusal> {
    let prefixes = listing::list_bits(map, width)?;
    listing::hold(map, &prefixes, &mut Random(map.len() as u64));
    Ok(prefixes)
}

/// Of two maps that are accepted, what differs is held to the original's walk by both.
fn compared(maps: [&[u8]; 2], width: Width) -> Result<Vec<Change>, Refusal> {
    let changes = changes::compare_bits(maps[0], maps[1], width)?;
    changes::hold(maps, &changes, &mut Random(maps.map(<[u8]>::len).iter().sum::<usize>() as u64));
    Ok(changes)
}

/// A load is held to the original, as the map that it is.
fn loaded(seed: u64, pairs: u64) -> Answer {
    let load = loads::load(seed, pairs)?;
    loads::hold(&load, &mut Random(pairs));
    Ok(load.bytes())
}

/// A map that is built is held to the original, and what it lists to the records.
fn built(records: &[u8], given: u32, width: u32) -> Answer {
    let (prefixes, width) = building::read(records, given, width)?;
    let map = building::built(&prefixes, given)?.bytes();
    building::hold(&map, &prefixes, given, width, &mut Random(map.len() as u64));
    Ok(map)
}

/// What a line has for what groups go by.
fn word_of(by: By) -> u8 {
    match by {
        By::Prefixes => 0,
        By::Map(_) | By::Unchecked(_) => 1,
        By::OldPrefixes => 2,
    }
}

fn group(by: By, candidate: &[u8]) -> Answer {
    Groups::new(by).group(candidate).map(|group| group.to_le_bytes().to_vec())
}
