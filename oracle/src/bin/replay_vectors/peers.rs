//! Groups and picks over the original's test maps and without a map, by both numberings, and every refusal in its order.
use crate::list::{List, Picking};
use crate::tables::{runs, Tables};
use oracle::asmap::{self, LOOPBACK_ASMAP, TWO_PREFIX_ASMAP};
use oracle::document::Refusal;
use oracle::picks::{By, Groups, Pick};
use std::net::SocketAddr;

pub const MIXED: [&str; 10] = [
    "1.2.3.4:8333",
    "1.2.9.9:8333",
    "3.4.0.1:8333",
    "8.8.8.8:8333",
    "8.9.8.8:8333",
    "1.2.3.4:8333",
    "1.2.3.4:8334",
    "[2001:db8::1]:8333",
    "[::ffff:1.2.3.4]:8333",
    "3.4.0.1:8333",
];

pub const LOOPBACK: [&str; 6] =
    ["127.0.0.1:8333", "127.0.0.2:8333", "127.0.0.3:8333", "10.0.0.1:8333", "127.0.0.1:8334", "127.0.0.2:8333"];

/// A map that is none: its walks abort, and the check refuses it with 2.
pub const NONE: &[u8] = asmap::ASMAP_JUMP_OFF_END;

pub fn candidate(text: &str) -> Vec<u8> {
    let socket: SocketAddr = text.parse().expect("an address and a port");
    let family = if socket.is_ipv4() { 4 } else { 6 };
    [&[family, 0][..], &asmap::ip16_for_lookup(socket.ip()), &socket.port().to_be_bytes()].concat()
}

pub fn list_of(texts: &[&str]) -> Vec<u8> {
    texts.iter().flat_map(|text| candidate(text)).collect()
}

/// A candidate, and it again with one byte that makes it none.
fn with(place: usize, byte: u8) -> Vec<u8> {
    let first = candidate(MIXED[0]);
    let mut second = first.clone();
    second[place] = byte;
    [first, second].concat()
}

pub fn other_family() -> Vec<u8> {
    with(0, 5)
}

pub fn second_byte() -> Vec<u8> {
    with(1, 1)
}

/// Family 4 without the mapped form.
pub fn not_mapped() -> Vec<u8> {
    with(11, 1)
}

pub fn twenty_one() -> Vec<u8> {
    [candidate(MIXED[0]), vec![0]].concat()
}

// ---- groups

/// By its prefix, by a map that is checked, and by the same map as it is. Without a map by both numberings through both calls.
pub fn group(list: &mut List, candidate: &[u8], map: &[u8]) {
    list.prefix_group(candidate);
    list.group(By::OldPrefixes, candidate, map);
    list.group(By::Map(map), candidate, map);
    list.group_unchecked(By::OldPrefixes, candidate, map);
    list.group_unchecked(By::Unchecked(map), candidate, map);
    list.group(By::Prefixes, candidate, map);
    list.group_unchecked(By::Prefixes, candidate, map);
}

pub fn group_row(tables: &mut Tables, name: &str, what: &str, candidate: &[u8], map: &[u8]) {
    let group = |by| Groups::new(by).group(candidate).map_or_else(|reason| format!("refused {reason}"), |group| group.to_string());
    let [new, old, mapped, unchecked] = [By::Prefixes, By::OldPrefixes, By::Map(map), By::Unchecked(map)].map(group);
    tables.row("groups", format!("{name}, {what}: prefix {new}, old {old}, map {mapped}, unchecked {unchecked}"));
}

fn groups(list: &mut List, tables: &mut Tables) {
    list.heading("groups: of each candidate by its prefix, by both numberings, by a map, and by the map unchecked");
    for (name, map, texts) in [
        ("TWO_PREFIX_ASMAP", TWO_PREFIX_ASMAP, &MIXED[..]),
        ("LOOPBACK_ASMAP", LOOPBACK_ASMAP, &LOOPBACK),
        ("ASMAP_JUMP_OFF_END", NONE, &MIXED),
    ] {
        for text in texts {
            group(list, &candidate(text), map);
            group_row(tables, name, text, &candidate(text), map);
        }
    }
    for (what, bytes, map) in [
        ("its second byte is 1", second_byte(), NONE),
        ("another family", other_family(), TWO_PREFIX_ASMAP),
        ("family 4 without the mapped form", not_mapped(), TWO_PREFIX_ASMAP),
        ("19 bytes", candidate(MIXED[0])[..19].to_vec(), NONE),
        ("21 bytes", twenty_one(), NONE),
    ] {
        let name = if map == NONE { "ASMAP_JUMP_OFF_END" } else { "TWO_PREFIX_ASMAP" };
        let chunks = if bytes.len() == 40 { 20 } else { bytes.len() };
        bytes.chunks(chunks).for_each(|candidate| group(list, candidate, map));
        group_row(tables, name, what, &bytes[bytes.len() - chunks..], map);
    }
}

// ---- picks

fn words(numbers: impl Iterator<Item = u64>) -> String {
    numbers.map(|n| format!(" {n}")).collect()
}

fn said(made: &Result<Pick, Refusal>) -> String {
    match made {
        Err(reason) => format!("refused {reason}"),
        Ok(pick) => {
            let (total, first) = (pick.places.len(), pick.groups.len());
            let head = format!("total {total}, first {first}, examined {}, instructions {}", pick.examined, pick.instructions);
            let places = words(pick.places.iter().map(|&place| place as u64));
            format!("{head}; places{places}; groups{}", words(pick.groups.iter().copied()))
        }
    }
}

/// A list of candidates under a name, with the groups that are occupied, and the map that is handed over, also where groups do not go
/// by it.
pub struct Case<'a> {
    pub name: &'a str,
    pub list: &'a [u8],
    pub occupied: &'a [u64],
    pub by: By<'a>,
    pub map: &'a [u8],
}

fn most(max: usize) -> String {
    if max == usize::MAX {
        "the largest".into()
    } else {
        max.to_string()
    }
}

impl Case<'_> {
    fn pick(&self, list: &mut List, max: usize, rooms: [usize; 2]) -> String {
        let Case { list: candidates, occupied, by, map, .. } = *self;
        let inputs = Picking { list: candidates, occupied, max, by, map, rooms };
        said(&match by {
            By::Unchecked(_) => list.pick_unchecked(&inputs),
            _ => list.pick(&inputs),
        })
    }

    fn pick_row(&self, list: &mut List, tables: &mut Tables, max: usize, rooms: [usize; 2]) {
        let made = self.pick(list, max, rooms);
        tables.row("pick", format!("{}, max {}: {made}", self.name, most(max)));
    }

    /// Outputs that are too long for a table.
    fn pick_many(&self, list: &mut List, max: usize, room: usize) {
        list.heading(self.name);
        self.pick(list, max, [room, room]);
    }
}

/// Every max up to two above a list of ten, and the largest, into outputs of twelve places. Those that pick the same are one row.
pub fn each_max(list: &mut List, tables: &mut Tables, case: &Case) {
    list.heading(&format!("picks: {}, every max", case.name));
    let all = (0..13).chain([usize::MAX]).map(|max| (max, case.pick(list, max, [12, 12])));
    for (first, last, made) in runs(all) {
        let most = if first == last { most(first) } else { format!("{first} to {}", most(last)) };
        tables.row("pick", format!("{}, max {most}: {made}", case.name));
    }
}

/// Who the candidates of a list are.
pub fn name_row(tables: &mut Tables, name: &str, texts: &[&str]) {
    let places = texts.iter().enumerate().map(|(place, text)| format!(" {place} {text}")).collect::<Vec<String>>();
    tables.row("pick", format!("{name}:{}", places.join(",")));
}

fn picks(list: &mut List, tables: &mut Tables) {
    let (mixed, loopback) = (list_of(&MIXED), list_of(&LOOPBACK));
    let by_two = By::Map(TWO_PREFIX_ASMAP);
    let by_loops = By::Map(LOOPBACK_ASMAP);
    for (name, texts) in [("mixed", &MIXED[..]), ("loopback", &LOOPBACK)] {
        name_row(tables, name, texts);
    }
    for (name, candidates, occupied, by, map) in [
        ("mixed by the old numbering", &mixed[..], &[][..], By::OldPrefixes, NONE),
        ("mixed by the old numbering, 258 and 0 occupied", &mixed, &[258, 0], By::OldPrefixes, NONE),
        ("mixed by the new numbering", &mixed, &[], By::Prefixes, NONE),
        ("mixed by the new numbering, 4294967554 occupied", &mixed, &[4_294_967_554], By::Prefixes, NONE),
        ("mixed by TWO_PREFIX_ASMAP", &mixed, &[], by_two, TWO_PREFIX_ASMAP),
        ("mixed by TWO_PREFIX_ASMAP, 258 and 0 occupied", &mixed, &[258, 0], by_two, TWO_PREFIX_ASMAP),
        ("loopback by LOOPBACK_ASMAP", &loopback, &[], by_loops, LOOPBACK_ASMAP),
        ("loopback by LOOPBACK_ASMAP, 9 occupied", &loopback, &[9], by_loops, LOOPBACK_ASMAP),
        ("nobody by TWO_PREFIX_ASMAP, 258 and 0 occupied", &[], &[258, 0], by_two, TWO_PREFIX_ASMAP),
    ] {
        each_max(list, tables, &Case { name, list: candidates, occupied, by, map });
    }
    list.heading("picks by a map that is not checked");
    for (name, by, map) in [
        ("mixed by TWO_PREFIX_ASMAP unchecked", By::Unchecked(TWO_PREFIX_ASMAP), TWO_PREFIX_ASMAP),
        ("mixed by ASMAP_JUMP_OFF_END unchecked", By::Unchecked(NONE), NONE),
    ] {
        Case { name, list: &mixed, occupied: &[], by, map }.pick_row(list, tables, 4, [12, 12]);
    }
}

/// Each refusal with all that comes after it wrong too, where it can be: length, family, second byte, form, map, room.
fn refusals(list: &mut List, tables: &mut Tables) {
    list.heading("picks that are refused, each with all that is looked at later wrong too");
    let mixed = list_of(&MIXED);
    for (name, candidates, map) in [
        ("21 bytes, a map that is none, a place too few", &twenty_one()[..], NONE),
        ("another family, a map that is none, a place too few", &other_family(), NONE),
        ("a second byte of 1, a map that is none, a place too few", &second_byte(), NONE),
        ("family 4 without the mapped form, a map that is none, a place too few", &not_mapped(), NONE),
        ("a map that is none, a place too few", &mixed, NONE),
        ("a place too few", &mixed, TWO_PREFIX_ASMAP),
    ] {
        Case { name, list: candidates, occupied: &[], by: By::Map(map), map }.pick_row(list, tables, 3, [2, 3]);
    }
    list.heading("picks: the check's reasons");
    for (name, map) in [
        ("an empty map", &[][..]),
        ("ASMAP_SECOND_DEFAULT", asmap::ASMAP_SECOND_DEFAULT),
        ("ASMAP_EIGHT_TRAILING_ZEROS", asmap::ASMAP_EIGHT_TRAILING_ZEROS),
        ("ASMAP_JUMP_PAST_FILE", asmap::ASMAP_JUMP_PAST_FILE),
        ("ASMAP_MATCH_PAST_END", asmap::ASMAP_MATCH_PAST_END),
        ("ASMAP_TWO_SHORT_MATCHES", asmap::ASMAP_TWO_SHORT_MATCHES),
    ] {
        let name = &format!("mixed by {name}");
        Case { name, list: &mixed, occupied: &[], by: By::Map(map), map }.pick_row(list, tables, 3, [12, 12]);
    }
}

/// Outputs just long enough, and one place short of it. Without a map what stands in its place is not looked at.
fn rooms(list: &mut List, tables: &mut Tables) {
    list.heading("picks: outputs just long enough, and one place short");
    let mixed = list_of(&MIXED);
    for (max, room) in [(3, 3), (usize::MAX, 10)] {
        for (name, rooms) in [
            ("mixed by the old numbering, outputs just long enough", [room, room]),
            ("mixed by the old numbering, a place too few", [room - 1, room]),
            ("mixed by the old numbering, a group too few", [room, room - 1]),
        ] {
            Case { name, list: &mixed, occupied: &[], by: By::OldPrefixes, map: NONE }.pick_row(list, tables, max, rooms);
        }
    }
    let name = "mixed by the old numbering, outputs without a place";
    Case { name, list: &mixed, occupied: &[], by: By::OldPrefixes, map: NONE }.pick_row(list, tables, 0, [0, 0]);
}

/// Candidates of family 6 over zeros: the address of that at place i begins with i in two bytes.
fn numbered(n: u16) -> Vec<u8> {
    (0..n).flat_map(|i| [&[6, 0][..], &i.to_be_bytes(), &[0; 16]].concat()).collect()
}

/// As many candidates and occupied groups as there may be, and one more.
fn limits(list: &mut List) {
    let (most, more) = (numbered(4096), numbered(4097));
    let own: Vec<u64> = (0..4096).map(|i| i << 16).collect();
    let map = TWO_PREFIX_ASMAP;
    for (name, candidates, occupied, max, by, room) in [
        ("4,096 candidates by the old numbering", &most[..], &[][..], 4096, By::OldPrefixes, 4096),
        ("4,096 candidates by the old numbering, the largest max", &most, &[], usize::MAX, By::OldPrefixes, 4096),
        ("4,096 candidates by a map, the largest max", &most, &[], usize::MAX, By::Map(map), 4096),
        ("4,096 candidates, all of their groups occupied", &most, &own, 10, By::OldPrefixes, 4096),
        ("4,096 candidates, all of their groups occupied, max above them", &most, &own, 4097, By::OldPrefixes, 4096),
        ("4,097 candidates", &more, &[], 10, By::OldPrefixes, 0),
        ("4,097 occupied groups, no candidates, no room", &[0; 81920], &[0; 4097], 10, By::OldPrefixes, 0),
        ("no candidates, no room", &[0; 81920], &[], 10, By::OldPrefixes, 0),
        ("a length of no candidates, 4,097 occupied groups, no room", &[0; 81939], &[0; 4097], 10, By::OldPrefixes, 0),
    ] {
        Case { name, list: candidates, occupied, by, map }.pick_many(list, max, room);
    }
}

pub fn cases(list: &mut List, tables: &mut Tables) {
    groups(list, tables);
    picks(list, tables);
    refusals(list, tables);
    rooms(list, tables);
    limits(list);
}
