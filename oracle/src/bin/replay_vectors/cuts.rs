//! Maps whose end cuts an opcode or an operand (document 02, CR 5): codes and instructions from the map's end on and with too few bits left,
//! checks and walks of such maps at both widths, jumps that land around the end, every call that hands the reason on, and maps that lost
//! their last bytes.
use crate::codes::placed;
use crate::list::{List, Paging, Picking, BIT};
use crate::peers::{list_of, MIXED};
use crate::programs::{bits, verdict, walked};
use crate::tables::Tables;
use oracle::asmap::{ip16_for_lookup, pack_le, LONE_RETURN_ASMAP, TWO_PREFIX_ASMAP};
use oracle::changes::NEW_MAP;
use oracle::codes::{operand_row, ROWS};
use oracle::document::{Refusal, CUT_OPCODE, CUT_OPERAND};
use oracle::page::LINE;
use oracle::picks::By;
use oracle::{bytes, instruction, CUT_IN_AN_OPCODE};
use std::collections::BTreeSet;

/// Maps as text, each with what it shows. They end at the end of a byte.
const TEXTS: [(&str, &str); 22] = [
    ("a one is left of an opcode", "M4 b1"),
    ("a RETURN with no bit of its number", "M4 b0"),
    ("two ones are left of an opcode, in a jump", "J241 b1 b1"),
    ("a JUMP with no bit of its operand, in a jump", "J241 b1 b0"),
    ("two ones are left of an opcode, in a jump in a jump", "J400 J17 b1 b1"),
    ("a RETURN cut in a jump in a jump", "J42 J17 b0 x7 b0"),
    ("two ones are left of an opcode, behind a jump", "J22 M2 R1 b1 b1"),
    ("a RETURN cut behind a jump", "J17 R1 b0 x6 b0"),
    ("a one is left of an opcode, behind a DEFAULT", "D98305 b1"),
    ("a DEFAULT with no bit of its number", "M2 b1 b1 b1"),
    ("a MATCH with no bit of its operand, short after short or not", "M2 b1 b1 b0"),
    ("a RETURN that lacks one bit", "b0 x15 b0"),
    ("a JUMP that lacks one bit", "J17 R1 b1 b0 x5 b0"),
    ("a MATCH that lacks one bit", "M2 D98305 b1 b1 b0 b0"),
    ("a DEFAULT that lacks one bit", "J241 b1 b1 b1 x15 b0"),
    ("no address bit left, a one is left of an opcode", "x15 M256 M128 D1 M2 b1"),
    ("no address bit left, a MATCH cut", "x16 M256 b1 b1 b0 x5 b1"),
    ("DEFAULT, a RETURN cut", "D1 b0 x4 b0"),
    ("DEFAULT, a DEFAULT cut", "D1 b1 b1 b1 b0 b0"),
    ("past the target, a RETURN cut", "J17 D98305 b0"),
    ("past the target, a one is left of an opcode", "J17 D98305 b1"),
    ("whole instructions up to the end", "M2 D1"),
];

/// The same at 32, as deep as addresses are there.
const NARROW: [(&str, &str); 6] = [
    ("a one is left of an opcode", "M4 b1"),
    ("a RETURN with no bit of its number", "M4 b0"),
    ("no address bit left, a one is left of an opcode", "x3 M256 M128 D1 M2 b1"),
    ("no address bit left, a MATCH cut", "x4 M256 b1 b1 b0 x5 b1"),
    ("DEFAULT, a RETURN cut", "D1 b0 x4 b0"),
    ("whole instructions up to the end", "M2 D1"),
];

/// Jumps by where they land.
const LANDINGS: [(&str, &str); 11] = [
    ("at the end", "J24 R1 x7 b1"),
    ("a bit past the end", "J25 R1 x7 b1"),
    ("far past the end", "J2147483632 R1 x6 b1"),
    ("before the last bit, a one", "J23 R1 x7 b1"),
    ("before the last bit, a zero: RETURN", "J23 R1 x6 b1 b0"),
    ("before the last two bits, 11", "J22 R1 x7 b1"),
    ("before the last two bits, 10: JUMP", "J22 R1 x6 b1 b0"),
    ("before the last two bits, 01: RETURN and a bit", "J22 R1 x5 b1 b0 b1"),
    ("before the last three bits, 111: DEFAULT", "J21 R1 x7 b1"),
    ("before the last three bits, 110: MATCH", "J21 R1 x6 b1 b0"),
    ("before a whole MATCH, which ends with the map", "J19 R1 x2 b1 M2"),
];

/// Over 32 bits, as a node without IPv6 keeps it.
const NARROW_MAP: &str = "M64 J17 R1 R2";

/// The map of a text, which fills its bytes.
fn filled(text: &str) -> Vec<u8> {
    let bits = bits(text);
    assert_eq!(bits.len() % 8, 0, "{text} does not end with a byte");
    pack_le(&bits)
}

/// The end, a bit past it, some bytes past it, and as far as can be asked for.
fn from_the_end(map: &[u8]) -> [usize; 4] {
    let end = 8 * map.len();
    [end, end + 1, end + 64, usize::MAX]
}

/// Some map.
const ANY: &[u8] = &[0, 0xff];

fn from_the_end_on(list: &mut List) {
    list.heading("each row, an instruction, and what the bit reader reads, at a map's end and past it");
    for at in from_the_end(ANY) {
        for row in &ROWS {
            assert_eq!(list.read_code(row, ANY, at), None);
        }
        assert_eq!(list.read_instruction(ANY, at), Err(CUT_OPCODE));
    }
    for at in [16, usize::MAX] {
        for item in [BIT, 0, 1, 2, 3] {
            assert_eq!(list.read_item(item, ANY, at), None);
        }
    }
}

/// An instruction of which the map has so many bits, and no more.
fn kept(list: &mut List, bits: &[bool], kept: usize) -> Result<(u32, u32, usize), Refusal> {
    let at = (8 - kept % 8) % 8;
    list.read_instruction(&placed(&bits[..kept], at), at)
}

/// The least and the greatest operand of each opcode, cut behind the opcode, one bit on, halfway, and one bit short.
fn instructions(list: &mut List) {
    list.heading("instructions of which the map's end cuts the opcode, then the operand");
    for ones in [1, 2] {
        assert_eq!(kept(list, &[true; 2], ones), Err(CUT_OPCODE));
    }
    for opcode in 0..4 {
        let row = operand_row(opcode);
        for operand in [row.least, row.end() - 1] {
            let (bits, start) = (instruction(opcode, operand), ROWS[0].write(opcode).len());
            let places = BTreeSet::from([start, start + 1, (start + bits.len()) / 2, bits.len() - 1]);
            for place in places {
                assert_eq!(kept(list, &bits, place), Err(CUT_OPERAND), "{opcode} {operand}, {place} bits");
            }
        }
    }
}

/// Check and walk, side by side.
fn shown(list: &mut List, tables: &mut Tables, name: &str, map: &[u8], address: &[u8]) {
    let said = [verdict(list.check(map)), walked(list.walk(map, address))];
    tables.row("cuts", format!("{name}: {}; {}", said[0], said[1]));
}

fn checks(list: &mut List, tables: &mut Tables) {
    list.heading("checks and walks of maps that end within an instruction");
    for (name, text) in TEXTS {
        shown(list, tables, &format!("{name} ({text})"), &filled(text), &[0; 16]);
    }
    list.heading("checks and walks of such maps at 32");
    for (name, text) in NARROW {
        list.at(32, |list| shown(list, tables, &format!("at 32, {name} ({text})"), &filled(text), &[0; 4]));
    }
}

/// The first address bit takes the jump; those behind it are zeros.
fn landings(list: &mut List, tables: &mut Tables) {
    list.heading("jumps that land around the map's end, at both widths");
    let mut address = [0; 16];
    address[0] = 0x80;
    for (name, text) in LANDINGS {
        let map = filled(text);
        let wide = walked(list.walk(&map, &address));
        let narrow = list.at(32, |list| walked(list.walk(&map, &address[..4])));
        assert_eq!(wide, narrow, "{text}");
        tables.row("cuts", format!("a jump that lands {name} ({text}): {wide}"));
    }
}

/// One for each cut, with the reason for it: a MATCH of two zeros, and a bit, which is a one or a RETURN.
fn both_cuts() -> [(Vec<u8>, Refusal); 2] {
    [(bytes(CUT_IN_AN_OPCODE), CUT_OPCODE), (filled("M4 b0"), CUT_OPERAND)]
}

/// With no room, which would be 14 if the map were sane.
fn written(list: &mut List, map: &[u8], reason: Refusal) {
    list.unpack(map, 0);
    assert_eq!(list.list(map, |_| vec![0]), Err(reason));
}

/// By the map checked, with no room, and by the map as it is, whose walks are cut: the group is 0.
fn calls(list: &mut List) {
    list.heading("calls that hand the reason on: unpack and list at both widths, group, pick and page");
    let candidates = list_of(&MIXED[..2]);
    for (map, reason) in &both_cuts() {
        let (map, reason) = (&map[..], *reason);
        written(list, map, reason);
        list.at(32, |list| written(list, map, reason));
        list.group(By::Map(map), &candidates[..20], map);
        list.group_unchecked(By::Unchecked(map), &candidates[..20], map);
        let picking = Picking { list: &candidates, occupied: &[], max: 2, by: By::Map(map), map, rooms: [0, 0] };
        assert_eq!(list.pick(&picking).err(), Some(reason));
        let picked = list.pick_unchecked(&Picking { by: By::Unchecked(map), rooms: [2, 2], ..picking });
        assert_eq!(picked.map(|pick| pick.groups), Ok(vec![0]));
        let paging = Paging { list: &candidates, by: By::Map(map), map, room: 0 };
        assert_eq!(list.page(&paging), Err(reason));
        let paged = list.page_unchecked(&Paging { by: By::Unchecked(map), room: LINE, ..paging });
        assert_eq!(paged.map(|page| page.len()), Ok(LINE));
    }
}

/// Each cut in the old map, in the new one, where its number is 100 more, and both with each other.
fn comparisons(list: &mut List) {
    list.heading("cut maps compared with one that is sane, and with each other, at both widths");
    let [(opcode, _), (operand, _)] = &both_cuts();
    let sane = LONE_RETURN_ASMAP;
    for (maps, reason) in [
        ([opcode, sane], CUT_OPCODE),
        ([operand, sane], CUT_OPERAND),
        ([sane, opcode], NEW_MAP + CUT_OPCODE),
        ([sane, operand], NEW_MAP + CUT_OPERAND),
        ([opcode, operand], CUT_OPCODE),
        ([operand, opcode], CUT_OPERAND),
    ] {
        assert_eq!(list.compare(maps, |_| vec![0]), Err(reason));
        assert_eq!(list.at(32, |list| list.compare(maps, |_| vec![0])), Err(reason));
    }
}

/// The last bytes lost one by one: the check reads up to the cut, and a walk up to there or to where a jump leads.
fn lost(list: &mut List, tables: &mut Tables) {
    list.heading("TWO_PREFIX_ASMAP without its last bytes");
    let address = ip16_for_lookup("3.4.0.0".parse().expect("an address"));
    for kept in (TWO_PREFIX_ASMAP.len() - 12..=TWO_PREFIX_ASMAP.len()).rev() {
        let name = format!("{kept} bytes of TWO_PREFIX_ASMAP, walked by 3.4.0.0");
        shown(list, tables, &name, &TWO_PREFIX_ASMAP[..kept], &address);
    }
    list.heading("a map for 32 bits without its last bytes");
    let map = pack_le(&bits(NARROW_MAP));
    for kept in (0..=map.len()).rev() {
        let name = format!("at 32, {kept} bytes of {NARROW_MAP}, walked by 3.4.0.0");
        list.at(32, |list| shown(list, tables, &name, &map[..kept], &[3, 4, 0, 0]));
    }
}

pub fn cases(list: &mut List, tables: &mut Tables) {
    from_the_end_on(list);
    instructions(list);
    checks(list, tables);
    landings(list, tables);
    calls(list);
    comparisons(list);
    lost(list, tables);
}
