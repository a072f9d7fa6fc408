//! Codes at every boundary of every size of the four rows, whole at each place in a byte and cut at each of their bits; the instructions
//! of the original's test maps; and the bit reader.
use crate::list::{List, BIT};
use crate::tables::Tables;
use oracle::asmap::{pack_le, ASMAP_JUMP_OFF_END, ASMAP_JUMP_PAST_FILE, ASMAP_TRAILING_ONE, LOOPBACK_ASMAP, TWO_PREFIX_ASMAP};
use oracle::codes::{operand_row, Row, ROWS};
use oracle::MAPS;

const OPCODES: [&str; 4] = ["RETURN", "JUMP", "MATCH", "DEFAULT"];

/// The bits from bit `at` of the first byte on, ones around them, in as many bytes as they reach into.
pub fn placed(bits: &[bool], at: usize) -> Vec<u8> {
    let end = (at + bits.len()).next_multiple_of(8);
    pack_le(&[&vec![true; at], bits, &vec![true; end - at - bits.len()]].concat())
}

/// Written, read at eight places, and cut at every bit by the end of the map.
fn value(list: &mut List, tables: &mut Tables, row: &Row, value: u32) {
    let name = row.name;
    let Some(bits) = list.write_code(row, value) else {
        tables.row("codes", format!("{name} {value}: refused 15"));
        return;
    };
    let digits: String = bits.iter().map(|&bit| if bit { '1' } else { '0' }).collect();
    tables.row("codes", format!("{name} {value}: {} bits {digits}", bits.len()));
    for at in 0..8 {
        assert_eq!(list.read_code(row, &placed(&bits, at), at), Some((value, at + bits.len())));
    }
    for kept in 0..bits.len() {
        let at = (8 - kept % 8) % 8;
        assert_eq!(list.read_code(row, &placed(&bits[..kept], at), at), None);
    }
}

/// The first and the last value of each size, the values around the range, and the largest number.
fn row_boundaries(list: &mut List, tables: &mut Tables, row: &Row) {
    list.heading(&format!("the row of {}: the edges of its sizes, each written, read at 8 places and cut at each bit", row.name));
    let edges = row.edges().into_iter().flat_map(|[first, last]| if first == last { vec![first] } else { vec![first, last] });
    let values = row.least.checked_sub(1).into_iter().chain(edges).chain([row.end(), u32::MAX]);
    values.for_each(|x| value(list, tables, row, x));
}

/// The instructions of a map, one behind the other from bit 0, up to the first that is cut; each is written too.
fn instructions(list: &mut List, tables: &mut Tables, name: &str, map: &[u8]) {
    list.heading(&format!("the instructions of {name}"));
    tables.row("instructions", name.into());
    let mut at = 0;
    let reason = loop {
        match list.read_instruction(map, at) {
            Err(reason) => break reason,
            Ok((opcode, operand, next)) => {
                list.write_instruction(opcode, operand);
                tables.row("instructions", format!("  {at}: {} {operand}, {} bits", OPCODES[opcode as usize], next - at));
                at = next;
            }
        }
    };
    tables.row("instructions", format!("  {at}: refused {reason}"));
}

/// What no instruction is: each operand out of its opcode's range, and opcodes that there are not.
fn no_instructions(list: &mut List) {
    list.heading("opcodes and operands out of range");
    for opcode in 0..4 {
        let row = operand_row(opcode);
        for operand in [row.least - 1, row.end(), u32::MAX] {
            list.write_instruction(opcode, operand);
        }
    }
    for opcode in [4, u32::MAX] {
        list.write_instruction(opcode, 17);
    }
}

fn read_bits(list: &mut List, name: &str, map: &[u8]) {
    list.heading(&format!("the bit reader: {name} bit by bit"));
    let mut at = 0;
    while let Some((_, next)) = list.read_item(BIT, map, at) {
        at = next;
    }
}

/// At every bit, at the end, and behind it.
fn read_items(list: &mut List, name: &str, map: &[u8]) {
    list.heading(&format!("the bit reader: each item at each bit of {name}"));
    for at in 0..8 * map.len() + 2 {
        for item in [BIT, 0, 1, 2, 3] {
            list.read_item(item, map, at);
        }
    }
}

fn read_instructions(list: &mut List, name: &str, map: &[u8]) {
    list.heading(&format!("the bit reader: opcodes and operands of {name}"));
    let mut at = 0;
    while let Some((opcode, middle)) = list.read_item(0, map, at) {
        let Some((_, next)) = list.read_item(operand_row(opcode).number, map, middle) else { return };
        at = next;
    }
}

pub fn cases(list: &mut List, tables: &mut Tables) {
    ROWS.iter().for_each(|row| row_boundaries(list, tables, row));
    for (name, map) in MAPS {
        instructions(list, tables, name, map);
    }
    no_instructions(list);
    read_bits(list, "ASMAP_JUMP_OFF_END", ASMAP_JUMP_OFF_END);
    read_bits(list, "ASMAP_TRAILING_ONE", ASMAP_TRAILING_ONE);
    read_items(list, "ASMAP_JUMP_PAST_FILE", ASMAP_JUMP_PAST_FILE);
    read_instructions(list, "TWO_PREFIX_ASMAP", TWO_PREFIX_ASMAP);
    read_instructions(list, "LOOPBACK_ASMAP", LOOPBACK_ASMAP);
}
