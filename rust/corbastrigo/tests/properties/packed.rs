//! Unpack and pack: the order of their refusals, and what they leave.
use crate::calls::{self, BEFORE, BEFORE_SIZE};
use crate::holds;
use crate::order::any_maps;
use crate::programs::{programs, JUMP};
use corbastrigo::{sanity_check, Instruction, Refusal, MAX_MAP_BYTES, RECORD_BYTES};
use proptest::prelude::*;
use proptest::test_runner::TestCaseResult;

/// What a call left: where it was refused everything as it was, else everything behind what was written.
pub fn left_the_rest((answer, written, out): &(u8, usize, Vec<u8>)) -> TestCaseResult {
    let from = if *answer == 0 { *written } else { 0 };
    prop_assert!(out[from..].iter().all(|&byte| byte == BEFORE));
    prop_assert_eq!(*answer != 0, *written == BEFORE_SIZE);
    Ok(())
}

#[test]
fn unpack_asks_for_the_map_then_for_room() {
    holds(2_500, (any_maps(), 0..5usize), |(map, room)| {
        let check = sanity_check(&map);
        let needed = check.map_or(20, |check| check.count as usize * RECORD_BYTES);
        // From two bytes too few to two too many.
        let room = (needed + room).saturating_sub(2);
        let left = calls::unpack(&map, room);
        let expected = check.map_or_else(Refusal::number, |_| if room < needed { 14 } else { 0 });
        prop_assert_eq!(left.0, expected);
        left_the_rest(&left)
    });
}

/// A fault of a record, and the number that it is refused with.
#[derive(Clone, Copy, Debug)]
enum Fault {
    None,
    Opcode,
    Operand,
    Zero,
    Place,
    Size,
}

impl Fault {
    fn number(self) -> u8 {
        match self {
            Fault::None => 0,
            Fault::Opcode | Fault::Operand => 15,
            Fault::Zero | Fault::Place | Fault::Size => 16,
        }
    }

    fn put(self, record: &mut [u8]) {
        match self {
            Fault::None => {}
            Fault::Opcode => record[0] = 4,
            // Below every row but the opcode's.
            Fault::Operand => record[4..8].fill(0),
            Fault::Zero => record[2] = 1,
            // Past the end of every map, and longer than any instruction.
            Fault::Place => record[11] = 0xff,
            Fault::Size => record[15] = 0xff,
        }
    }
}

/// The number of the first record that has a fault: in a record, opcode and operand come before the rest.
fn of_records(mut faults: [(usize, Fault); 2]) -> u8 {
    faults.sort_by_key(|&(place, fault)| (fault.number() == 0, place, fault.number()));
    faults[0].1.number()
}

#[test]
fn pack_asks_for_the_length_for_each_record_and_for_room() {
    use Fault::{None, Opcode, Operand, Place, Size, Zero};
    let fault = || (any::<prop::sample::Index>(), prop::sample::select(vec![None, None, Opcode, Operand, Zero, Place, Size]));
    let ragged = prop_oneof![5 => Just(0), 1 => 1..RECORD_BYTES];
    holds(2_500, (programs(), [fault(), fault()], ragged, 0..5usize), |(program, faults, ragged, room)| {
        let mut records = program.records();
        let faults = faults.map(|(place, fault)| (place.index(records.len() / RECORD_BYTES), fault));
        for (place, fault) in faults {
            fault.put(&mut records[place * RECORD_BYTES..][..RECORD_BYTES]);
        }
        records.extend(vec![0; ragged]);
        let needed = program.map().len();
        let room = (needed + room).saturating_sub(2);
        let expected = match (ragged, of_records(faults)) {
            (0, 0) if room < needed => 14,
            (0, number) => number,
            _ => 16,
        };
        let left = calls::pack(&records, room);
        prop_assert_eq!(left.0, expected);
        left_the_rest(&left)
    });
}

/// The records of the longest instruction, JUMP by the most bits, so many times.
fn long_jumps(count: usize) -> Vec<u8> {
    let mut records = Instruction { opcode: JUMP, operand: 2_147_483_632, place: 0, size: 57 }.record().repeat(count);
    for (record, place) in records.chunks_exact_mut(RECORD_BYTES).zip((0u32..).step_by(57)) {
        record[8..12].copy_from_slice(&place.to_le_bytes());
    }
    records
}

#[test]
fn pack_asks_for_the_limit_after_each_record_and_before_room() {
    let most = MAX_MAP_BYTES * 8 / 57;
    let mut records = long_jumps(most + 1);
    let last = records.len() - RECORD_BYTES;
    assert_eq!(calls::pack(&records[..last], 0).0, 14);
    assert_eq!(calls::pack(&records, 0).0, 1);
    for (fault, number) in [(Fault::Place, 16), (Fault::Opcode, 15)] {
        fault.put(&mut records[last..]);
        assert_eq!(calls::pack(&records, 0).0, number);
    }
    let left = calls::pack(&records[..last], MAX_MAP_BYTES);
    assert_eq!((left.0, left.1), (0, (57 * most).div_ceil(8)));
}
