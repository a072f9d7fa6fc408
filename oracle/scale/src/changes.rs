//! Two maps compared for every address, and how many bytes that takes. What is written is compared with the listings of both, worked through
//! down the tree of addresses (`oracle::changes`), and then, as the library wrote it, with the walks of the original by both maps.
use crate::calls::{self, BEFORE, BEFORE_SIZE};
use crate::programs::{damaged, known, left, number, tree, Known};
use crate::tally::Tally;
use crate::Form;
use maps::rewrite::{renumbered, Program};
use maps::{shapes, Random};
use oracle::changes::{self, Change, NEW_MAP, RECORD};
use oracle::document::{Refusal, Verdict};
use oracle::listing::{self, Prefix};
use oracle::{bytes, records, CUT_IN_AN_OPCODE, EXAMPLES, MAPS};

/// A map with its listing, or the check's refusal.
pub struct Listed<'a> {
    known: &'a Known<'a>,
    prefixes: Result<Vec<Prefix>, Refusal>,
}

impl<'a> Listed<'a> {
    pub fn new(known: &'a Known<'a>) -> Listed<'a> {
        let prefixes = match known.verdict {
            Verdict::Refused(reason) => Err(reason),
            Verdict::Accepted { .. } => Ok(listing::list_accepted(known.map)),
        };
        Listed { known, prefixes }
    }
}

/// The bytes that a comparison needs and the first address, told into an output of `room` bytes.
pub fn told(made: &Result<Vec<Change>, Refusal>, room: usize) -> calls::Bytes {
    let mut out = vec![BEFORE; room];
    match made {
        Err(reason) => (number(*reason), BEFORE_SIZE, out),
        Ok(_) if room < 16 => (14, BEFORE_SIZE, out),
        Ok(changes) => {
            out[..16].copy_from_slice(&changes::first_of(changes));
            (0, RECORD * changes.len(), out)
        }
    }
}

/// Two maps with what differs between them, and how many prefixes both have.
pub struct Pair<'a> {
    maps: [&'a Known<'a>; 2],
    made: Result<Vec<Change>, Refusal>,
    prefixes: usize,
}

impl<'a> Pair<'a> {
    pub fn new(old: &Listed<'a>, new: &Listed<'a>) -> Pair<'a> {
        let (made, prefixes) = match (&old.prefixes, &new.prefixes) {
            (&Err(reason), _) => (Err(reason), 1),
            (_, &Err(reason)) => (Err(NEW_MAP + reason), 1),
            (Ok(old), Ok(new)) => (Ok(changes::compare_listings(old, new)), old.len() + new.len()),
        };
        made.iter().for_each(|changes| changes::assert_changes(changes));
        Pair { maps: [old.known, new.known], made, prefixes }
    }

    fn bytes(&self) -> [&'a [u8]; 2] {
        self.maps.map(|known| known.map)
    }

    /// How many bytes a comparison needs; of refused maps, one that could be needed.
    fn needed(&self) -> usize {
        self.made.as_ref().map_or(RECORD, |changes| RECORD * changes.len())
    }

    /// With so many bytes the library need not count first.
    fn for_all(&self) -> usize {
        RECORD * self.prefixes
    }

    /// The bytes needed, and records into an output that fits, one that is a byte short, and one with which nothing is counted first.
    /// Hands back what differs, as the library wrote it.
    pub fn compare(&self, tally: &mut Tally) -> Vec<Change> {
        self.bytes_told(tally, 16);
        let (made, needed) = (self.records(), self.needed());
        self.written(tally, &made, needed.saturating_sub(1));
        self.written(tally, &made, self.for_all());
        let fitting = calls::compare(self.bytes(), needed);
        let written = if fitting.0 == 0 { &fitting.2[..] } else { &[] };
        let changes = written.chunks(RECORD).map(Change::of_record).collect();
        tally.same("compare", &(self.bytes(), needed), fitting, left(&made, needed));
        changes
    }

    fn records(&self) -> Result<Vec<u8>, Refusal> {
        self.made.as_ref().map(|changes| changes::records(changes)).map_err(|&reason| reason)
    }

    fn written(&self, tally: &mut Tally, made: &Result<Vec<u8>, Refusal>, room: usize) {
        tally.same("compare", &(self.bytes(), room), calls::compare(self.bytes(), room), left(made, room));
    }

    fn bytes_told(&self, tally: &mut Tally, room: usize) {
        let answer = calls::compare_bytes(self.bytes(), room);
        tally.same("bytes of a comparison", &(self.bytes(), room), answer, told(&self.made, room));
    }

    /// Outputs that are none, that are longer, and that are a byte short of where nothing is counted first.
    fn other_rooms(&self, tally: &mut Tally) {
        let made = self.records();
        let all = self.for_all();
        [0, self.needed() + 5, all - 1, all + 3].into_iter().for_each(|room| self.written(tally, &made, room));
        [0, 15, 21].into_iter().for_each(|room| self.bytes_told(tally, room));
    }

    /// Outputs of every length around the one that is needed, and around the one with which nothing is counted first.
    fn every_room(&self, tally: &mut Tally) {
        let made = self.records();
        for bytes in [self.needed(), self.for_all()] {
            let around = bytes.saturating_sub(RECORD + 1)..=bytes + RECORD + 1;
            around.for_each(|room| self.written(tally, &made, room));
        }
        (0..40).for_each(|room| self.bytes_told(tally, room));
    }

    /// The original walks by both maps to the ends of each change and of what lies between them, or of one in so many, and to drawn
    /// addresses.
    pub fn walked(&self, tally: &mut Tally, random: &mut Random, changes: &[Change], step: usize) {
        let original = self.maps.map(|known| &known.original);
        let stretches = changes::stretches(changes);
        let ends = stretches.iter().step_by(step).flat_map(|&(first, last, told)| [(first, told), (last, told)]);
        let drawn = (0..8).map(|_| u128::from_be_bytes(random.address()));
        let drawn = drawn.map(|address| (address, changes::stretch_of(&stretches, address).and_then(|(.., told)| told)));
        for (address, told) in ends.chain(drawn) {
            tally.same("walks of two maps", &(self.bytes(), address), told, changes::walked(original, address));
        }
    }
}

/// Two maps in both orders.
pub fn both_orders(tally: &mut Tally, random: &mut Random, maps: [&[u8]; 2], same: bool, every: bool) {
    let [old, new] = maps.map(|map| known(tally, map));
    let [old, new] = [&old, &new].map(Listed::new);
    for pair in [Pair::new(&old, &new), Pair::new(&new, &old)] {
        assert!(!same || pair.made == Ok(vec![]), "maps that say the same in other words differ: {maps:02x?}");
        let changes = pair.compare(tally);
        pair.other_rooms(tally);
        if pair.made.is_ok() {
            pair.walked(tally, random, &changes, 1);
        }
        if every {
            pair.every_room(tally);
        }
    }
}

/// Another operand: a number, a bit of a MATCH, or the halves of a JUMP exchanged.
fn other_operand(random: &mut Random, program: &mut Program) {
    match program {
        Program::Return(number) | Program::Default(number, _) if random.percent(50) => *number = renumbered(*number),
        Program::Return(number) | Program::Default(number, _) => *number = 1 + random.below(3) as u32,
        Program::Match(operand, _) => *operand ^= 1 << random.below(u64::from(31 - operand.leading_zeros())),
        Program::Jump(halves) => halves.reverse(),
    }
}

/// A program in other words that say the same of every address of so many bits.
fn in_other_words(random: &mut Random, program: &Program, bits: u32) -> Program {
    match random.below(4) {
        0 => program.late(),
        1 => program.spelt(random),
        2 => program.halved(bits, random),
        _ => program.spelt(random).halved(bits, random).late(),
    }
}

/// A map made of another that is accepted over so many bits, as it is then, and whether it says the same by construction.
pub fn made_of(random: &mut Random, map: &[u8], bits: u32) -> (Vec<u8>, bool) {
    let mut program = records::program(map);
    let mut place = random.below(program.count() as u64) as usize;
    match random.below(8) {
        0 => return (map.to_vec(), true),
        1 | 2 => return (in_other_words(random, &program, bits).bytes(), true),
        3 => {
            let (node, left) = program.at(&mut place, bits).expect("an instruction of the program");
            *node = records::program(&shapes::random(random, 8, left));
        }
        4 => {
            let (node, _) = program.at(&mut place, bits).expect("an instruction of the program");
            other_operand(random, node);
            program = in_other_words(random, &program, bits);
        }
        _ => {
            let (node, _) = program.at(&mut place, bits).expect("an instruction of the program");
            other_operand(random, node);
        }
    }
    (program.bytes(), false)
}

/// Drawn maps beside others: unrelated, made of them, and damaged, which nearly all are refused.
fn drawn(tally: &mut Tally, random: &mut Random, every: bool) {
    let (map, other) = (tree(random), tree(random));
    both_orders(tally, random, [&map, &other], false, every);
    let (made, same) = made_of(random, &map, 128);
    both_orders(tally, random, [&map, &made], same, every);
    let [copies, others] = [&map, &other].map(|map| damaged(map, random));
    for _ in 0..3 {
        let [copy, wrong] = [&copies, &others].map(|copies| &copies[random.below(copies.len() as u64) as usize][..]);
        both_orders(tally, random, [&map, copy], false, false);
        both_orders(tally, random, [copy, wrong], false, false);
    }
}

/// Each of the original's test maps and of document 01's refused ones beside each, then drawn ones.
pub fn run(tally: &mut Tally, random: &mut Random, form: Form) {
    let refused = EXAMPLES.into_iter().chain([CUT_IN_AN_OPCODE]).map(bytes);
    let maps: Vec<Vec<u8>> = MAPS.iter().map(|(_, map)| map.to_vec()).chain(refused).collect();
    for old in &maps {
        for new in &maps {
            both_orders(tally, random, [old, new], false, true);
        }
    }
    for round in 0..form.choose(1_500, 20_000) {
        drawn(tally, random, round % 10 == 0);
    }
}
