//! Two maps compared, by hand on a few, and on many by another way than `changes` has: each address at which a prefix of either listing
//! begins is looked up in both, and the longer of the two prefixes that hold it is the piece.
use maps::rewrite::Program::{self, Default, Jump, Match, Return};
use maps::{shapes, Random};
use oracle::changes::{compare, hold, Change};
use oracle::listing::{assert_tiling, list, prefix_of, Prefix};
use oracle::{bytes, records, CUT_IN_AN_OPCODE};

fn jump(zero: Program, one: Program) -> Program {
    Jump(Box::new([zero, one]))
}

fn compared(old: &Program, new: &Program) -> Vec<Change> {
    compare(&old.bytes(), &new.bytes()).expect("accepted maps")
}

fn change(top: u128, length: u32, old: u32, new: u32) -> Change {
    Change { first: top << 124, length, old, new }
}

#[test]
fn the_smaller_of_two_prefixes_is_the_piece() {
    let halves = jump(Return(1), Return(2));
    let nested = Match(0b11010, Box::new(Return(1)));
    let pieces = [(0x0, 1, 0, 1), (0x8, 3, 0, 2), (0xa, 4, 1, 2), (0xb, 4, 0, 2), (0xc, 2, 0, 2)];
    let changes = |swapped: bool| {
        pieces.map(|(top, length, a, b)| if swapped { change(top, length, b, a) } else { change(top, length, a, b) })
    };
    assert_eq!(compared(&nested, &halves), changes(false));
    assert_eq!(compared(&halves, &nested), changes(true));
}

#[test]
fn pieces_of_the_same_numbers_are_not_joined() {
    let halves = jump(Return(1), Return(1));
    assert_eq!(compared(&halves, &Return(2)), [change(0, 1, 1, 2), change(8, 1, 1, 2)]);
    assert_eq!(compared(&Return(1), &Return(2)), [change(0, 0, 1, 2)]);
    assert_eq!(compared(&halves, &Return(1)), []);
}

#[test]
fn defaults_count_by_what_they_do() {
    let before = Default(7, Box::new(jump(Match(2, Box::new(Return(1))), Return(2))));
    let inside = jump(Default(7, Box::new(Match(2, Box::new(Return(1))))), Return(2));
    let other = jump(Default(8, Box::new(Match(2, Box::new(Return(1))))), Return(2));
    assert_eq!(compared(&before, &inside), []);
    assert_eq!(compared(&before, &other), [change(4, 2, 7, 8)]);
}

#[test]
fn the_old_map_is_refused_before_the_new_one() {
    let answer = |old: &str, new: &str| compare(&bytes(old), &bytes(new));
    assert_eq!(answer("01 01", "fb"), Err(9));
    assert_eq!(answer("00 00 00", "fb"), Err(119));
    assert_eq!(answer("00 00 00", CUT_IN_AN_OPCODE), Err(104));
    assert_eq!(answer("fb", CUT_IN_AN_OPCODE), Err(19));
    assert_eq!(answer(CUT_IN_AN_OPCODE, "fb"), Err(4));
    assert_eq!(answer("01 01", "00 00 00"), Err(9));
    assert_eq!(answer("00 00 00", "00 00 00"), Ok(vec![]));
}

/// What two listings say wherever one of them has another prefix, the same numbers too.
fn pieces(old: &[Prefix], new: &[Prefix]) -> Vec<Change> {
    let mut firsts: Vec<u128> = old.iter().chain(new).map(|prefix| prefix.first).collect();
    firsts.sort_unstable();
    firsts.dedup();
    let piece = |first: u128| {
        let [old, new] = [old, new].map(|prefixes| prefix_of(prefixes, first).expect("every address lies in one"));
        Change { first, length: old.length.max(new.length), old: old.number, new: new.number }
    };
    firsts.into_iter().map(piece).collect()
}

/// Two drawn maps: unrelated, or the second made of the first, by another part or in other words.
fn drawn(random: &mut Random) -> [Vec<u8>; 2] {
    let left = 1 + random.below(128) as u32;
    let [old, other] = [shapes::random(random, 30, left), shapes::random(random, 30, left)];
    let mut program = records::program(&old);
    if random.percent(30) {
        return [old, other];
    }
    if random.percent(30) {
        return [old, program.late().spelt(random).halved(128, random).bytes()];
    }
    let mut number = random.below(program.count() as u64) as usize;
    *program.at(&mut number, 128).expect("an instruction of the program").0 = Return(1 + random.below(3) as u32);
    [old, program.bytes()]
}

#[test]
fn drawn_maps_by_another_way_and_by_the_walk() {
    let random = &mut Random(20_261_116);
    let mut accepted = 0;
    for _ in 0..2_000 {
        let [old, new] = drawn(random);
        let (Ok(olds), Ok(news)) = (list(&old), list(&new)) else { continue };
        let all = pieces(&olds, &news);
        assert_tiling(
            &all.iter().map(|piece| Prefix { first: piece.first, length: piece.length, number: 0 }).collect::<Vec<Prefix>>(),
        );
        let differing: Vec<Change> = all.into_iter().filter(|piece| piece.old != piece.new).collect();
        let changes = compare(&old, &new).expect("both are accepted");
        assert_eq!(changes, differing, "{old:02x?} and {new:02x?}");
        hold([&old, &new], &changes, random);
        accepted += 1;
    }
    assert!(accepted > 1_800, "only {accepted} pairs of accepted maps");
}

#[test]
fn other_words_change_no_answer() {
    let random = &mut Random(20_261_117);
    let mut others = 0;
    for _ in 0..500 {
        let map = shapes::random(random, 30, 128);
        let program = records::program(&map);
        assert_eq!(program.bytes(), map);
        for rewritten in [program.late(), program.spelt(random), program.halved(128, random)].map(|program| program.bytes()) {
            assert_eq!(compare(&map, &rewritten), Ok(vec![]), "{map:02x?} and {rewritten:02x?}");
            others += usize::from(rewritten != map);
        }
    }
    assert!(others > 800, "only {others} maps were rewritten");
}
