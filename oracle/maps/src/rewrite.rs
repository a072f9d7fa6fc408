//! Programs as trees that are read from a map's instructions, rewritten, and written as a map again: in other words for the same answers,
//! or with a part in the place of another.
use crate::{Node, Random, Tree, DEFAULT, JUMP, MATCH};

#[derive(Clone)]
pub enum Program {
    Return(u32),
    /// Where the address bit is 0, and where it is 1.
    Jump(Box<[Program; 2]>),
    /// The operand, with its leading one.
    Match(u32, Box<Program>),
    Default(u32, Box<Program>),
}

use Program::{Default, Jump, Match, Return};

fn jump(zero: Program, one: Program) -> Program {
    Jump(Box::new([zero, one]))
}

/// How many address bits a MATCH asks for.
fn length(operand: u32) -> u32 {
    31 - operand.leading_zeros()
}

/// Another number whose code has as many bits, so that it can stand in the other's place and no JUMP changes.
pub fn renumbered(number: u32) -> u32 {
    ((number - 1) ^ 1) + 1
}

/// What the path to an instruction has set: the default that holds there, the one that the rewritten program has set so far, and whether a
/// MATCH of fewer than 8 bits stands just before, which no other such MATCH may follow.
#[derive(Clone, Copy)]
struct Path {
    holds: u32,
    set: u32,
    short: bool,
}

impl Program {
    /// From an accepted map's instructions, opcode and operand, in the order in which they stand.
    pub fn read(instructions: &mut impl Iterator<Item = (u32, u32)>) -> Program {
        let (opcode, operand) = instructions.next().expect("an accepted map's instructions");
        match opcode {
            JUMP => {
                let zero = Program::read(instructions);
                jump(zero, Program::read(instructions))
            }
            MATCH => Match(operand, Box::new(Program::read(instructions))),
            DEFAULT => Default(operand, Box::new(Program::read(instructions))),
            _ => Return(operand),
        }
    }

    fn planted(&self, tree: &mut Tree) -> usize {
        let node = match self {
            Return(number) => Node::Return(*number),
            Jump(halves) => Node::Jump(halves[0].planted(tree), halves[1].planted(tree)),
            Match(operand, then) => Node::Match(*operand, then.planted(tree)),
            Default(number, then) => Node::Default(*number, then.planted(tree)),
        };
        tree.push(node)
    }

    /// The map's bytes.
    pub fn bytes(&self) -> Vec<u8> {
        let mut tree = Tree::default();
        let root = self.planted(&mut tree);
        tree.bytes(root)
    }

    /// How many instructions it has.
    pub fn count(&self) -> usize {
        1 + match self {
            Return(_) => 0,
            Jump(halves) => halves.iter().map(Program::count).sum(),
            Match(_, then) | Default(_, then) => then.count(),
        }
    }

    /// The instruction of a number, from 0 in the order in which they stand, and the address bits that are left for it. The number is
    /// counted down on the way.
    pub fn at(&mut self, number: &mut usize, left: u32) -> Option<(&mut Program, u32)> {
        if *number == 0 {
            return Some((self, left));
        }
        *number -= 1;
        match self {
            Return(_) => None,
            Jump(halves) => halves.iter_mut().find_map(|half| half.at(number, left - 1)),
            Match(operand, then) => then.at(number, left - length(*operand)),
            Default(_, then) => then.at(number, left),
        }
    }

    /// The same answers, each default set as late as can be: just before a MATCH, where it is not set already.
    pub fn late(&self) -> Program {
        self.late_from(Path { holds: 0, set: 0, short: false })
    }

    fn late_from(&self, path: Path) -> Program {
        match self {
            Return(number) => Return(*number),
            Jump(halves) => {
                let path = Path { short: false, ..path };
                jump(halves[0].late_from(path), halves[1].late_from(path))
            }
            Default(number, then) => then.late_from(Path { holds: *number, ..path }),
            Match(operand, then) => {
                let short = length(*operand) < 8;
                let then = Match(*operand, Box::new(then.late_from(Path { set: path.holds, short, ..path })));
                match path.holds != path.set || short && path.short {
                    true => Default(path.holds, Box::new(then)),
                    false => then,
                }
            }
        }
    }

    /// The same answers, some MATCHes written as JUMPs, one for each bit, with a RETURN of the default where it differs. There has to be a
    /// default: no RETURN has the number 0.
    pub fn spelt(&self, random: &mut Random) -> Program {
        self.spelt_from(0, random)
    }

    fn spelt_from(&self, default: u32, random: &mut Random) -> Program {
        match self {
            Return(number) => Return(*number),
            Jump(halves) => jump(halves[0].spelt_from(default, random), halves[1].spelt_from(default, random)),
            Default(number, then) => Default(*number, Box::new(then.spelt_from(*number, random))),
            Match(operand, then) => {
                let then = then.spelt_from(default, random);
                if default == 0 || random.percent(50) {
                    return Match(*operand, Box::new(then));
                }
                (0..length(*operand)).fold(then, |then, k| match operand >> k & 1 {
                    0 => jump(then, Return(default)),
                    _ => jump(Return(default), then),
                })
            }
        }
    }

    /// The same answers, some RETURNs halved by a JUMP, where an address bit is left.
    pub fn halved(&self, left: u32, random: &mut Random) -> Program {
        match self {
            Return(number) if left > 0 && random.percent(30) => jump(Return(*number), Return(*number)),
            Return(number) => Return(*number),
            Jump(halves) => jump(halves[0].halved(left - 1, random), halves[1].halved(left - 1, random)),
            Match(operand, then) => Match(*operand, Box::new(then.halved(left - length(*operand), random))),
            Default(number, then) => Default(*number, Box::new(then.halved(left, random))),
        }
    }
}
