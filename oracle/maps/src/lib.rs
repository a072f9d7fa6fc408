//! Maps built from trees, so that the check accepts them: shapes as real maps have them, the worst shapes, random ones, and
//! others rewritten; and lists of prefixes.
pub mod lists;
pub mod rewrite;
pub mod shapes;

/// A generator of random numbers (SplitMix64): the same seed gives the same inputs on every machine.
#[derive(Clone)]
pub struct Random(pub u64);

impl Random {
    pub fn next(&mut self) -> u64 {
        self.0 = self.0.wrapping_add(0x9e37_79b9_7f4a_7c15);
        let mut z = self.0;
        z = (z ^ (z >> 30)).wrapping_mul(0xbf58_476d_1ce4_e5b9);
        z = (z ^ (z >> 27)).wrapping_mul(0x94d0_49bb_1331_11eb);
        z ^ (z >> 31)
    }

    /// A number below `n`, which is not 0.
    pub fn below(&mut self, n: u64) -> u64 {
        self.next() % n
    }

    /// True `n` times in 100.
    pub fn percent(&mut self, n: u64) -> bool {
        self.below(100) < n
    }

    pub fn bytes(&mut self, n: usize) -> Vec<u8> {
        (0..n).map(|_| self.next() as u8).collect()
    }

    pub fn address(&mut self) -> [u8; 16] {
        let mut address = [0; 16];
        address[..8].copy_from_slice(&self.next().to_le_bytes());
        address[8..].copy_from_slice(&self.next().to_le_bytes());
        address
    }
}

pub const RETURN: u32 = 0;
pub const JUMP: u32 = 1;
pub const MATCH: u32 = 2;
pub const DEFAULT: u32 = 3;

/// The row of an opcode's operand: its least value, its first size and its last. Sizes grow by one.
fn row(opcode: u32) -> (u64, u32, u32) {
    match opcode {
        JUMP => (17, 5, 30),
        MATCH => (2, 1, 8),
        _ => (1, 15, 24),
    }
}

/// An operand in range as its code has it: how many ones, whether a zero follows them, the size, and the number in that size.
fn parts(opcode: u32, operand: u64) -> (u32, bool, u32, u64) {
    let (least, first, last) = row(opcode);
    let (mut rest, mut size) = (operand - least, first);
    while rest >= 1 << size {
        rest -= 1 << size;
        size += 1;
    }
    (size - first, size != last, size, rest)
}

/// Bits, the first lowest in each byte.
#[derive(Default)]
pub struct BitWriter {
    pub bytes: Vec<u8>,
    pub len: usize,
}

impl BitWriter {
    pub fn bit(&mut self, bit: bool) {
        if self.len % 8 == 0 {
            self.bytes.push(0);
        }
        if bit {
            *self.bytes.last_mut().expect("a byte was pushed") |= 1 << (self.len % 8);
        }
        self.len += 1;
    }

    /// An instruction whose operand is in range.
    pub fn instruction(&mut self, opcode: u32, operand: u64) {
        for &bit in [&[false][..], &[true, false], &[true, true, false], &[true, true, true]][opcode as usize] {
            self.bit(bit);
        }
        let (ones, stops, size, rest) = parts(opcode, operand);
        for _ in 0..ones {
            self.bit(true);
        }
        if stops {
            self.bit(false);
        }
        for k in (0..size).rev() {
            self.bit(rest >> k & 1 == 1);
        }
    }
}

/// The length in bits of an instruction.
pub fn size_of(opcode: u32, operand: u64) -> u64 {
    let (ones, stops, size, _) = parts(opcode, operand);
    [1, 2, 3, 3][opcode as usize] + u64::from(ones) + u64::from(stops) + u64::from(size)
}

/// A program as a tree. Children are places in the list of nodes.
#[derive(Clone, Copy)]
pub enum Node {
    Return(u32),
    /// Where the address bit is 0, and where it is 1.
    Jump(usize, usize),
    /// The operand, with its leading one.
    Match(u32, usize),
    Default(u32, usize),
}

/// A tree under construction, its children before their parent.
#[derive(Default)]
pub struct Tree {
    nodes: Vec<Node>,
    bits: Vec<u64>,
}

impl Tree {
    pub fn push(&mut self, node: Node) -> usize {
        let bits = match node {
            Node::Return(number) => size_of(RETURN, u64::from(number)),
            Node::Jump(zero, one) => size_of(JUMP, self.bits[zero]) + self.bits[zero] + self.bits[one],
            Node::Match(operand, then) => size_of(MATCH, u64::from(operand)) + self.bits[then],
            Node::Default(number, then) => size_of(DEFAULT, u64::from(number)) + self.bits[then],
        };
        self.nodes.push(node);
        self.bits.push(bits);
        self.nodes.len() - 1
    }

    /// The length in bits of what starts at a node.
    pub fn bits(&self, place: usize) -> u64 {
        self.bits[place]
    }

    /// The map's bytes, with zeros to the end of the last one.
    pub fn bytes(&self, root: usize) -> Vec<u8> {
        let mut out = BitWriter { bytes: Vec::with_capacity(self.bits[root] as usize / 8 + 1), len: 0 };
        let mut left = vec![root];
        while let Some(place) = left.pop() {
            match self.nodes[place] {
                Node::Return(number) => out.instruction(RETURN, u64::from(number)),
                Node::Jump(zero, one) => {
                    out.instruction(JUMP, self.bits[zero]);
                    left.extend([one, zero]);
                }
                Node::Match(operand, then) => {
                    out.instruction(MATCH, u64::from(operand));
                    left.push(then);
                }
                Node::Default(number, then) => {
                    out.instruction(DEFAULT, u64::from(number));
                    left.push(then);
                }
            }
        }
        out.bytes
    }
}
