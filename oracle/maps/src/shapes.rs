//! Shapes of maps.
use crate::{size_of, Node, Random, Tree, JUMP, RETURN};

/// An AS number as they are given out: most below 65,536, some up to 400,000, now and then any of the row.
fn number(random: &mut Random) -> u32 {
    1 + match random.below(100) {
        0..=59 => random.below(65_535),
        60..=97 => random.below(400_000),
        _ => random.below(33_521_664),
    } as u32
}

/// A MATCH of `length` random bits.
fn operand(random: &mut Random, length: u32) -> u32 {
    (1 << length) | random.below(1 << length) as u32
}

/// What may stand next.
#[derive(Clone, Copy, PartialEq)]
enum Before {
    Short,
    Default,
    Other,
}

/// A tree of about `leaves` RETURNs over at most `left` address bits: mostly jumps, with MATCH runs and defaults between.
fn grow(tree: &mut Tree, random: &mut Random, leaves: u64, left: u32, before: Before) -> usize {
    if before != Before::Default && (leaves <= 1 || left == 0) {
        return tree.push(Node::Return(number(random)));
    }
    let choice = random.below(100);
    if before != Before::Default && choice < 8 && left > 1 {
        let then = grow(tree, random, leaves, left, Before::Default);
        return tree.push(Node::Default(number(random), then));
    }
    // A tree of n leaves needs log n bits: a MATCH may not take those.
    let needed = 64 - leaves.leading_zeros();
    if choice < 30 && before != Before::Short && left > needed + 8 {
        let length = 1 + random.below(8) as u32;
        let after = if length < 8 { Before::Short } else { Before::Other };
        let then = grow(tree, random, leaves, left - length, after);
        return tree.push(Node::Match(operand(random, length), then));
    }
    if leaves <= 1 {
        let then = tree.push(Node::Return(number(random)));
        return tree.push(Node::Match(operand(random, 1), then));
    }
    let part = leaves * (20 + random.below(61)) / 100;
    let zero = grow(tree, random, part.max(1), left - 1, Before::Other);
    let one = grow(tree, random, (leaves - part).max(1), left - 1, Before::Other);
    tree.push(Node::Jump(zero, one))
}

/// MATCHes of whole bytes in front of a tree.
fn behind(tree: &mut Tree, bytes: &[u8], root: usize) -> usize {
    bytes.iter().rev().fold(root, |then, &byte| tree.push(Node::Match(256 | u32::from(byte), then)))
}

/// By trial a leaf takes about 5.5 bytes with the instructions above it.
fn leaves_of(bytes: usize) -> u64 {
    (bytes as u64 * 2 / 11).max(4)
}

/// The shape of real maps: a deep IPv4 tree under ::ffff:0:0/96 and a smaller tree of 2000::/3, of about `bytes` bytes.
pub fn real(random: &mut Random, bytes: usize) -> Vec<u8> {
    let mut tree = Tree::default();
    let leaves = leaves_of(bytes);
    let ipv4 = grow(&mut tree, random, leaves * 4 / 5, 32, Before::Other);
    let ipv6 = grow(&mut tree, random, leaves / 5, 61, Before::Other);
    let root = families(&mut tree, ipv4, ipv6);
    tree.bytes(root)
}

/// The IPv4 tree of such a map by itself, without the mapped bits: over 32 address bits, of about `bytes` bytes.
pub fn ipv4(random: &mut Random, bytes: usize) -> Vec<u8> {
    let mut tree = Tree::default();
    let root = grow(&mut tree, random, leaves_of(bytes), 32, Before::Other);
    tree.bytes(root)
}

/// A tree of jumps down to `leaves` RETURNs, the larger part on either side.
fn split(tree: &mut Tree, random: &mut Random, leaves: u64) -> usize {
    if leaves <= 1 {
        return tree.push(Node::Return(number(random)));
    }
    let part = (leaves * (40 + random.below(21)) / 100).max(1);
    let zero = split(tree, random, part);
    let one = split(tree, random, leaves - part);
    tree.push(Node::Jump(zero, one))
}

/// ::ffff:0:0/96 in front of an IPv4 tree, 2000::/3 in front of an IPv6 tree, which stands behind the other.
fn families(tree: &mut Tree, ipv4: usize, ipv6: usize) -> usize {
    let mapped = behind(tree, &[0, 0, 0, 0, 0, 0, 0, 0, 0xff, 0xff], ipv4);
    // The first bits of ::ffff:0:0/96 after the three that tell it from 2000::/3.
    let rest = tree.push(Node::Match(256, mapped));
    let rest = tree.push(Node::Match(1 << 5, rest));
    let third = tree.push(Node::Jump(rest, ipv6));
    tree.push(Node::Match(1 << 2, third))
}

/// The map of the story that the main job plays: every IPv4 address has a number, and nearly all of 2000::/3 stands in the last page.
pub fn story(random: &mut Random) -> Vec<u8> {
    let mut tree = Tree::default();
    let ipv4 = split(&mut tree, random, 2_250);
    let ipv6 = split(&mut tree, random, 700);
    let root = families(&mut tree, ipv4, ipv6);
    tree.bytes(root)
}

/// Jumps and RETURNs alone: all jumps are open at once down to `depth`.
pub fn jumps(random: &mut Random, depth: u32) -> Vec<u8> {
    let mut tree = Tree::default();
    let mut row: Vec<usize> = (0..1u64 << depth).map(|_| tree.push(Node::Return(number(random)))).collect();
    while row.len() > 1 {
        row = row.chunks(2).map(|pair| tree.push(Node::Jump(pair[0], pair[1]))).collect();
    }
    tree.bytes(row[0])
}

/// A two-bit MATCH between any two jumps; the check allows no two of them in a row.
pub fn two_bit_matches(random: &mut Random, depth: u32) -> Vec<u8> {
    let mut tree = Tree::default();
    let mut row: Vec<usize> = (0..1u64 << depth).map(|_| tree.push(Node::Return(number(random)))).collect();
    while row.len() > 1 {
        row = row
            .chunks(2)
            .map(|pair| {
                let jump = tree.push(Node::Jump(pair[0], pair[1]));
                tree.push(Node::Match(operand(random, 2), jump))
            })
            .collect();
    }
    tree.bytes(row[0])
}

/// A jump inside the branch of a jump, `depth` times: on the side of 1 where `ones`, else on that of 0, which all stay open.
pub fn comb(random: &mut Random, depth: u32, ones: bool) -> Vec<u8> {
    let mut tree = Tree::default();
    let mut inner = tree.push(Node::Return(number(random)));
    for _ in 0..depth {
        let leaf = tree.push(Node::Return(number(random)));
        let (zero, one) = if ones { (leaf, inner) } else { (inner, leaf) };
        inner = tree.push(Node::Jump(zero, one));
    }
    tree.bytes(inner)
}

/// A tree of random shape, size and depth: up to `leaves` RETURNs over at most `left` address bits.
pub fn random(random: &mut Random, leaves: u64, left: u32) -> Vec<u8> {
    let mut tree = Tree::default();
    let leaves = 1 + random.below(leaves);
    let root = grow(&mut tree, random, leaves, left, Before::Other);
    tree.bytes(root)
}

/// The lengths of RETURNs, the longest first, each with a number that has it.
fn returns() -> impl Iterator<Item = (u64, u32)> {
    (15..=24u32).rev().map(|size| (1u32 << size) - (1 << 15) + 1).map(|number| (size_of(RETURN, u64::from(number)), number))
}

/// A map of exactly so many bytes, some thousand at least, of the shape of real maps: trees are joined by jumps until little is left,
/// which RETURNs of fitting lengths fill up to fewer than 8 bits.
pub fn exactly(random: &mut Random, bytes: usize) -> Vec<u8> {
    let wanted = 8 * bytes as u64;
    let mut tree = Tree::default();
    let mut whole = tree.push(Node::Return(number(random)));
    while wanted - tree.bits(whole) >= 8 {
        let left = wanted - tree.bits(whole);
        let jump = size_of(JUMP, tree.bits(whole));
        // So many steps fill `rest` bits where each takes a jump and a RETURN of 17 to 34 bits.
        let fills = |rest: u64| rest < 8 || (1..100).any(|steps| steps * (jump + 17) <= rest && rest <= steps * (jump + 34));
        let grown = grow(&mut tree, random, left / 100, 60, Before::Other);
        let more = if jump + tree.bits(grown) + 400 < left {
            grown
        } else {
            let fitting = |&(length, _): &(u64, u32)| jump + length <= left && fills(left - jump - length);
            let (_, number) = returns().find(fitting).expect("some hundred bits can be filled");
            tree.push(Node::Return(number))
        };
        whole = tree.push(Node::Jump(whole, more));
    }
    tree.bytes(whole)
}
