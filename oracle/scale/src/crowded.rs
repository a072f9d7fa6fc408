//! Picks among groups that are the same modulo 4,096, by prefixes and by a map. A pick may keep marks by a part of the number, and here
//! these tell little.
use crate::picks;
use crate::tally::Tally;
use crate::Form;
use maps::{Node, Random, Tree};
use oracle::picks::IPV4_GROUPS;

/// The low bits that the groups of a pick share.
const SHARED: u64 = 4_096;

/// What is drawn for a pick: the low bits, and how many different groups there can be of IPv6 by prefixes, as a power of two.
struct Crowd {
    low: u64,
    bits: u32,
}

impl Crowd {
    /// A group by an IPv6 prefix. Its first bits differ, by which the map goes too.
    fn prefix(&self, random: &mut Random) -> u64 {
        self.low + SHARED * (random.below(1 << self.bits) << (20 - self.bits))
    }

    /// A number of the map.
    fn number(&self, random: &mut Random) -> u64 {
        self.low + SHARED * (1 + random.below(40))
    }

    /// A map that tells the first six bits of an address apart.
    fn map(&self, random: &mut Random) -> Vec<u8> {
        let mut tree = Tree::default();
        let mut nodes: Vec<usize> = (0..64).map(|_| tree.push(Node::Return(self.number(random) as u32))).collect();
        while nodes.len() > 1 {
            nodes = nodes.chunks(2).map(|halves| tree.push(Node::Jump(halves[0], halves[1]))).collect();
        }
        tree.bytes(nodes[0])
    }

    /// The first two bytes of an IPv4 address.
    fn two_bytes(&self, random: &mut Random) -> u16 {
        (self.low + SHARED * random.below(16)) as u16
    }

    /// Of IPv6, or one in five of IPv4 by the same low bits, alone or mapped.
    fn candidate(&self, random: &mut Random) -> Vec<u8> {
        let port = [0x20, random.below(2) as u8];
        if random.percent(20) {
            let (family, group) = (4 + 2 * random.below(2) as u8, self.two_bytes(random));
            return [&[family, 0][..], &[0; 10], &[255, 255], &group.to_be_bytes(), &[0, 0], &port].concat();
        }
        let group = self.prefix(random) as u32;
        [&[6, 0][..], &group.to_be_bytes(), &[0; 11], &[random.below(2) as u8], &port].concat()
    }

    /// Groups of each kind, those of IPv4 by either numbering, and some that differ from them only far up.
    fn occupied(&self, random: &mut Random) -> u64 {
        let group = match random.below(10) {
            0 => self.two_bytes(random).into(),
            1 => IPV4_GROUPS + u64::from(self.two_bytes(random)),
            2..=5 => self.prefix(random),
            _ => self.number(random),
        };
        group | u64::from(random.percent(10)) << (32 + random.below(32))
    }
}

/// A pick of so many candidates, with so many occupied groups.
fn pick(tally: &mut Tally, random: &mut Random, count: u64, occupied: u64, bits: u32) {
    let crowd = Crowd { low: random.below(SHARED), bits };
    let map = crowd.map(random);
    let list: Vec<u8> = (0..count).flat_map(|_| crowd.candidate(random)).collect();
    let taken: Vec<u64> = (0..occupied).map(|_| crowd.occupied(random)).collect();
    let max = if random.percent(30) { usize::MAX } else { random.below(count + 2) as usize };
    let need = max.min(count as usize);
    picks::all_ways(tally, &list, &taken, max, &map, [need, need]);
}

/// Few groups and many, few of them occupied and many; in the end as many as there may be.
pub fn run(tally: &mut Tally, random: &mut Random, form: Form) {
    for _ in 0..form.choose(10_000, 200_000) {
        let most = [4, 24, 120][random.below(3) as usize];
        let (count, occupied, bits) = (random.below(80), random.below(most), 1 + random.below(8) as u32);
        pick(tally, random, count, occupied, bits);
    }
    for _ in 0..form.choose(4, 80) {
        pick(tally, random, 4_096, 4_096, 12);
    }
}
