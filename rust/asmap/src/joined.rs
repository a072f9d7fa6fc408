//! Changes for reading: the pieces of a comparison joined into the fewest prefixes.
use corbastrigo::Change;

/// The fewest prefixes that hold what the changes hold, each with one pair of numbers, in their order. The changes rise by address.
///
/// Whatever prefix lies wholly in changes of one pair is made up of them, so that joining two halves wherever they meet comes to it.
pub fn joined(changes: impl Iterator<Item = Change>) -> Vec<Change> {
    let mut joined: Vec<Change> = Vec::new();
    for mut change in changes {
        while let Some(whole) = joined.last().and_then(|&before| of_halves(before, change)) {
            joined.pop();
            change = whole;
        }
        joined.push(change);
    }
    joined
}

/// The change whose two halves these are, where they are.
fn of_halves(zero: Change, one: Change) -> Option<Change> {
    let length = zero.length.checked_sub(1)?;
    let bit = 1 << (127 - length);
    let (first, second) = (u128::from_be_bytes(zero.address), u128::from_be_bytes(one.address));
    let halves = zero.length == one.length && first & bit == 0 && first | bit == second;
    (halves && (zero.old, zero.new) == (one.old, one.new)).then_some(Change { length, ..zero })
}

#[cfg(test)]
mod tests {
    use super::*;

    fn change(address: u128, length: u8, old: u32, new: u32) -> Change {
        Change { address: address.to_be_bytes(), length, old, new }
    }

    /// A prefix of the first eight bits of an address.
    fn short(byte: u8, length: u8, old: u32, new: u32) -> Change {
        change(u128::from(byte) << 120, length, old, new)
    }

    fn all(changes: &[Change]) -> Vec<Change> {
        joined(changes.iter().copied())
    }

    #[test]
    fn halves_are_joined_and_nothing_else() {
        assert_eq!(all(&[]), []);
        assert_eq!(all(&[short(0, 1, 1, 2), short(0x80, 1, 1, 2)]), [short(0, 0, 1, 2)]);
        for apart in [
            // Neighbours that are no halves of one prefix, another new number, another old one, both exchanged, another length, a gap.
            [short(0x40, 2, 1, 2), short(0x80, 2, 1, 2)],
            [short(0, 1, 1, 2), short(0x80, 1, 1, 3)],
            [short(0, 1, 1, 2), short(0x80, 1, 3, 2)],
            [short(0, 1, 1, 2), short(0x80, 1, 2, 1)],
            [short(0, 1, 1, 2), short(0x80, 2, 1, 2)],
            [short(0, 2, 1, 2), short(0x80, 2, 1, 2)],
        ] {
            assert_eq!(all(&apart), apart);
        }
    }

    #[test]
    fn a_half_that_is_joined_itself_is_joined_on() {
        let quarters = [short(0, 2, 1, 2), short(0x40, 3, 1, 2), short(0x60, 3, 1, 2), short(0x80, 1, 1, 2)];
        assert_eq!(all(&quarters), [short(0, 0, 1, 2)]);
        let last = [change(u128::MAX - 1, 128, 5, 0), change(u128::MAX, 128, 5, 0)];
        assert_eq!(all(&last), [change(u128::MAX - 1, 127, 5, 0)]);
    }

    /// The fewest prefixes below one, found from above: one where all of it has one pair, else those of its halves.
    fn fewest(pairs: &[Option<(u32, u32)>], first: u8, length: u8) -> Vec<Change> {
        let (size, pair) = (pairs.len(), pairs[0]);
        if pairs.iter().all(|&other| other == pair) {
            return pair.map(|(old, new)| short(first, length, old, new)).into_iter().collect();
        }
        let (zero, one) = pairs.split_at(size / 2);
        [fewest(zero, first, length + 1), fewest(one, first + (size / 2) as u8, length + 1)].concat()
    }

    #[test]
    fn there_are_no_fewer() {
        // Every way to give four addresses one of two changes or none, and drawn ways for 256; each address a piece of its own.
        let ways = [None, Some((1, 2)), Some((2, 1))];
        for way in 0..81usize {
            let pairs: Vec<_> = (0..4).map(|place| ways[way / 3usize.pow(place) % 3]).collect();
            let pieces =
                pairs.iter().enumerate().filter_map(|(at, pair)| pair.map(|(old, new)| short((at as u8) << 6, 2, old, new)));
            let wanted: Vec<Change> =
                fewest(&pairs, 0, 0).into_iter().map(|change| Change { address: shifted(change.address, 6), ..change }).collect();
            assert_eq!(joined(pieces), wanted, "{pairs:?}");
        }
        let mut draw = 1u64;
        for _ in 0..200 {
            let mut next = || {
                draw = draw.wrapping_mul(6_364_136_223_846_793_005).wrapping_add(1_442_695_040_888_963_407);
                ways[(draw >> 40) as usize % 8 / 3]
            };
            let pairs: Vec<_> = (0..256).map(|_| next()).collect();
            let pieces = pairs.iter().enumerate().filter_map(|(at, pair)| pair.map(|(old, new)| short(at as u8, 8, old, new)));
            assert_eq!(joined(pieces), fewest(&pairs, 0, 0));
        }
    }

    fn shifted(address: [u8; 16], by: u32) -> [u8; 16] {
        (u128::from_be_bytes(address) << by).to_be_bytes()
    }
}
