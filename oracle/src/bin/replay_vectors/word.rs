//! The words of the list: bytes in hexadecimal, in which what is repeated stands once.

/// The sizes of what is looked for: bytes, places, groups, records, candidates, and pairs of records.
const SIZES: [usize; 6] = [1, 2, 8, 16, 20, 32];

/// A repeat has to spare so many characters.
const SPARED: usize = 16;

fn digits(bytes: &[u8]) -> String {
    bytes.iter().map(|byte| format!("{byte:02x}")).collect()
}

/// The sum of two numbers of one size, little-endian. What is carried past the last byte is lost.
fn sum(a: &[u8], b: &[u8]) -> Vec<u8> {
    let mut carry = 0;
    let bytes = a.iter().zip(b).map(|(&a, &b)| {
        let sum = u16::from(a) + u16::from(b) + carry;
        carry = sum / 256;
        sum as u8
    });
    bytes.collect()
}

/// What is to be added to the first to get the second.
fn difference(a: &[u8], b: &[u8]) -> Vec<u8> {
    let mut one = vec![0; a.len()];
    one[0] = 1;
    let complement: Vec<u8> = a.iter().map(|byte| !byte).collect();
    sum(b, &sum(&complement, &one))
}

/// Bytes that stand there so many times, each time with a step added.
struct Repeat {
    bytes: Vec<u8>,
    times: usize,
    step: Vec<u8>,
}

impl Repeat {
    /// As often as bytes start with numbers of a size that are one step apart.
    fn at_start(bytes: &[u8], size: usize) -> Option<Repeat> {
        let step = difference(bytes.get(..size)?, bytes.get(size..2 * size)?);
        let mut next = bytes[..size].to_vec();
        let apart = |number: &&[u8]| {
            let same = next == **number;
            next = sum(&next, &step);
            same
        };
        let times = bytes.chunks(size).take_while(apart).count();
        Some(Repeat { bytes: bytes[..size].to_vec(), times, step })
    }

    fn text(&self) -> String {
        let length = self.step.iter().rposition(|&byte| byte != 0).map_or(0, |last| last + 1);
        match length {
            0 => format!("{}*{}", digits(&self.bytes), self.times),
            _ => format!("{}*{}+{}", digits(&self.bytes), self.times, digits(&self.step[..length])),
        }
    }

    fn len(&self) -> usize {
        self.bytes.len() * self.times
    }

    fn spares(&self) -> usize {
        (2 * self.len()).saturating_sub(self.text().len())
    }
}

pub fn text(bytes: &[u8]) -> String {
    let (mut pieces, mut plain, mut at) = (vec![], vec![], 0);
    while at < bytes.len() {
        let repeats = SIZES.iter().filter_map(|&size| Repeat::at_start(&bytes[at..], size));
        match repeats.max_by_key(Repeat::spares).filter(|best| best.spares() >= SPARED) {
            None => {
                plain.push(bytes[at]);
                at += 1;
            }
            Some(best) => {
                pieces.extend((!plain.is_empty()).then(|| digits(&plain)));
                pieces.push(best.text());
                plain.clear();
                at += best.len();
            }
        }
    }
    pieces.extend((!plain.is_empty()).then(|| digits(&plain)));
    match pieces.is_empty() {
        true => String::from("-"),
        false => pieces.join(","),
    }
}

/// A number, little-endian, without the zeros behind its last byte that is none.
pub fn number(n: u64) -> Vec<u8> {
    let length = (8 - n.leading_zeros() as usize / 8).max(1);
    n.to_le_bytes()[..length].to_vec()
}
