//! Maps built from prefixes (document 02, CR 8): lists drawn at both widths, whole and damaged, into outputs of each length; what maps
//! list, built again and compared with these; and maps at the limit and past it. Bytes and refusals are compared with document 02 worked
//! through (`oracle::building`); every map is then, as the library wrote it, checked, walked and listed by the library, and walked by the
//! original.
use crate::calls::{self, BEFORE, BEFORE_SIZE, BEHIND};
use crate::programs::{checked, left, number, tree};
use crate::safe::named;
use crate::tally::Tally;
use crate::widths::{drawn_no_width, narrow_tree};
use crate::Form;
use maps::lists::{damaged, number_at_an_edge, record, Drawn, NUMBERS};
use maps::{shapes, size_of, Random, JUMP, RETURN};
use oracle::asmap::AsMap;
use oracle::building::{self, build, joined, read, stretches, MOST_BYTES, TOO_LONG, WRONG_NUMBER, WRONG_PREFIX};
use oracle::changes::{Change, RECORD as CHANGE};
use oracle::document::{Refusal, Verdict};
use oracle::listing::{self, Prefix, RECORD};
use oracle::width::{Width, W128, W32};
use std::iter::{repeat, repeat_n};

const WIDTHS: [Width; 2] = [W32, W128];

/// What a build is handed, but for the output.
#[derive(Clone, Copy, Debug)]
struct Asked<'a> {
    records: &'a [u8],
    given: u32,
    width: u32,
}

impl Asked<'_> {
    /// An output of so many bytes, and what stands behind it. Hands back what the library wrote.
    fn into(self, tally: &mut Tally, made: &Result<Vec<u8>, Refusal>, room: usize) -> Vec<u8> {
        let (answer, written, mut out) = left(made, room);
        out.resize(room + BEHIND, BEFORE);
        let mut lent = vec![BEFORE; room + BEHIND];
        let told = corbastrigo::build_into(self.records, self.given, self.width, &mut lent[..room]);
        let expected = if answer == 0 { Ok(written) } else { Err(named(answer.into())) };
        tally.same("safe build into", &(self, room), (told, &lent), (expected, &out));
        let mut ours = calls::build(self.records, self.given, self.width, room);
        tally.same("build", &(self, room), &ours, &(answer, written, out));
        ours.2.truncate(if ours.0 == 0 { ours.1.min(room) } else { 0 });
        ours.2
    }

    /// Outputs just long enough, a byte shorter, longer, and none. Hands back the map as the library wrote it, or the refusal.
    fn built(self, tally: &mut Tally) -> Result<Vec<u8>, Refusal> {
        let made = build(self.records, self.given, self.width);
        let needed = made.as_ref().map_or(40, Vec::len);
        for room in [needed - 1, needed + 7, 0] {
            self.into(tally, &made, room);
        }
        let map = self.into(tally, &made, needed);
        let safe = corbastrigo::build(self.records, self.given, self.width);
        tally.same("safe build", &self, safe, made.clone().map_err(named));
        made.map(|_| map)
    }

    /// The place and the reason of the first record that is wrong, whatever the number of all others and the bytes behind the last record.
    fn wrong_record(self, tally: &mut Tally) {
        let whole = self.records.len() / RECORD;
        let reason = |count: &usize| read(&self.records[..count * RECORD], 1, self.width).err().filter(|&reason| reason != 18);
        let first = (1..=whole).find_map(|count| reason(&count).map(|reason| (count - 1, named(reason))));
        tally.same("safe wrong record", &self, corbastrigo::refused_record(self.records, self.width), first);
    }

    /// The safe crate's maps of prefixes, which are sane as they are.
    fn safe_map(self, tally: &mut Tally, map: &[u8]) {
        let prefixes: Vec<corbastrigo::Prefix> = corbastrigo::prefixes(self.records).collect();
        let made = match self.width {
            32 => corbastrigo::AsMap4::build(&prefixes, self.given).map(|map| map.as_bytes().to_vec()),
            _ => corbastrigo::AsMap::build(&prefixes, self.given).map(|map| map.as_bytes().to_vec()),
        };
        tally.same("safe map of prefixes", &self, made, Ok(map.to_vec()));
    }

    fn prefixes(self) -> Vec<Prefix> {
        self.records.chunks(RECORD).map(Prefix::of_record).collect()
    }

    /// A map, as the library wrote it: accepted at its width; it lists what the records say, joined by number; and the first and the last
    /// address of each record and each gap, or of one in so many, and drawn ones walk to their number, by the original and by the library.
    fn as_map(self, tally: &mut Tally, random: &mut Random, map: &[u8], step: usize) {
        let width = Width::of(self.width).expect("a width");
        let (verdict, check, _) = checked(tally, map, width);
        tally.same("built map accepted", &self, matches!(verdict, Verdict::Accepted { .. }), true);
        tally.same("check of a built map", &self, calls::sanity_check_bits(map, self.width), check);
        let all = stretches(&self.prefixes(), self.given);
        let (answer, needed) = calls::list_bytes_bits(map, self.width);
        let listed = calls::list_bits(map, self.width, if answer == 0 { needed } else { 0 }).2;
        let listed: Vec<Prefix> = listed.chunks(RECORD).map(Prefix::of_record).collect();
        tally.same("list of a built map", &self, joined(&stretches(&listed, 0)), joined(&all));
        let original = AsMap::from_bytes(map.to_vec());
        let ends = all.iter().step_by(step).flat_map(|&(first, last, number)| [(first, number), (last, number)]);
        let drawn: Vec<u128> = (0..4).map(|_| u128::from_be_bytes(random.address())).collect();
        let drawn =
            drawn.into_iter().map(|address| (address, building::number_of(&all, address).expect("all addresses have a number")));
        for (address, number) in ends.chain(drawn) {
            let address = address.to_be_bytes();
            let walked = original.as_ref().map(|map| map.interpret_ip16(&address));
            let (answer, _, ours, ..) = calls::interpret_bits(map, &address[..width.bytes()], self.width);
            tally.same("walks of a built map", &(self, address), (walked, answer, ours), (Some(number), 0, number));
        }
    }
}

/// A list of one of the shapes, of at most so many records.
fn drawn_list(random: &mut Random, width: Width, most: u64) -> Vec<u8> {
    let bits = width.bits();
    let numbers = if random.percent(10) { u64::from(NUMBERS[1]) } else { 1 + random.below(4) };
    let (drawn, count) = (Drawn { width: bits, numbers }, random.below(most));
    let least = random.below(u64::from(bits) + 1) as u32;
    match random.below(4) {
        0 => drawn.near(random, count),
        1 => drawn.spread(random, count as usize, [least, bits]),
        _ => drawn.tree(random, count),
    }
}

/// A list, and copies of it that are damaged, with right and wrong numbers for all others and, now and then, no width.
fn drawn(tally: &mut Tally, random: &mut Random, most: u64) {
    let width = WIDTHS[random.below(2) as usize];
    let records = drawn_list(random, width, most);
    let asked = Asked { records: &records, given: 1 + random.below(4) as u32, width: width.bits() };
    let map = asked.built(tally).expect("a list as it has to be");
    asked.as_map(tally, random, &map, 1);
    asked.safe_map(tally, &map);
    for _ in 0..4 {
        let records = damaged(random, &records);
        let given = if random.percent(10) { number_at_an_edge(random) } else { asked.given };
        let asked = Asked { records: &records, given, ..asked };
        asked.wrong_record(tally);
        if let Ok(map) = asked.built(tally) {
            asked.as_map(tally, random, &map, 1);
        }
    }
    let cut = random.below(records.len() as u64 + 1) as usize;
    for records in [&records[..], &records[cut..]] {
        let no_width = Asked { records, given: asked.given * random.below(2) as u32, width: drawn_no_width(random) };
        assert_eq!(no_width.built(tally), Err(18));
        no_width.wrong_record(tally);
    }
    let other = Asked { width: 160 - asked.width, ..asked };
    let _ = other.built(tally);
}

/// What two maps differ in at a width, by the library: the numbers of both.
fn differing(maps: [&[u8]; 2], width: u32) -> (u8, Vec<(u32, u32)>) {
    let (answer, bytes, _) = calls::compare_bytes_bits(maps, width, 16);
    let room = if answer == 0 { bytes } else { 0 };
    let (answer, _, records) = calls::compare_bits(maps, width, room);
    (answer, records.chunks(CHANGE).map(Change::of_record).map(|change| (change.old, change.new)).collect())
}

/// What a map lists, built again: refused with the number 0 in it, which no built map has, and built without those records. Both maps
/// differ in these alone; and what the new one lists makes the same bytes, whatever the number of all others.
fn listed(tally: &mut Tally, random: &mut Random, map: &[u8], width: Width, step: usize) {
    let bits = width.bits();
    let Ok(prefixes) = listing::list_bits(map, width) else { return };
    let numbered: Vec<Prefix> = prefixes.iter().copied().filter(|prefix| prefix.number != 0).collect();
    let given = 1 + random.below(u64::from(NUMBERS[1])) as u32;
    if numbered.len() < prefixes.len() {
        let asked = Asked { records: &listing::records(&prefixes), given, width: bits };
        asked.into(tally, &Err(WRONG_NUMBER), 64);
    }
    let records = listing::records(&numbered);
    let asked = Asked { records: &records, given, width: bits };
    let built = asked.built(tally).expect("a map that is not too long");
    asked.as_map(tally, random, &built, step);
    let (answer, mut changes) = differing([map, &built], bits);
    changes.retain(|&change| change != (0, given));
    tally.same("map and what is built of its list", &asked, (answer, changes), (0, vec![]));
    let again = listing::list_bits(&built, width).map(|prefixes| listing::records(&prefixes)).unwrap_or_default();
    let other = Asked { records: &again, given: 1 + random.below(9) as u32, width: bits };
    other.into(tally, &Ok(built.clone()), built.len());
}

/// The greatest number, which has the longest RETURN: that of all other addresses in what follows.
const GIVEN: u32 = NUMBERS[1];

/// A number for each length of a RETURN, from 17 bits to 34.
fn number_of_size(size: u32) -> u32 {
    (1 << size) - 32_767
}

/// Single addresses, the first 15 bits of each one more than those of the one before it: no two share more. So each has 113 JUMPs of its
/// own, and as many RETURNs of the given number.
fn addresses_apart(random: &mut Random) -> Vec<u128> {
    (0..1 << 15).map(|top| top << 113 | u128::from_be_bytes(random.address()) >> 15).collect()
}

fn records_of(addresses: &[(u128, u32)]) -> Vec<u8> {
    addresses.iter().flat_map(|&(address, number)| record(address, 128, number)).collect()
}

/// The bits of a JUMP and its halves.
fn jump(zero: u64, one: u64) -> u64 {
    size_of(JUMP, zero) + zero + one
}

/// The bits of the map of such an address under its first 15 bits: from the last bit up, a half is the address's and the other the given
/// number's.
fn bits_of_one(&(address, number): &(u128, u32)) -> u64 {
    let given = size_of(RETURN, GIVEN.into());
    (0..113).fold(size_of(RETURN, number.into()), |inner, bit| match address >> bit & 1 {
        0 => jump(inner, given),
        _ => jump(given, inner),
    })
}

/// The bits of the map of parts that have so many bits, each under one more value of the first 15 bits, of which `left` are left here.
fn bits_of(parts: &[u64], left: u32) -> u64 {
    match parts {
        [] => size_of(RETURN, GIVEN.into()),
        [part] if left == 0 => *part,
        _ => {
            let (zero, one) = parts.split_at(parts.len().min(1 << (left - 1)));
            jump(bits_of(zero, left - 1), bits_of(one, left - 1))
        }
    }
}

/// The last of the numbers from 0 on that fits, where one fits if all before it do.
fn last_that(most: usize, fits: impl Fn(usize) -> bool) -> usize {
    let (mut fitting, mut over) = (0, most);
    while over - fitting > 1 {
        let middle = fitting + (over - fitting) / 2;
        match fits(middle) {
            true => fitting = middle,
            false => over = middle,
        }
    }
    fitting
}

/// Addresses whose map has all bytes of the limit, and the same with one longer number, whose map has one byte more. As many addresses as
/// there is room for; as many of them with the longest number; then one with the longest that fits, and with the next.
fn around_the_limit(random: &mut Random) -> Option<[Vec<(u128, u32)>; 2]> {
    let limit = 8 * MOST_BYTES as u64;
    let addresses = addresses_apart(random);
    let [short, long] =
        [1, GIVEN - 1].map(|number| addresses.iter().map(|&address| bits_of_one(&(address, number))).collect::<Vec<u64>>());
    let count = last_that(addresses.len(), |count| bits_of(&short[..count], 15) <= limit);
    let longer = last_that(count, |longer| bits_of(&[&long[..longer], &short[longer..count]].concat(), 15) <= limit);
    let bits = |size: u32| {
        let between = bits_of_one(&(addresses[longer], number_of_size(size)));
        bits_of(&[&long[..longer], &[between], &short[longer + 1..count]].concat(), 15)
    };
    let size = (15..24).rev().find(|&size| bits(size) <= limit)?;
    let (last, past) = (limit - 7..=limit, limit + 1..=limit + 8);
    let with = |size: u32| {
        let numbers = repeat_n(GIVEN - 1, longer).chain([number_of_size(size)]).chain(repeat(1));
        addresses[..count].iter().copied().zip(numbers).collect()
    };
    (last.contains(&bits(size)) && past.contains(&bits(size + 1))).then(|| [with(size), with(size + 1)])
}

/// Told in the place of a list that is too long to be printed.
const HUGE: &str = "a list whose map is of about the limit";

/// A refusal of a long list, whatever room there is; 1 comes after all others but 14.
fn refused(tally: &mut Tally, records: &[u8], given: u32, width: u32, reason: Refusal) {
    for room in [0, 1_000] {
        let expected = (number(reason), BEFORE_SIZE, vec![BEFORE; room + BEHIND]);
        tally.same("build past the limit", &(HUGE, given, width, room), calls::build(records, given, width, room), expected);
    }
}

/// A map that is longer than the limit by far, and the same list with other faults, which come first.
fn past_the_limit(tally: &mut Tally, random: &mut Random) {
    let all: Vec<(u128, u32)> = addresses_apart(random).into_iter().map(|address| (address, 1)).collect();
    // A JUMP has 8 bits at least, and the RETURN of the given number 34.
    assert!(all.len() * 113 * (8 + 34) > 8 * MOST_BYTES);
    let mut records = records_of(&all);
    let last = records.len() - RECORD;
    refused(tally, &records, GIVEN, 128, TOO_LONG);
    refused(tally, &records, GIVEN + 1, 128, WRONG_NUMBER);
    refused(tally, &records, GIVEN, 129, 18);
    refused(tally, &records, GIVEN, 32, WRONG_PREFIX);
    refused(tally, &records[1..], GIVEN, 128, WRONG_PREFIX);
    records[last + 20..].copy_from_slice(&0u32.to_le_bytes());
    refused(tally, &records, GIVEN, 128, WRONG_NUMBER);
    records[last + 17] = 1;
    refused(tally, &records, GIVEN, 128, WRONG_PREFIX);
}

/// A map of all bytes of the limit, which is refused for want of room alone, and of one byte more; in the long form the bytes too.
fn at_the_limit(tally: &mut Tally, random: &mut Random, form: Form) {
    // Now and then a longer number makes several JUMPs longer, and a byte is passed over.
    let around = (0..20).find_map(|_| around_the_limit(random)).expect("addresses whose map is at the limit");
    let [fitting, longer] = around.map(|addresses| records_of(&addresses));
    refused(tally, &fitting, GIVEN, 128, 14);
    refused(tally, &longer, GIVEN, 128, TOO_LONG);
    if form == Form::Long {
        let asked = Asked { records: &fitting, given: GIVEN, width: 128 };
        let map = asked.built(tally).expect("a map of the limit");
        tally.same("bytes of a map at the limit", &HUGE, map.len(), MOST_BYTES);
        asked.as_map(tally, random, &map, 97);
        let written = calls::build(&longer, GIVEN, 128, MOST_BYTES + 1);
        tally.same("build past the limit", &HUGE, written.0, number(TOO_LONG));
    }
}

/// Lists as long as operators have them: IPv4 prefixes of a map's mapped form and by themselves, and IPv6 prefixes.
fn long_lists(tally: &mut Tally, random: &mut Random, count: usize) {
    for (width, lengths) in [(32, [16, 24]), (32, [24, 24]), (128, [20, 48])] {
        let records = Drawn { width, numbers: 70_000 }.spread(random, count, lengths);
        let asked = Asked { records: &records, given: 64_512, width };
        let map = asked.built(tally).expect("a list as it has to be");
        asked.as_map(tally, random, &map, 97);
    }
}

pub fn run(tally: &mut Tally, random: &mut Random, form: Form) {
    for round in 0..form.choose(1_500, 20_000) {
        drawn(tally, random, if round % 20 == 0 { 400 } else { 24 });
    }
    for _ in 0..form.choose(600, 8_000) {
        let (wide, narrow) = (tree(random), narrow_tree(random));
        listed(tally, random, &wide, W128, 1);
        listed(tally, random, &narrow, W32, 1);
    }
    let large = form.choose(100_000, 2_800_000);
    let (wide, narrow) = (shapes::real(random, large), shapes::ipv4(random, large));
    listed(tally, random, &wide, W128, 97);
    listed(tally, random, &narrow, W32, 97);
    long_lists(tally, random, form.choose(4_000, 100_000));
    past_the_limit(tally, random);
    at_the_limit(tally, random, form);
}
