//! Maps built from prefixes (document 02, CR 8): by hand and by the paragraph, that they are accepted and walked to the records' numbers, that a
//! list goes to a map and back, and what is refused, in its order.
use corbastrigo::*;

const RETURN: u32 = 0;
const JUMP: u32 = 1;

/// The greatest number of a map.
const GREATEST: u32 = 33_521_664;

const WIDTHS: [u32; 2] = [32, 128];

/// No more prefixes are drawn for a list than these, but for the halves that are open then.
const MOST_DRAWN: usize = 120;

/// A prefix of the first four bytes of an address, which at width 32 are the address.
fn short(first_bytes: u32, length: u8, number: u32) -> Prefix {
    Prefix { address: (u128::from(first_bytes) << 96).to_be_bytes(), length, number }
}

fn records(prefixes: &[Prefix]) -> Vec<u8> {
    prefixes.iter().flat_map(|prefix| prefix.record()).collect()
}

fn bits_of(opcode: u32, operand: u32) -> u32 {
    codes::encode_instruction(opcode, operand).expect("in range").len as u32
}

/// The instructions of a subtree below so many bits, by the paragraph: a RETURN where all its addresses have one number, else a JUMP over the
/// half with bit 0, that half and the other. The prefixes lie in the subtree, or one of them holds it.
fn subtree(prefixes: &[Prefix], depth: u8, given: u32) -> Vec<(u32, u32)> {
    match prefixes {
        [] => return vec![(RETURN, given)],
        [prefix] if prefix.length <= depth => return vec![(RETURN, prefix.number)],
        _ => {}
    }
    let ones = prefixes.partition_point(|prefix| u128::from_be_bytes(prefix.address) >> (127 - depth) & 1 == 0);
    let [zero, one] = [&prefixes[..ones], &prefixes[ones..]].map(|half| subtree(half, depth + 1, given));
    if zero.len() == 1 && zero == one {
        return zero;
    }
    let skipped = zero.iter().map(|&(opcode, operand)| bits_of(opcode, operand)).sum();
    [vec![(JUMP, skipped)], zero, one].concat()
}

/// The bytes of instructions.
fn packed(program: &[(u32, u32)]) -> Vec<u8> {
    let mut place = 0;
    let listed = program.iter().flat_map(|&(opcode, operand)| {
        let instruction = Instruction { opcode, operand, place, size: bits_of(opcode, operand) };
        place += instruction.size;
        instruction.record()
    });
    pack(&listed.collect::<Vec<u8>>()).expect("packs")
}

/// The first and the last address of a prefix at a width.
fn ends(prefix: Prefix, width: u32) -> (u128, u128) {
    let first = u128::from_be_bytes(prefix.address);
    let rest = u128::MAX.checked_shr(prefix.length.into()).unwrap_or(0);
    (first, first | (rest >> (128 - width) << (128 - width)))
}

/// The number that prefixes have for an address.
fn number_of(prefixes: &[Prefix], given: u32, width: u32, address: u128) -> u32 {
    let around = prefixes.iter().find(|&&prefix| (ends(prefix, width).0..=ends(prefix, width).1).contains(&address));
    around.map_or(given, |prefix| prefix.number)
}

/// The map that is built is that of the paragraph, is accepted, and sends addresses at the edges of prefixes, in them and between them to their
/// numbers.
fn assert_built(prefixes: &[Prefix], given: u32, width: u32) -> Vec<u8> {
    let map = build(&records(prefixes), given, width).expect("builds");
    let program = subtree(prefixes, 0, given);
    assert_eq!(map, packed(&program), "{prefixes:?} and {given} at {width}");
    let check = sanity_check_bits(&map, width).expect("accepted");
    assert_eq!(check.count as usize, program.len());
    let step = 1 << (128 - width);
    for &prefix in prefixes {
        let (first, last) = ends(prefix, width);
        let middle = first / step + (last / step - first / step) / 2;
        for address in [first, first.wrapping_sub(step), last, last.wrapping_add(step), middle * step] {
            let walk = interpret_bits(&map, &address.to_be_bytes()[..width as usize / 8], width).expect("an address");
            assert_eq!((walk.end, walk.number), (End::Returned, number_of(prefixes, given, width, address)), "{address:x}");
            assert_eq!(walk.count, u32::from(walk.bits) + 1);
        }
    }
    map
}

#[test]
fn maps_are_those_of_the_paragraph_worked_out_by_hand() {
    let (seven, two) = ([0x00, 0xc0, 0x00], [0x00, 0x00, 0x01]);
    for width in WIDTHS {
        let built = |prefixes: &[Prefix], given| assert_built(prefixes, given, width);
        // No records: a lone RETURN, of 17 bits or of 34.
        assert_eq!((built(&[], 1), built(&[], 7)), (vec![0, 0, 0], seven.to_vec()));
        assert_eq!(built(&[], GREATEST), [0xfe, 0xff, 0xff, 0xff, 0x03]);
        // One prefix: all addresses, a half, a quarter between two gaps.
        assert_eq!(built(&[short(0, 0, 7)], 2), seven);
        assert_eq!(built(&[short(0, 1, 2)], 1), [0x01, 0x00, 0x00, 0x01, 0x00, 0x00]);
        assert_eq!(built(&[short(1 << 31, 1, 2)], 1), [0x01, 0x00, 0x00, 0x00, 0x00, 0x02]);
        assert_eq!(built(&[short(1 << 30, 2, 2)], 1), [0x99, 0x01, 0x00, 0x00, 0x00, 0x00, 0x02, 0x00, 0x00]);
        // One that has the given number is not told apart.
        assert_eq!(built(&[short(1 << 30, 2, 2)], 2), two);
        // Two neighbours of one number join, with a third up to a lone RETURN, and so does a gap with what is next to it.
        let neighbours = [short(0, 2, 7), short(1 << 30, 2, 7)];
        let seven_and_two = [0x01, 0x00, 0xc0, 0x00, 0x00, 0x02];
        assert_eq!(built(&[neighbours[0], neighbours[1], short(1 << 31, 1, 2)], 1), seven_and_two);
        assert_eq!(built(&neighbours, 2), seven_and_two);
        assert_eq!(built(&neighbours, 7), seven);
        assert_eq!(built(&[neighbours[0], neighbours[1], short(1 << 31, 1, 7)], 1), seven);
        assert_eq!(built(&[neighbours[0], short(1 << 31, 1, 2)], 7), seven_and_two);
        // Neighbours that are no halves of one subtree do not join.
        let apart = [short(1 << 30, 2, 7), short(1 << 31, 2, 7)];
        let listed = list_bits(&built(&apart, 1), width).expect("accepted");
        assert_eq!(prefixes(&listed).collect::<Vec<_>>(), [short(0, 2, 1), apart[0], apart[1], short(3 << 30, 2, 1)]);
    }
}

/// A number from a draw, one of three as often as any.
fn drawn_number(draw: u64) -> u32 {
    let draw = draw >> 8;
    (if draw % 4 < 3 { 1 + draw % 4 } else { 1 + (draw >> 2) % u64::from(GREATEST) }) as u32
}

/// Prefixes below one, of which draws say whether they are there, are missing, or are told apart further.
fn drawn(draws: &mut impl Iterator<Item = u64>, address: u128, depth: u8, width: u8, most: usize, list: &mut Vec<Prefix>) {
    let draw = draws.next().expect("draws never end");
    if list.len() >= most {
        return;
    }
    if depth == width || draw % 32 == 31 {
        list.push(Prefix { address: address.to_be_bytes(), length: depth, number: drawn_number(draw) });
    } else if draw % 32 < 30 {
        for bit in 0..2 {
            let half = address | u128::from(bit) << (127 - depth);
            if draw % 32 < 7 || draw >> 5 & 1 == bit {
                drawn(draws, half, depth + 1, width, most, list);
            } else if draw >> 6 & 1 == 0 {
                list.push(Prefix { address: half.to_be_bytes(), length: depth + 1, number: drawn_number(draw) });
            }
        }
    }
}

/// So many lists of drawn prefixes at a width.
fn lists(width: u32, count: usize) -> Vec<Vec<Prefix>> {
    let first = Generator::seeded(u64::from(width)).expect("a seed").next();
    let mut draws = std::iter::successors(Some(first), |draw| Some(draw.next())).map(Generator::draw);
    let list = |draws: &mut _| {
        let mut list = Vec::new();
        drawn(draws, 0, 0, width as u8, MOST_DRAWN, &mut list);
        list
    };
    (0..count).map(|_| list(&mut draws)).collect()
}

#[test]
fn drawn_lists_build_the_map_of_the_paragraph() {
    for width in WIDTHS {
        let lists = lists(width, 100);
        for (place, list) in lists.iter().enumerate() {
            assert_built(list, [1, 2, 3, 65_536, GREATEST][place % 5], width);
        }
        let most = |of: fn(&Prefix) -> usize| lists.iter().flatten().map(of).max();
        assert_eq!(most(|prefix| prefix.length.into()), Some(width as usize));
        assert!(lists.iter().any(Vec::is_empty) && lists.iter().any(|list| list.len() >= MOST_DRAWN));
    }
}

/// Prefixes with neighbouring halves of one number joined.
fn joined(prefixes: impl IntoIterator<Item = Prefix>) -> Vec<Prefix> {
    let mut joined: Vec<Prefix> = Vec::new();
    for mut prefix in prefixes {
        while let Some(&before) = joined.last() {
            let halves = before.length == prefix.length && before.length > 0 && before.number == prefix.number;
            let bit = 1u128.checked_shl(128 - u32::from(prefix.length)).unwrap_or(0);
            let [first, second] = [before, prefix].map(|prefix| u128::from_be_bytes(prefix.address));
            if !halves || first & bit != 0 || first | bit != second {
                break;
            }
            joined.pop();
            prefix = Prefix { length: before.length - 1, ..before };
        }
        joined.push(prefix);
    }
    joined
}

#[test]
fn a_map_listed_and_built_again_says_the_same_and_is_the_smallest_list() {
    for width in WIDTHS {
        for (place, list) in lists(width, 60).iter().enumerate() {
            let given = 1 + place as u32 % 3;
            let map = assert_built(list, given, width);
            let listed = list_bits(&map, width).expect("accepted");
            // What a built map lists is joined already, holds every address, and so builds the same bytes whatever is given.
            assert_eq!(joined(prefixes(&listed)), prefixes(&listed).collect::<Vec<_>>());
            assert_eq!(build(&listed, 1 + given, width).as_ref(), Ok(&map));
            // Whoever leaves out the records of the given number has it again too.
            let others: Vec<Prefix> = prefixes(&listed).filter(|prefix| prefix.number != given).collect();
            assert_eq!(build(&records(&others), given, width).as_ref(), Ok(&map));
        }
    }
}

#[test]
fn a_map_with_matches_and_defaults_goes_to_a_list_and_back() {
    for pairs in [1, 2, 31, 32, 33, 127, 128] {
        let width = if pairs <= 32 { 32 } else { 128 };
        let map = load(7, pairs).expect("a load");
        let listed = list_bits(&map, width).expect("accepted");
        let again = build(&listed, 1, width).expect("no number of a load is 0");
        assert_eq!(first_change_bits(&map, &again, width), Ok(None));
        assert_eq!(
            prefixes(&list_bits(&again, width).expect("accepted")).collect::<Vec<_>>(),
            joined(prefixes(&listed)),
            "{pairs} pairs"
        );
    }
}

#[test]
fn the_number_0_of_a_list_is_refused_and_left_out() {
    // A MATCH of one bit, 0, and a RETURN of 7: where the first bit is 1, the walk differs before any DEFAULT.
    let map = [0x03, 0x00, 0x18];
    for width in WIDTHS {
        let listed = list_bits(&map, width).expect("accepted");
        assert_eq!(build(&listed, 9, width), Err(Refusal::Number));
        assert_eq!(refused_record(&listed, width), Some((1, Refusal::Number)));
        let others: Vec<Prefix> = prefixes(&listed).filter(|prefix| prefix.number != 0).collect();
        let built = build(&records(&others), 9, width).expect("builds");
        let told = compare_bits(&map, &built, width).expect("both are accepted");
        let told: Vec<_> = changes(&told).map(|change| (change.address[0], change.length, change.old, change.new)).collect();
        assert_eq!(told, [(0x80, 1, 0, 9)]);
    }
}

#[test]
fn both_kinds_of_map_are_built() {
    let list = [short(0x0102_0000, 16, 7), short(0x0304_0000, 16, 8)];
    let four = AsMap4::build(&list, 1).expect("builds");
    assert_eq!(four.as_bytes(), build(&records(&list), 1, 32).expect("builds"));
    let wide = AsMap::build(&list, 1).expect("builds");
    assert_eq!(wide.as_bytes(), build(&records(&list), 1, 128).expect("builds"));
    assert_eq!(wide.walk(&list[1].address).number, 8);
    assert_eq!((AsMap::build(&[], 0), AsMap4::build(&[], 0)), (Err(Refusal::Number), Err(Refusal::Number)));
    let long = [short(0, 33, 7)];
    assert_eq!((AsMap4::build(&long, 1), AsMap::build(&long, 1).map(|map| map.len() > 3)), (Err(Refusal::Prefix), Ok(true)));
}

/// Every call refuses so, whatever is lent to it, and leaves it.
fn assert_refused(records: &[u8], width: u32, refusal: Refusal, place: Option<usize>) {
    let mut out = [0xee; 64];
    for given in [1, 0, GREATEST + 1] {
        for room in [0, out.len()] {
            assert_eq!(build_into(records, given, width, &mut out[..room]), Err(refusal), "{records:?} at {width}");
        }
        assert_eq!(build(records, given, width), Err(refusal));
    }
    assert_eq!(out, [0xee; 64]);
    assert_eq!(refused_record(records, width), place.map(|place| (place, refusal)));
}

/// Three prefixes that are right.
fn three() -> [Prefix; 3] {
    [short(0x0a00_0000, 8, 1), short(0x0b00_0000, 9, GREATEST), short(0xc000_0200, 24, 3)]
}

#[test]
fn a_width_that_is_none_is_refused_first_then_a_length() {
    for width in [0, 1, 31, 33, 64, 127, 129, 160, 256 + 32, 256 + 128, u32::MAX] {
        for list in [records(&three()), records(&[short(1, 8, 0)]), vec![0; 23], vec![]] {
            assert_refused(&list, width, Refusal::Width, None);
        }
    }
    for width in WIDTHS {
        for length in [1, 23, 25, 47, 71] {
            assert_refused(&records(&three())[..length], width, Refusal::Prefix, None);
            assert_refused(&[0xff; 71][..length], width, Refusal::Prefix, (length > 24).then_some(0));
        }
    }
}

#[test]
fn a_prefix_that_is_wrong_is_refused_before_its_number() {
    for width in WIDTHS {
        for place in 0..3 {
            let refused = |change: &dyn Fn(&mut [u8])| {
                for number in [None, Some(0)] {
                    let mut list = records(&three());
                    let record = &mut list[PREFIX_BYTES * place..][..PREFIX_BYTES];
                    change(record);
                    if number == Some(0) {
                        record[20..].fill(0);
                    }
                    assert_refused(&list, width, Refusal::Prefix, Some(place));
                }
            };
            for length in [width as u8 + 1, 129, 200, 255] {
                refused(&|record| record[16] = length);
            }
            // Ones past the prefix, up to the last of the 16 bytes at either width, and ones where zeros must be.
            for bit in (usize::from(three()[place].length)..128).chain(136..160) {
                refused(&|record| record[bit / 8] |= 0x80 >> (bit % 8));
            }
        }
    }
}

#[test]
fn prefixes_rise_and_none_lies_in_another() {
    let last = u32::MAX;
    for width in WIDTHS {
        for (first, second, right) in [
            ((0x0a00_0000, 8), (0x0b00_0000, 8), true),
            ((0x0aff_ffff, 32), (0x0b00_0000, 32), true),
            ((0x7fff_ffff, 32), (0x8000_0000, 1), true),
            ((0x0b00_0000, 8), (0x0a00_0000, 8), false),
            ((0x0a00_0000, 8), (0x0a00_0000, 8), false),
            ((0x0a00_0000, 8), (0x0a00_0000, 9), false),
            ((0x0a00_0000, 9), (0x0a00_0000, 8), false),
            ((0x0a00_0000, 8), (0x0aff_ffff, 32), false),
            ((0x0aff_ffff, 32), (0x0a00_0000, 8), false),
            ((0, 0), (0, 32), false),
            ((0, 0), (last, 32), false),
            // Behind the last address none can follow.
            ((1 << 31, 1), (0, 1), false),
            ((last, 32), (0, 32), false),
        ] {
            let list = [first, second].map(|(address, length)| short(address, length, 2));
            match right {
                true => drop(assert_built(&list, 1, width)),
                false => assert_refused(&records(&list), width, Refusal::Prefix, Some(1)),
            }
        }
    }
    // At 128 a prefix may end at the very last address, and what comes behind it is refused.
    let whole = Prefix { address: [0xff; 16], length: 128, number: 2 };
    assert_built(&[whole], 1, 128);
    assert_refused(&records(&[whole, short(0, 1, 2)]), 128, Refusal::Prefix, Some(1));
    // An address alone is the first of its prefix and the last, and cannot stand twice.
    for (width, alone) in [(128, whole), (128, short(7, 128, 2)), (32, short(7, 32, 2)), (32, short(last, 32, 2))] {
        assert_refused(&records(&[alone, alone]), width, Refusal::Prefix, Some(1));
    }
}

#[test]
fn a_number_that_is_none_is_refused_in_its_record_and_as_the_given_one_behind_all() {
    for width in WIDTHS {
        for number in [0, GREATEST + 1, 1 << 25, 1 << 31, u32::MAX] {
            for place in 0..3 {
                let mut list = three();
                list[place].number = number;
                assert_refused(&records(&list), width, Refusal::Number, Some(place));
                // Of two records that are wrong the first decides.
                let mut list = records(&list);
                list[2 * PREFIX_BYTES + 17] = 1;
                let (refusal, at) = if place < 2 { (Refusal::Number, place) } else { (Refusal::Prefix, 2) };
                assert_refused(&list, width, refusal, Some(at));
            }
            let mut out = [0xee; 64];
            for (list, room) in [(records(&three()), 0), (records(&three()), 64), (vec![], 0), (vec![], 64)] {
                assert_eq!(build_into(&list, number, width, &mut out[..room]), Err(Refusal::Number));
                assert_eq!((build(&list, number, width), refused_record(&list, width)), (Err(Refusal::Number), None));
            }
            assert_eq!(out, [0xee; 64]);
        }
    }
}

#[test]
fn an_output_of_just_the_length_will_do_and_the_rest_of_a_longer_one_remains() {
    for width in WIDTHS {
        for (place, list) in lists(width, 40).into_iter().enumerate() {
            let (list, given) = (records(&list), 1 + place as u32);
            let map = build(&list, given, width).expect("builds");
            let mut out = vec![0xee; map.len() + 9];
            for room in [0, 1, map.len() - 1] {
                assert_eq!(build_into(&list, given, width, &mut out[..room]), Err(Refusal::OutputTooShort));
                assert!(out.iter().all(|&byte| byte == 0xee));
            }
            for room in [map.len(), map.len() + 1, map.len() + 9] {
                out.fill(0xee);
                assert_eq!(build_into(&list, given, width, &mut out[..room]), Ok(map.len()));
                assert!(out.starts_with(&map) && out[map.len()..].iter().all(|&byte| byte == 0xee));
            }
        }
    }
}

/// The first addresses of so many equal parts of all, 128 bits each: every one of them is told from its neighbours by all of its last bits.
fn scattered(count: u32) -> Vec<u8> {
    (0..count)
        .flat_map(|place| Prefix { address: (u128::from(place) << 112).to_be_bytes(), length: 128, number: 1 }.record())
        .collect()
}

#[test]
fn a_map_that_would_be_too_long_is_refused_before_the_room_and_the_longest_is_built() {
    let (mut fits, mut too_many) = (20_000, 40_000);
    let list = scattered(too_many);
    while too_many - fits > 1 {
        let middle = fits + (too_many - fits) / 2;
        match build_into(&list[..middle as usize * PREFIX_BYTES], GREATEST, 128, &mut []) {
            Err(Refusal::OutputTooShort) => fits = middle,
            refused => {
                assert_eq!(refused, Err(Refusal::MapTooLong));
                too_many = middle;
            }
        }
    }
    let (most, over) = (&list[..fits as usize * PREFIX_BYTES], &list[..too_many as usize * PREFIX_BYTES]);
    assert_eq!((build(over, GREATEST, 128), refused_record(over, 128)), (Err(Refusal::MapTooLong), None));
    assert_eq!(build(over, GREATEST + 1, 128), Err(Refusal::Number));
    let map = build(most, GREATEST, 128).expect("fits");
    // One record more would have been too much, and one brings less than a kilobyte.
    assert!(map.len() <= MAX_MAP_BYTES && map.len() > MAX_MAP_BYTES - 1_024, "{} bytes", map.len());
    assert!(sanity_check(&map).is_ok());
    let address = u128::from(fits - 1) << 112;
    let walks = [address, address + 1].map(|address| interpret(&map, &address.to_be_bytes()).expect("16 bytes").number);
    assert_eq!(walks, [1, GREATEST]);
}

#[test]
fn the_refusals_have_their_words() {
    assert_eq!(Refusal::Number.to_string(), "a number that is not within 1 to 33,521,664 (refusal 22)");
    assert!(Refusal::Prefix.to_string().starts_with("record bytes no multiple of 24, or a prefix out of order"));
    assert_eq!((Refusal::Prefix.number(), Refusal::from_number(22)), (21, Some(Refusal::Number)));
}
