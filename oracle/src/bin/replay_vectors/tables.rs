//! The tables that teach something, as text: docs/tables/NAME.txt.

/// Each with its first lines, which say what a row holds.
const TABLES: [(&str, &str); 15] = [
    (
        "codes",
        "The code of the first and the last value of each size of the four rows (document 01, Codes), and of values around each row.\n\
         Row and value: how many bits, and the bits in the order in which they are read.",
    ),
    (
        "instructions",
        "The instructions of the original's test maps, one behind the other from bit 0, up to where none can be read.\n\
         Bit: opcode and operand, and how many bits both have.",
    ),
    (
        "check",
        "What the check says of maps. R1, J17, M2 and D1 are RETURN 1, JUMP 17, MATCH 2 and DEFAULT 1; x16 says that the next one stands\n\
         16 times, and b0 and b1 are lone bits. A JUMP of 17 skips a RETURN of a small number, and of 22 a MATCH of one bit too.\n\
         A MATCH of 2 is one zero, of 4 two, of 64 six, of 128 seven, of 256 eight.\n\
         Map: bytes; accepted, with the number of instructions and the most jumps open at once, or refused, with document 01's number.",
    ),
    (
        "walk",
        "Walks of maps; check.txt says what the maps are. The last lines cut a map at each of its bits: the byte of the cut is kept,\n\
         its bits from the cut on are zeros.\n\
         Map, address: how the walk ends, the number, the instructions read whole, the address bits read.",
    ),
    (
        "list",
        "Every prefix that a map tells apart (document 02, CR 1), as the listing has them; check.txt says how maps are written as text.\n\
         A RETURN gives one record. Each bit of a MATCH gives one for the side that differs, with the default of that path, 0 until one\n\
         is met. Records rise by address, each begins where the one before it ends, and none are joined.\n\
         Map: the bytes that the listing needs, 24 a record, or its refusal; then each record's prefix and number.",
    ),
    (
        "compare",
        "What two maps say, compared for every address; list.txt says into which prefixes a map cuts the addresses, and check.txt how maps\n\
         are written as text. Of two prefixes that overlap, one of each map, the longer lies in the other, and is the piece. A piece whose\n\
         two numbers differ gives a record; records rise by address and are not joined. Where both maps are refused, the old one's number\n\
         is told; the new one's is 100 more.\n\
         Old map, new map: the bytes that the comparison needs, 28 a record, and the first address that differs, or its refusal; then each\n\
         record's prefix, the old number and the new one. At the end outputs of each length.",
    ),
    (
        "width",
        "Maps at both widths (document 02, CR 3); check.txt says how they are written as text. At 32 an IPv4 address is its four bytes, at\n\
         128 it has its mapped form, which begins with 80 zeros and 16 ones. A map that is accepted at 32 is so at 128, with the same\n\
         count and depth; but there the bits that it asks for are those of the mapped form, and an address may end elsewhere: a map is for\n\
         one width.\n\
         Map: the check at both widths, as in check.txt. Address: the walk at both, with how it ends, the number, the instructions read\n\
         whole and the address bits read. Then a map's prefixes at 32 with their numbers, addresses of other lengths, other widths.",
    ),
    (
        "cuts",
        "Maps whose end cuts an instruction (document 02, CR 5); check.txt says how they are written as text. Of a cut opcode (4) nothing, a\n\
         one or two ones are left; where it is whole and the rest is not, the operand is cut (19). A map that ends between two instructions\n\
         is refused 2, and a walk that goes on there, or past the end, finds the opcode cut. What the check asks before it reads comes first:\n\
         3 at a target, 5 behind a DEFAULT.\n\
         Map: the check, as in check.txt; the walk by zeros, with how it ends, the number, the instructions read whole and the address bits\n\
         read. Then walks by 8000::, whose first bit takes a jump, and maps that lost their last bytes.",
    ),
    (
        "loads",
        "Loads, which everyone can make again from a seed (document 02, CR 6). A number s is xored with s × 2^13, then with s / 2^7 rounded\n\
         down, then with s × 2^17, modulo 2^64 and each time as it is by then: that is the next draw, and the s of the one after it. Each\n\
         instruction of a load has a draw: DEFAULT and RETURN the number 1 + draw mod 65,536, a MATCH of one bit the bit draw mod 2.\n\
         Seed: its first draws, each with the number and the bit that it would give. Load: its instructions, and its bytes; a MATCH of 2 asks\n\
         for a zero, of 3 for a one. Then loads as maps, with the check and walks as in width.txt: an address whose bits are those asked for\n\
         reads every instruction, and one that differs at a pair has that pair's number. Pairs are counted from 1.",
    ),
    (
        "build",
        "Maps built from prefixes and a number for all other addresses (document 02, CR 8); check.txt says how maps are written as text.\n\
         Where all addresses of a subtree have one number, there is a RETURN; elsewhere a JUMP, the half with bit 0, the half with bit 1.\n\
         It goes by what addresses have: prefixes, and what lies between them, join where they have one number and fill a subtree.\n\
         Prefixes, each with its number, and the number of all others: at a width, the bytes of the map and its instructions, or the\n\
         refusal. Then outputs of each length, and what is wrong with a list at 128; it is so at 32 too.",
    ),
    (
        "groups",
        "The group of a candidate without a map, by document 02's numbering of prefixes (CR 7) and by the old one, which is the original's;\n\
         by a map that is checked, and by the same map as it is. IPv4 a.b.c.d, alone or mapped, gives 4294967296 + 256 × a + b by the new\n\
         numbering; by the old one 256 × a + b, and 0 where it is mapped. Any other IPv6 address gives its first four bytes by both.\n\
         Map, candidate: the four groups.",
    ),
    (
        "pick",
        "Picks of at most so many (max) of these candidates, with or without a map, some groups being occupied. Without a map they go by\n\
         document 02's numbering of prefixes (CR 7), the new, or by the old one; groups.txt has both numbers of an address.\n\
         Candidates by what, max: picks in all, those of the first pass, candidates examined, instructions of their walks;\n\
         the places picked; the groups of the first pass.",
    ),
    (
        "scan",
        "Where a group stands among the occupied groups (document 02, CR 2): the scan goes from the first on and ends at the first hit.\n\
         Group, groups: the hit's place from 0, or none, and how many groups were read, that place plus one or all; or the refusal.",
    ),
    (
        "page",
        "The groups of a candidate list on a printed page (document 02, CR 4), without a map or with one. Groups rise. A line has the group\n\
         in 10 columns, how many candidates have it in 6, and the per cent that these are of all in 6, rounded to a tenth, halves up.\n\
         Columns are filled from the right, a blank stands between two, and a line feed makes 25 bytes. pick.txt says who mixed,\n\
         loopback and dual are; a list of which no numbering is told is of IPv6, whose group without a map is the number of its first four\n\
         bytes by both. Numbers from 4294967296 on are of IPv4 (document 02, CR 7).\n\
         List: the bytes that were written, or the refusal; then the page, here two columns in.",
    ),
    (
        "filters",
        "The address filters at the edges of each range: the address before it, its first, its last and the one after.\n\
         U unroutable, R routable; S skipped by the relay, P passed; a number is a refusal. An IPv4 address stands alone (S or P,\n\
         network 1) and then in each form that holds one: mapped, 6to4, NAT64, translated, compatible, local NAT64 (U or R).\n\
         At the end the relay of an entry by its network, the first byte of its address (all others are 08) and its length, with port 0\n\
         and port 1; a first byte is left out where the answers are those of one before it.",
    ),
];

pub struct Tables {
    rows: Vec<(&'static str, String)>,
}

impl Tables {
    pub fn new() -> Tables {
        Tables { rows: vec![] }
    }

    pub fn row(&mut self, table: &'static str, text: String) {
        self.rows.push((table, text));
    }

    /// Rows of one thing; where there are more than `most`, three of each end.
    pub fn ends(&mut self, table: &'static str, rows: Vec<String>, most: usize) {
        let count = rows.len();
        for (place, row) in rows.into_iter().enumerate() {
            if count <= most || place < 3 || place + 3 >= count {
                self.row(table, row);
            } else if place == 3 {
                self.row(table, format!("  and {} more, then", count - 6));
            }
        }
    }

    pub fn names() -> impl Iterator<Item = &'static str> {
        TABLES.iter().map(|(name, _)| *name)
    }

    pub fn print(&self, table: &str) {
        let (_, head) = TABLES.iter().find(|(name, _)| *name == table).expect("a table of that name");
        println!("{head}\n");
        self.rows.iter().filter(|(name, _)| *name == table).for_each(|(_, text)| println!("{text}"));
    }
}

/// Cases in a row that come out the same: the first, the last, and what comes out.
pub fn runs(cases: impl Iterator<Item = (usize, String)>) -> Vec<(usize, usize, String)> {
    let mut runs: Vec<(usize, usize, String)> = vec![];
    for (case, outcome) in cases {
        match runs.last_mut() {
            Some(last) if last.2 == outcome => last.1 = case,
            _ => runs.push((case, case, outcome)),
        }
    }
    runs
}
