//! What is written here twice: the header's calls, each with the types of its parameters in their order, and its numbers.
use corbastrigo_sys::{
    CHANGE_RECORD_BYTES, CUT_OPCODE, CUT_OPERAND, DEFAULT_SEED, DIFFERED, IPV4_GROUPS, LOAD_BYTES, MAX_PAIRS, NEW_MAP,
    PAGE_LINE_BYTES, RETURNED, TOO_FEW_BITS,
};
use std::collections::BTreeMap;

const HEADER: &str = include_str!("../../../include/corbastrigo.h");
const SOURCE: &str = include_str!("../src/lib.rs");

/// A parameter's type in C, as Rust says it. The name behind it is left out.
fn in_rust(parameter: &str) -> String {
    let (of_const, rest) = parameter.strip_prefix("const ").map_or(("*mut ", parameter), |rest| ("*const ", rest));
    let (word, name) = rest.split_once(' ').expect("a type and a name");
    let number = if word == "size_t" { "usize".into() } else { word.replace("uint", "u").replace("_t", "") };
    if name.starts_with('*') {
        format!("{of_const}{number}")
    } else {
        number
    }
}

/// The calls that a text declares, each with its parameters as `read` reads them. A line of a comment declares none.
fn declared(text: &str, before: &str, behind: &str, read: fn(&str) -> String) -> BTreeMap<String, Vec<String>> {
    let code: Vec<&str> = text.lines().map(str::trim).filter(|line| !line.starts_with(['/', '*', '#'])).collect();
    let mut calls = BTreeMap::new();
    for declaration in code.join(" ").split(before).skip(1) {
        let Some((head, _)) = declaration.split_once(behind) else { continue };
        let (name, list) = head.split_once('(').expect("parameters");
        let parameters = list.split(',').map(str::trim).filter(|parameter| !parameter.is_empty());
        calls.insert(name.to_string(), parameters.map(read).collect());
    }
    calls
}

#[test]
fn every_call_of_the_header_is_declared_with_its_types() {
    let of_header = declared(HEADER, "uint8_t corbastrigo_", ");", in_rust);
    let typed = |parameter: &str| parameter.split_once(": ").expect("a name and a type").1.to_string();
    let of_source = declared(SOURCE, "pub fn corbastrigo_", ") -> u8;", typed);
    assert!(of_header.contains_key("page_unchecked") && of_header["page"].len() == 8, "the header was read");
    assert_eq!(of_source, of_header);
}

#[test]
fn a_constant_has_the_headers_number() {
    // What the header defines, or lists among the refusals; a comment may stand behind it, or the letter of an unsigned number.
    let defined = |name: &str| {
        let (define, refusal) = (format!("#define CORBASTRIGO_{name} "), format!("CORBASTRIGO_{name} = "));
        let number = |line: &'static str| line.trim().strip_prefix(&define).or(line.trim().strip_prefix(&refusal));
        HEADER.lines().find_map(number)?.split([' ', ',', 'u']).next()?.parse::<usize>().ok()
    };
    assert_eq!(defined("CHANGE_RECORD_BYTES"), Some(CHANGE_RECORD_BYTES));
    assert_eq!(defined("PAGE_LINE_BYTES"), Some(PAGE_LINE_BYTES));
    assert_eq!(defined("IPV4_GROUPS").map(|first| first as u64), Some(IPV4_GROUPS));
    assert_eq!(defined("DEFAULT_SEED").map(|seed| seed as u64), Some(DEFAULT_SEED));
    assert_eq!(defined("MAX_PAIRS"), Some(MAX_PAIRS));
    assert_eq!(defined("LOAD_BYTES"), Some(LOAD_BYTES));
    for (name, number) in [
        ("NEW_MAP", NEW_MAP),
        ("RETURNED", RETURNED),
        ("DIFFERED", DIFFERED),
        ("TOO_FEW_BITS", TOO_FEW_BITS),
        ("CUT_OPCODE", CUT_OPCODE),
        ("CUT_OPERAND", CUT_OPERAND),
    ] {
        assert_eq!(defined(name), Some(usize::from(number)), "{name}");
    }
    assert_eq!(defined("ABORTED"), None);
}
