//! The header's macros and the crate's numbers are the same.

use std::collections::BTreeMap;

use orgamish::Refusal;

const HEADER: &str = include_str!("../../../../include/orgamish.h");

/// Every macro that has a value, without `ORGAMISH_`.
fn macros() -> BTreeMap<String, u64> {
    let defined = HEADER
        .lines()
        .filter_map(|line| line.strip_prefix("#define ORGAMISH_"));
    let pair = |line: &str| {
        let mut parts = line.split_whitespace();
        Some((parts.next()?.to_string(), value(parts.next()?)))
    };
    defined.filter_map(pair).collect()
}

fn value(written: &str) -> u64 {
    match written {
        "UINT64_MAX" => u64::MAX,
        number => number.parse().expect("a number"),
    }
}

/// The name of a macro: `BAD_MAP` for `BadMap`.
fn macro_name(refusal: Refusal) -> String {
    let mut name = String::new();
    for letter in format!("{refusal:?}").chars() {
        if letter.is_uppercase() && !name.is_empty() {
            name.push('_');
        }
        name.push(letter.to_ascii_uppercase());
    }
    name
}

macro_rules! consts {
    ($($name:ident)*) => { [$((stringify!($name).to_string(), orgamish::$name as u64)),*] };
}

#[test]
fn macros_are_the_crates_numbers() {
    let limits = consts! {
        MAP_LENGTH LONGEST_WORD MOST_WORDS MOST_LETTERS LONGEST_TEXT LONGEST_BOOK MOST_STATES WIDTH
        NARROW_WIDTH MOST_NUMBERS MOST_ENTRIES MOST_COUNTED TOLD STACK
        LETTER CHILD SIBLING DEPTH WORD BORDER LINK CHAIN NONE
    };
    let numbers = Refusal::ALL.map(|refusal| (macro_name(refusal), refusal.number().into()));
    let no_refusal = [("OK".to_string(), 0)];
    let all = limits.into_iter().chain(numbers).chain(no_refusal);
    assert_eq!(macros(), all.collect());
}

#[test]
fn refusals_and_their_numbers() {
    let found = (0..=u16::MAX).filter_map(Refusal::from_number);
    assert!(found.eq(Refusal::ALL));
}
