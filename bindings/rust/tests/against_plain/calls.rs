//! Every call's answer, and all of the memory that it was lent.

use std::collections::BTreeMap;
use std::fmt::Debug;

use orgamish::{Built, Refused};

use crate::cases::{self, Case};
use crate::expected::{self, Answer, Scan};
use crate::plain::Reading;
use crate::random::Random;

/// How often each call gave each refusal, 0 for none.
pub type Met = BTreeMap<(&'static str, u16), usize>;

/// Holds what one call tells and leaves to what is expected, and gives the refusal's number.
type Held = fn(&Case) -> u16;

const CASES: usize = 20_000;
const LONG_TEXTS: usize = 500;

/// Every call, and the refusals that random cases must have met: 4 and 5, which take many words, and
/// 22 are met by others.
const CALLS: [(&str, Held, &[u16]); 8] = [
    ("build", build, &[0, 18, 1, 2, 3, 6, 7]),
    ("widen", widen, &[0, 18, 1, 2, 3, 6, 7, 8]),
    ("narrow", narrow, &[0, 18, 1, 2, 3, 6, 7, 8]),
    ("scan", scan, &[0, 18, 1, 2, 3, 6, 7, 8, 9, 10]),
    (
        "first",
        first,
        &[0, 18, 1, 2, 3, 6, 7, 8, 9, 10, 11, 12, 14],
    ),
    ("next", next, &[0, 18, 1, 2, 3, 6, 7, 8, 9, 10, 11, 13, 14]),
    ("jump", jump, &[0, 18, 1, 2, 3, 6, 7, 8, 9, 10, 11, 21, 14]),
    ("place", place, &[0, 18, 1, 2, 3, 6, 7, 8, 9, 10, 11, 13]),
];

/// Makes every call.
pub fn hold(case: &Case, met: &mut Met) {
    for (name, held, _) in CALLS {
        *met.entry((name, held(case))).or_default() += 1;
    }
}

#[test]
fn random_cases() {
    let mut random = Random::new(1);
    let mut met = Met::new();
    for _ in 0..CASES {
        hold(&cases::any(&mut random), &mut met);
    }
    println!("{met:?}");
    for (name, _, refusals) in CALLS {
        for &number in refusals {
            assert!(
                met.contains_key(&(name, number)),
                "{name} was never refused {number}"
            );
        }
    }
}

/// Their readings are too many to list: the calls that go by counts.
#[test]
fn random_long_texts() {
    let mut random = Random::new(7);
    let mut uncounted = 0;
    for _ in 0..LONG_TEXTS {
        let mut case = cases::long(&mut random);
        assert_eq!(scan(&case), 0);
        if case.counts[case.text.len()] == u64::MAX {
            uncounted += 1;
            case.n = random.pick(&[0, u64::MAX]);
            assert_eq!((jump(&case), place(&case)), (22, 22));
        }
    }
    assert!(uncounted > 10, "{uncounted}");
}

pub fn build(case: &Case) -> u16 {
    let mut table = case.new_table.clone();
    let answer = orgamish::build(&case.map, &case.dict, &mut table);
    let expected = expected::build(&case.map, &case.dict, table.len());
    built(case, answer, expected, &case.new_table, &table)
}

fn widen(case: &Case) -> u16 {
    let mut table = case.new_table.clone();
    let answer = orgamish::widen(&case.map, &case.dict, &case.narrow, &mut table);
    let expected = expected::widen(&case.map, &case.dict, &case.narrow, table.len());
    built(case, answer, expected, &case.new_table, &table)
}

fn narrow(case: &Case) -> u16 {
    let mut narrow = case.new_narrow.clone();
    let answer = orgamish::narrow(&case.map, &case.dict, &case.table, &mut narrow);
    let expected = expected::narrow(&case.map, &case.dict, &case.table, narrow.len());
    built(case, answer, expected, &case.new_narrow, &narrow)
}

fn built(
    case: &Case,
    answer: Result<Built, Refused>,
    expected: Answer<expected::Built>,
    before: &[u16],
    after: &[u16],
) -> u16 {
    let table = expected.as_ref().map_or(&[][..], |built| &built.table);
    assert_eq!(over(table, before), after, "{case:?}");
    let answer = answer.map(|told| (told.words, told.states, told.longest_chain));
    same(case, answer, expected.map(|built| built.told))
}

fn scan(case: &Case) -> u16 {
    let (mut states, mut counts) = (case.new_states.clone(), case.new_counts.clone());
    let Case {
        map,
        dict,
        table,
        text,
        ..
    } = case;
    let answer = orgamish::scan(map, dict, table, text, &mut states, &mut counts);
    let expected = lent(case).scan(states.len(), counts.len());
    let (new_states, new_counts) = match &expected {
        Ok(scanned) => (&scanned.states[..], &scanned.counts[..]),
        Err(_) => (&[][..], &[][..]),
    };
    assert_eq!(over(new_states, &case.new_states), states, "{case:?}");
    assert_eq!(over(new_counts, &case.new_counts), counts, "{case:?}");
    let answer = answer.map(|told| (told.accepted, told.farthest, told.count, told.probes));
    same(case, answer, expected.map(|scanned| scanned.told))
}

fn first(case: &Case) -> u16 {
    let mut buffer = case.reading.clone();
    let Case {
        map,
        dict,
        table,
        text,
        states,
        counts,
        ..
    } = case;
    let answer = orgamish::first(map, dict, table, text, states, counts, &mut buffer);
    let listing = lent(case).columns(states, counts);
    let expected = listing.and_then(|listing| listing.first(buffer.len()));
    written(case, answer.map(Some), expected.map(Some), &buffer)
}

fn next(case: &Case) -> u16 {
    let mut buffer = case.reading.clone();
    let Case {
        map,
        dict,
        table,
        text,
        states,
        counts,
        given,
        ..
    } = case;
    let answer = orgamish::next(map, dict, table, text, states, counts, &mut buffer, *given);
    let listing = lent(case).columns(states, counts);
    let expected = listing.and_then(|listing| listing.next(&case.reading, *given));
    written(case, answer, expected, &buffer)
}

fn jump(case: &Case) -> u16 {
    let mut buffer = case.reading.clone();
    let Case {
        map,
        dict,
        table,
        text,
        states,
        counts,
        n,
        ..
    } = case;
    let answer = orgamish::jump(map, dict, table, text, states, counts, &mut buffer, *n);
    let listing = lent(case).columns(states, counts);
    let expected = listing.and_then(|listing| listing.jump(buffer.len(), *n));
    written(case, answer.map(Some), expected.map(Some), &buffer)
}

fn place(case: &Case) -> u16 {
    let Case {
        map,
        dict,
        table,
        text,
        states,
        counts,
        reading,
        given,
        ..
    } = case;
    let answer = orgamish::place(map, dict, table, text, states, counts, reading, *given);
    let listing = lent(case).columns(states, counts);
    same(
        case,
        answer,
        listing.and_then(|listing| listing.place(reading, *given)),
    )
}

fn lent(case: &Case) -> Scan<'_> {
    Scan {
        map: &case.map,
        dict: &case.dict,
        table: &case.table,
        text: &case.text,
    }
}

/// A reading is written over the buffer; none is for End.
fn written(
    case: &Case,
    answer: Result<Option<usize>, Refused>,
    expected: Answer<Option<Reading>>,
    after: &[u16],
) -> u16 {
    let reading = expected.clone().ok().flatten().unwrap_or_default();
    assert_eq!(over(&reading, &case.reading), after, "{case:?}");
    same(
        case,
        answer,
        expected.map(|reading| reading.map(|words| words.len())),
    )
}

/// What a call tells; gives the refusal's number.
fn same<T: PartialEq + Debug>(case: &Case, answer: Result<T, Refused>, expected: Answer<T>) -> u16 {
    let number = expected.as_ref().map_or_else(|(number, _)| *number, |_| 0);
    let answer = answer.map_err(|refused| (refused.refusal.number(), refused.place));
    assert_eq!(answer, expected, "{case:?}");
    number
}

/// The old numbers, from the first on exchanged for the new ones.
fn over<T: Copy>(new: &[T], old: &[T]) -> Vec<T> {
    [new, &old[new.len()..]].concat()
}
