//! The calls, one for each of the header's. They take every input: see the header for what each
//! tells, writes and refuses, and in which order it tests. A refused call writes nothing, and what
//! lies past the numbers that a call writes stays as it was.
//!
//! What the header asks of a C caller holds by Rust's own rules: a pointer and its length are one
//! slice's, and never null; memory to be written is borrowed by the call alone.

use std::ops::Range;

use crate::ffi::{self, Told};
use crate::limits::{MAP_LENGTH, TOLD};
use crate::{Refusal, Refused};

/// A call of the archive: the slices that are read, those that are written, the numbers.
macro_rules! call {
    ($told:ident = $name:ident($($read:ident),*; $($written:ident),*; $($number:ident),*)) => {
        unsafe {
            ffi::$name(
                $($read.as_ptr(), $read.len(),)*
                $($written.as_mut_ptr(), $written.len(),)*
                $($number,)*
                $told,
            )
        }
    };
}

/// What `build`, `widen` and `narrow` tell.
#[derive(Clone, Copy, Debug, PartialEq, Eq)]
pub struct Built {
    pub words: usize,
    pub states: usize,
    /// How many words end at one place at most.
    pub longest_chain: usize,
}

/// What `scan` tells.
#[derive(Clone, Copy, Debug, PartialEq, Eq)]
pub struct Scanned {
    /// Whether the text is a concatenation of words.
    pub accepted: bool,
    /// The length of the longest prefix that some concatenation of words begins with.
    pub farthest: usize,
    /// The number of readings, [`MOST_COUNTED`](crate::MOST_COUNTED) for that many or more.
    pub count: u64,
    /// How many words end in the text, each as often as it does.
    pub probes: u64,
}

/// What `check_book` tells.
#[derive(Clone, Copy, Debug, PartialEq, Eq)]
pub struct Contents {
    pub words: usize,
    pub blocks: usize,
}

/// The map that sends each byte to itself.
pub fn identity() -> [u8; MAP_LENGTH] {
    let mut map = [0; MAP_LENGTH];
    unsafe { ffi::orgamish_identity(&mut map) };
    map
}

/// Writes the dictionary's table, eight numbers a state.
pub fn build(map: &[u8], dict: &[u8], table: &mut [u16]) -> Result<Built, Refused> {
    let told = ask(
        of_word,
        |told| call!(told = orgamish_build(map, dict; table; )),
    )?;
    Ok(built(told))
}

/// Writes a narrow table, of seven numbers a state, with eight.
pub fn widen(map: &[u8], dict: &[u8], narrow: &[u16], table: &mut [u16]) -> Result<Built, Refused> {
    let told = ask(
        of_word,
        |told| call!(told = orgamish_widen(map, dict, narrow; table; )),
    )?;
    Ok(built(told))
}

/// Writes a table with seven numbers a state.
pub fn narrow(
    map: &[u8],
    dict: &[u8],
    table: &[u16],
    narrow: &mut [u16],
) -> Result<Built, Refused> {
    let told = ask(
        of_word,
        |told| call!(told = orgamish_narrow(map, dict, table; narrow; )),
    )?;
    Ok(built(told))
}

/// Writes the state and the count of each position of a text.
pub fn scan(
    map: &[u8],
    dict: &[u8],
    table: &[u16],
    text: &[u8],
    states: &mut [u16],
    counts: &mut [u64],
) -> Result<Scanned, Refused> {
    let told = ask(
        of_word,
        |told| call!(told = orgamish_scan(map, dict, table, text; states, counts; )),
    )?;
    let [accepted, farthest, count, probes] = told;
    Ok(Scanned {
        accepted: accepted == 1,
        farthest: farthest as usize,
        count,
        probes,
    })
}

/// Writes the first reading and tells the number of its words.
pub fn first(
    map: &[u8],
    dict: &[u8],
    table: &[u16],
    text: &[u8],
    states: &[u16],
    counts: &[u64],
    reading: &mut [u16],
) -> Result<usize, Refused> {
    let told = ask(
        of_word,
        |told| call!(told = orgamish_first(map, dict, table, text, states, counts; reading; )),
    )?;
    Ok(told[1] as usize)
}

/// Writes the reading after the one that the first `given` entries are, over it, and tells the
/// number of its words; none where the given one is the last.
#[allow(clippy::too_many_arguments)]
pub fn next(
    map: &[u8],
    dict: &[u8],
    table: &[u16],
    text: &[u8],
    states: &[u16],
    counts: &[u64],
    reading: &mut [u16],
    given: usize,
) -> Result<Option<usize>, Refused> {
    let told = ask(
        of_word,
        |told| call!(told = orgamish_next(map, dict, table, text, states, counts; reading; given)),
    )?;
    let [readings, words, ..] = told;
    Ok((readings == 1).then_some(words as usize))
}

/// Writes reading `n`, counted from 0 in the order of [`first`] and [`next`], and tells the number of
/// its words.
#[allow(clippy::too_many_arguments)]
pub fn jump(
    map: &[u8],
    dict: &[u8],
    table: &[u16],
    text: &[u8],
    states: &[u16],
    counts: &[u64],
    reading: &mut [u16],
    n: u64,
) -> Result<usize, Refused> {
    let told = ask(
        of_word,
        |told| call!(told = orgamish_jump(map, dict, table, text, states, counts; reading; n)),
    )?;
    Ok(told[1] as usize)
}

/// Tells the number of the reading that the first `given` entries are.
#[allow(clippy::too_many_arguments)]
pub fn place(
    map: &[u8],
    dict: &[u8],
    table: &[u16],
    text: &[u8],
    states: &[u16],
    counts: &[u64],
    reading: &[u16],
    given: usize,
) -> Result<u64, Refused> {
    let told = ask(
        of_word,
        |told| call!(told = orgamish_place(map, dict, table, text, states, counts, reading; ; given)),
    )?;
    Ok(told[0])
}

/// Tells how many words and blocks a book has.
pub fn check_book(map: &[u8], book: &[u8]) -> Result<Contents, Refused> {
    let told = ask(
        of_record,
        |told| call!(told = orgamish_check_book(map, book; ; )),
    )?;
    let [words, blocks, ..] = told;
    Ok(Contents {
        words: words as usize,
        blocks: blocks as usize,
    })
}

/// The text of block `n`, a part of the book; none where there is no such block, or the book or the
/// map is refused.
pub fn block<'book>(map: &[u8], book: &'book [u8], n: usize) -> Option<&'book [u8]> {
    block_range(map, book, n).map(|range| &book[range])
}

/// Where the text of block `n` stands in the book.
pub(crate) fn block_range(map: &[u8], book: &[u8], n: usize) -> Option<Range<usize>> {
    let mut numbers = [0; TOLD];
    let told = &mut numbers;
    call!(told = orgamish_block(map, book;; n));
    let [_, offset, length, ..] = numbers.map(|number| number as usize);
    // a block's mark stands before its text, so offset 0 tells that there is none
    (offset != 0).then_some(offset..offset + length)
}

/// The four values that a call tells, or its refusal. `of_record` says which of the call's refusals
/// have a record's number for their place.
fn ask(
    of_record: fn(Refusal) -> bool,
    call: impl FnOnce(&mut Told) -> u16,
) -> Result<[u64; 4], Refused> {
    let mut told = [0; TOLD];
    let number = call(&mut told);
    let [place, values @ ..] = told;
    if number == 0 {
        return Ok(values);
    }
    let refusal = Refusal::from_number(number).expect("a refusal that the header names");
    Err(Refused {
        refusal,
        place: of_record(refusal).then_some(place as usize),
    })
}

/// In a dictionary.
fn of_word(refusal: Refusal) -> bool {
    refusal.number() <= Refusal::RepeatedWord.number()
}

/// In a book.
fn of_record(refusal: Refusal) -> bool {
    of_word(refusal) || matches!(refusal, Refusal::TextTooLong | Refusal::BadBlock)
}

fn built([words, states, longest_chain, _]: [u64; 4]) -> Built {
    Built {
        words: words as usize,
        states: states as usize,
        longest_chain: longest_chain as usize,
    }
}
