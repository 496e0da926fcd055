//! Random cases: all that the calls are lent, right or damaged. Small alphabets and short words, so
//! that texts have many readings.

use std::ops::BitXorAssign;

use crate::plain::{self, mapped, Word};
use crate::random::Random;

#[derive(Clone, Debug)]
pub struct Case {
    pub map: Vec<u8>,
    pub dict: Vec<u8>,
    pub table: Vec<u16>,
    pub narrow: Vec<u16>,
    pub text: Vec<u8>,
    pub states: Vec<u16>,
    pub counts: Vec<u64>,
    pub reading: Vec<u16>,
    pub given: usize,
    pub n: u64,
    /// Memory to write to, full of other numbers.
    pub new_table: Vec<u16>,
    pub new_narrow: Vec<u16>,
    pub new_states: Vec<u16>,
    pub new_counts: Vec<u64>,
}

/// Among them the bytes of marks and lengths.
const ALPHABETS: [[u8; 3]; 4] = [*b"abc", [87, 68, 1], [84, 66, 2], [0, 1, 255]];
const MOST_READINGS: u64 = 200;

/// Right, or damaged in up to three ways.
pub fn any(random: &mut Random) -> Case {
    let mut case = right(random);
    for _ in 0..random.pick(&[0, 0, 1, 1, 1, 2, 3]) {
        damage(random, &mut case);
    }
    case
}

pub fn right(random: &mut Random) -> Case {
    let (map, words, mut text) = lent(random, 9);
    let counts = plain::count_column(&all_mapped(&map, &words), &mapped(&map, &text));
    let listable = counts.iter().take_while(|&&count| count <= MOST_READINGS);
    text.truncate(listable.count() - 1);
    of(random, map, &words, text)
}

/// Right, with a text that may have too many readings to list, or to count.
pub fn long(random: &mut Random) -> Case {
    let (map, words, text) = lent(random, 300);
    of(random, map, &words, text)
}

/// A map, words, and a text of fewer words than `most`.
fn lent(random: &mut Random, most: usize) -> (Vec<u8>, Vec<Word>, Vec<u8>) {
    let alphabet = random.pick(&ALPHABETS);
    let map = map(random, &alphabet);
    let words = words(random, &map, &alphabet);
    let length = random.below(most);
    let text = text(random, &alphabet, &words, length);
    (map, words, text)
}

/// The right case of words and a text; one of the text's readings is given, unless they are many.
pub fn of(random: &mut Random, map: Vec<u8>, words: &[Word], text: Vec<u8>) -> Case {
    let letters = all_mapped(&map, words);
    let read = mapped(&map, &text);
    let counts = plain::count_column(&letters, &read);
    let readings = if counts.iter().all(|&count| count <= MOST_READINGS) {
        plain::readings(&letters, &read)
    } else {
        Vec::new()
    };
    let given = match readings.len() {
        0 => Vec::new(),
        count => readings[random.below(count)].clone(),
    };
    let states = plain::states(&letters).len();
    Case {
        dict: records(words),
        table: with_more(random, plain::table(&letters, 8)),
        narrow: with_more(random, plain::table(&letters, 7)),
        states: with_more(random, plain::state_column(&letters, &read)),
        counts: with_more(random, counts),
        given: given.len(),
        reading: with_more(random, given),
        n: random.below(readings.len() + 1) as u64,
        new_table: other(random, 8 * states),
        new_narrow: other(random, 7 * states),
        new_states: other(random, text.len() + 1),
        new_counts: other(random, text.len() + 1),
        map,
        text,
    }
}

fn map(random: &mut Random, alphabet: &[u8]) -> Vec<u8> {
    let identity: Vec<u8> = (0..=255).collect();
    match random.below(4) {
        0 => identity,
        1 => merged(identity, alphabet),
        2 => random.list(256, |random| random.pick(&[0, 7, 255])),
        _ => random.list(256, Random::byte),
    }
}

/// Two letters of the alphabet are the same.
fn merged(mut map: Vec<u8>, alphabet: &[u8]) -> Vec<u8> {
    map[usize::from(alphabet[1])] = alphabet[0];
    map
}

/// No two alike under the map.
fn words(random: &mut Random, map: &[u8], alphabet: &[u8]) -> Vec<Word> {
    let mut words: Vec<Word> = Vec::new();
    for _ in 0..random.below(8) {
        let length = 1 + random.below(4);
        let word = random.list(length, |random| random.pick(alphabet));
        if words
            .iter()
            .all(|other| mapped(map, other) != mapped(map, &word))
        {
            words.push(word);
        }
    }
    words
}

/// Mostly so many words, joined; else so many letters.
fn text(random: &mut Random, alphabet: &[u8], words: &[Word], length: usize) -> Vec<u8> {
    if words.is_empty() || random.percent(25) {
        return random.list(length, |random| random.pick(alphabet));
    }
    random
        .list(length, |random| words[random.below(words.len())].clone())
        .concat()
}

fn all_mapped(map: &[u8], words: &[Word]) -> Vec<Word> {
    words.iter().map(|word| mapped(map, word)).collect()
}

pub fn records(words: &[Word]) -> Vec<u8> {
    let record = |word: &Word| [&[87, 68, word.len() as u8], word.as_slice()].concat();
    words.iter().flat_map(record).collect()
}

fn with_more<T: From<u8>>(random: &mut Random, mut numbers: Vec<T>) -> Vec<T> {
    let more = random.below(4);
    numbers.extend(random.list(more, |random| T::from(random.byte())));
    numbers
}

fn other<T: From<u8>>(random: &mut Random, length: usize) -> Vec<T> {
    let numbers = random.list(length, |random| T::from(random.byte()));
    with_more(random, numbers)
}

fn damage(random: &mut Random, case: &mut Case) {
    match random.below(20) {
        0 => case.map.resize(random.pick(&[0, 255, 257]), 0),
        1 => flip(random, &mut case.dict),
        2 => cut(random, &mut case.dict),
        3 => case.dict.extend_from_within(..),
        4 => case
            .dict
            .extend(random.pick(&[[84, 66, 0, 0], [87, 68, 65, 0], [87, 68, 1, 3]])),
        5 => flip(random, &mut case.table),
        6 => cut(random, &mut case.table),
        7 => flip(random, &mut case.narrow),
        8 => cut(random, &mut case.narrow),
        9 => flip(random, &mut case.text),
        10 => case.text.resize(random.pick(&[0, 4096, 4097]), b'a'),
        11 => flip(random, &mut case.states),
        12 => flip(random, &mut case.counts),
        13 => cut(random, &mut case.states),
        14 => cut(random, &mut case.counts),
        15 => flip(random, &mut case.reading),
        16 => cut(random, &mut case.reading),
        17 => case.given = random.pick(&[0, case.given + 1, usize::MAX]),
        18 => case.n = random.number(),
        _ => cut_new(random, case),
    }
}

fn cut_new(random: &mut Random, case: &mut Case) {
    match random.below(4) {
        0 => cut(random, &mut case.new_table),
        1 => cut(random, &mut case.new_narrow),
        2 => cut(random, &mut case.new_states),
        _ => cut(random, &mut case.new_counts),
    }
}

/// One bit of one number.
pub fn flip<T: BitXorAssign + From<u8>>(random: &mut Random, numbers: &mut [T]) {
    if !numbers.is_empty() {
        let at = random.below(numbers.len());
        numbers[at] ^= T::from(1 << random.below(8));
    }
}

pub fn cut<T>(random: &mut Random, numbers: &mut Vec<T>) {
    let left = numbers.len().saturating_sub(1 + random.below(4));
    numbers.truncate(left);
}
