//! Dictionaries, blocks and their readings.

use std::thread;

use orgamish::{Block, Dictionary, Refusal};

use crate::calls::{self, Met};
use crate::cases::{self, Case};
use crate::expected;
use crate::plain::{self, mapped, Word};
use crate::random::Random;

const CASES: usize = 2000;
const THREADS: usize = 4;

fn dictionary(case: &Case) -> Dictionary {
    let map = case.map[..].try_into().expect("a map of a right case");
    Dictionary::new(map, &case.dict[..]).expect("a dictionary of a right case")
}

#[test]
fn random_blocks() {
    let mut random = Random::new(5);
    for _ in 0..CASES {
        let case = cases::right(&mut random);
        let words = expected::dictionary(&case.map, &case.dict).unwrap();
        let dictionary = dictionary(&case);
        assert_eq!(dictionary.table(), plain::table(&words, 8));
        assert_eq!(dictionary.built().words, words.len());
        hold_words(&dictionary, &words);
        hold_block(&dictionary.scan(&case.text).unwrap(), &words);
    }
}

fn hold_words(dictionary: &Dictionary, words: &[Word]) {
    let bytes: Vec<&[u8]> = (0..).map_while(|number| dictionary.word(number)).collect();
    let letters: Vec<Word> = bytes
        .iter()
        .map(|word| mapped(dictionary.map(), word))
        .collect();
    assert_eq!(letters, words);
    let same = Dictionary::from_words(dictionary.map(), bytes).unwrap();
    assert_eq!(same.records(), dictionary.records());
}

fn hold_block(block: &Block, words: &[Word]) {
    let text = mapped(block.dictionary().map(), block.text());
    let readings = plain::readings(words, &text);
    assert_eq!(block.states(), plain::state_column(words, &text));
    assert_eq!(block.counts(), plain::count_column(words, &text));
    assert_eq!(block.accepted(), !readings.is_empty());
    assert_eq!(block.farthest(), plain::farthest(words, &text));
    assert_eq!(block.count(), readings.len() as u64);
    assert_eq!(block.probes(), plain::probes(words, &text));
    assert_eq!(Vec::from_iter(block.readings()), readings);
    for (n, reading) in readings.iter().enumerate() {
        assert_eq!(block.reading(n as u64).as_ref(), Ok(reading));
        assert_eq!(block.place(reading), Ok(n as u64));
        hold_ends(block, reading);
    }
}

/// The parts of the text between the ends are the words.
fn hold_ends(block: &Block, reading: &[u16]) {
    let dictionary = block.dictionary();
    let mut start = 0;
    for (&number, end) in reading.iter().zip(dictionary.ends(reading)) {
        let word = dictionary.word(number).unwrap();
        let part = &block.text()[start..end];
        assert_eq!(
            mapped(dictionary.map(), part),
            mapped(dictionary.map(), word)
        );
        start = end;
    }
    assert_eq!(start, block.text().len());
}

#[test]
fn refused_words_and_texts() {
    let map = orgamish::identity();
    let refusal = |words: &[&[u8]]| Dictionary::from_words(&map, words).unwrap_err();
    assert_eq!(
        refusal(&[b"a", b""]).to_string(),
        "record 1: a word has 1 to 64 letters"
    );
    assert_eq!(refusal(&[&[97; 65]]).refusal, Refusal::BadWordLength);
    assert_eq!(refusal(&[&[97; 257]]).refusal, Refusal::BadWordLength);
    assert_eq!(
        refusal(&[b"b", b"a", b"a"]).to_string(),
        "record 2: the word equals an earlier one"
    );
    let dictionary = Dictionary::from_words(&map, ["a"]).unwrap();
    let too_long = dictionary.scan(&[97; 4097]).unwrap_err();
    assert_eq!(too_long.to_string(), "a text has at most 4,096 letters");
}

/// Every thread makes every call, and lists the readings of one block that all share.
#[test]
fn threads_get_the_same_answers() {
    let words = [b"a".to_vec(), b"aa".to_vec(), b"aaa".to_vec()];
    let dictionary = Dictionary::from_words(&orgamish::identity(), &words).unwrap();
    let block = dictionary.scan(&[97; 12]).unwrap();
    let work = || {
        let mut random = Random::new(6);
        let mut met = Met::new();
        for _ in 0..500 {
            calls::hold(&cases::any(&mut random), &mut met);
        }
        hold_block(&block, &words);
    };
    thread::scope(|scope| {
        for _ in 0..THREADS {
            scope.spawn(work);
        }
    });
}
