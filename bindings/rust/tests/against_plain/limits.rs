//! Each limit from both sides, and counts that pass 64 bits.

use std::cmp::Ordering;

use orgamish::{identity, next, Block, Dictionary, Refusal, Refused, MOST_COUNTED};

use crate::calls::{self, Met};
use crate::cases::{self, records, Case};
use crate::plain::{self, Word};
use crate::random::Random;

/// A right case with the identity for a map.
fn case(words: &[Word], text: &[u8]) -> Case {
    cases::of(
        &mut Random::new(3),
        identity().to_vec(),
        words,
        text.to_vec(),
    )
}

/// The numbers of all refusals that the calls give.
fn refusals(case: &Case) -> Vec<u16> {
    let mut met = Met::new();
    calls::hold(case, &mut met);
    let mut numbers: Vec<u16> = met.into_keys().map(|(_, number)| number).collect();
    numbers.sort();
    numbers.dedup();
    numbers
}

#[test]
fn words_of_a_dictionary() {
    let mut words: Vec<Word> = (0..=255).map(|letter| vec![letter]).collect();
    let mut case = case(&words, b"");
    case.n = 0;
    assert_eq!(refusals(&case), [0]);
    words.push(b"ab".to_vec());
    case.dict = records(&words);
    assert_eq!(refusals(&case), [4]);
}

#[test]
fn letters_of_a_dictionary() {
    let mut words: Vec<Word> = (0..31).map(|n| [vec![n], vec![100; 63]].concat()).collect();
    words.push(vec![200; 63]);
    let mut case = case(&words, b"");
    assert_eq!(case.table.len() / 8, 2048);
    assert_eq!(calls::build(&case), 0);
    words.push(vec![201]);
    case.dict = records(&words);
    assert_eq!(calls::build(&case), 5);
}

#[test]
fn letters_of_a_word() {
    let mut case = case(&[vec![97; 64]], &[97; 64]);
    case.n = 0;
    assert_eq!(refusals(&case), [0]);
    case.dict = records(&[vec![97; 65]]);
    assert_eq!(refusals(&case), [2]);
}

#[test]
fn letters_of_a_text() {
    let mut case = case(&[b"a".to_vec()], &[97; 4096]);
    case.n = 0;
    assert_eq!(refusals(&case), [0]);
    case.text.push(97);
    assert_eq!(refusals(&case), [0, 9]);
}

fn refused<T>(refusal: Refusal) -> Result<T, Refused> {
    Err(Refused {
        refusal,
        place: None,
    })
}

#[test]
fn counts_up_to_the_greatest() {
    let words = [b"a".to_vec(), b"aa".to_vec()];
    let dictionary = Dictionary::from_words(&identity(), &words).unwrap();
    let block = dictionary.scan(&[97; 92]).unwrap();
    assert_eq!(block.count(), 12_200_160_415_121_876_738);
    assert_eq!(block.counts(), plain::count_column(&words, &[97; 92]));
    let mut random = Random::new(4);
    for _ in 0..500 {
        let n = random.number() % (block.count() - 1);
        hold_neighbours(&block, &words, n);
    }
    assert_eq!(
        block.reading(block.count()),
        refused(Refusal::NoSuchReading)
    );
}

/// Readings n and n + 1, by jump, place and next.
fn hold_neighbours(block: &Block, words: &[Word], n: u64) {
    let (reading, after) = (block.reading(n).unwrap(), block.reading(n + 1).unwrap());
    assert!(plain::is_reading(words, block.text(), &reading));
    assert_eq!(plain::order(words, &reading, &after), Ordering::Less);
    assert_eq!(block.place(&reading), Ok(n));
    let mut buffer = vec![0; block.text().len()];
    buffer[..reading.len()].copy_from_slice(&reading);
    let (dictionary, given) = (block.dictionary(), reading.len());
    let (map, dict, table) = (dictionary.map(), dictionary.records(), dictionary.table());
    let (text, states, counts) = (block.text(), block.states(), block.counts());
    let told = next(map, dict, table, text, states, counts, &mut buffer, given);
    assert_eq!(told, Ok(Some(after.len())));
    assert_eq!(buffer[..after.len()], after);
}

#[test]
fn the_greatest_count() {
    let words = [b"a".to_vec(), b"aa".to_vec()];
    let dictionary = Dictionary::from_words(&identity(), &words).unwrap();
    let block = dictionary.scan(&[97; 93]).unwrap();
    assert_eq!(block.count(), MOST_COUNTED);
    assert_eq!(block.reading(0), refused(Refusal::CountNotExact));
    assert_eq!(block.reading(MOST_COUNTED), refused(Refusal::CountNotExact));
    assert_eq!(block.place(&[]), refused(Refusal::CountNotExact));
    let some: Vec<_> = block.readings().take(500).collect();
    for pair in some.windows(2) {
        assert!(plain::is_reading(&words, block.text(), &pair[1]));
        assert_eq!(plain::order(&words, &pair[0], &pair[1]), Ordering::Less);
    }
}

/// A prefix has the greatest count, and the whole text one reading or none.
#[test]
fn the_greatest_count_aside() {
    let words = ["c", "ab", "abab", "ca", "ba", "bd"].map(|word| word.as_bytes().to_vec());
    let dictionary = Dictionary::from_words(&identity(), &words).unwrap();
    let text = format!("c{}d", "ab".repeat(100));
    let block = dictionary.scan(text.as_bytes()).unwrap();
    assert_eq!(block.counts()[text.len() - 1], MOST_COUNTED);
    assert_eq!(block.count(), 1);
    let only = [vec![3], vec![4; 99], vec![5]].concat();
    assert_eq!(Vec::from_iter(block.readings()), [&only[..]]);
    assert_eq!(block.reading(0), Ok(only.clone()));
    assert_eq!(block.place(&only), Ok(0));
    let text = format!("{text}d");
    let unread = dictionary.scan(text.as_bytes()).unwrap();
    assert_eq!(unread.count(), 0);
    assert_eq!(unread.reading(0), refused(Refusal::NoSuchReading));
}
