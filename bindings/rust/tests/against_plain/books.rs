//! The check of a book, its blocks, and the dictionary that it begins with.

use std::collections::BTreeSet;

use orgamish::{Contents, Dictionary};

use crate::cases::{self, cut, flip};
use crate::expected::{self, Answer, Book};
use crate::random::Random;

const BOOKS: usize = 10_000;

#[test]
fn random_books() {
    let mut random = Random::new(2);
    let mut met = BTreeSet::new();
    for _ in 0..BOOKS {
        let (map, book) = any(&mut random);
        met.insert(hold(&map, &book));
    }
    assert_eq!(Vec::from_iter(met), [0, 1, 2, 3, 6, 9, 15, 18]);
}

#[test]
fn limits() {
    let map = orgamish::identity();
    let longest_block = [&[84, 66, 0, 16][..], &[97; 4096]].concat();
    let last_block = [&[84, 66, 192, 15][..], &[97; 4032]].concat();
    let full = [longest_block.repeat(15), last_block].concat();
    let longer = [&full[..], &[84]].concat();
    assert_eq!(full.len(), 65536);
    assert_eq!(hold(&map, &full), 0);
    assert_eq!(hold(&map, &longer), 16);
    assert_eq!(hold(&map, &[0; 65537]), 16);
    assert_eq!(hold(&map[1..], &longer), 18);
    let block_of_4097 = [&[84, 66, 1, 16][..], &[97; 4097]].concat();
    assert_eq!(hold(&map, &block_of_4097), 9);
}

/// Holds every answer on a book to what is expected; gives the refusal's number.
fn hold(map: &[u8], bytes: &[u8]) -> u16 {
    let expected = expected::book(map, bytes);
    let contents = |book: &Book| Contents {
        words: book.words.len(),
        blocks: book.blocks.len(),
    };
    let answer = orgamish::check_book(map, bytes);
    assert_eq!(
        answer.map_err(|refused| (refused.refusal.number(), refused.place)),
        expected.as_ref().map(contents).map_err(|refusal| *refusal),
        "{map:?} {bytes:?}"
    );
    hold_blocks(map, bytes, &expected);
    if let Ok(map) = map.try_into() {
        hold_dictionary(map, bytes, &expected);
    }
    expected.map_or_else(|(number, _)| number, |_| 0)
}

fn hold_blocks(map: &[u8], bytes: &[u8], expected: &Answer<Book>) {
    let blocks = expected.as_ref().map_or(&[][..], |book| &book.blocks);
    for n in (0..blocks.len() + 2).chain([usize::MAX]) {
        let text = orgamish::block(map, bytes, n).map(<[u8]>::as_ptr_range);
        let part = blocks.get(n).map(|part| bytes[part.clone()].as_ptr_range());
        assert_eq!(text, part, "block {n} of {bytes:?}");
    }
}

fn hold_dictionary(map: &[u8; 256], bytes: &[u8], expected: &Answer<Book>) {
    let answer = Dictionary::from_book(map, bytes);
    let records = answer.as_ref().map(Dictionary::records);
    assert_eq!(
        records.map_err(|refused| (refused.refusal.number(), refused.place)),
        expected
            .as_ref()
            .map(|book| &bytes[..book.word_part])
            .map_err(|refusal| *refusal)
    );
}

/// A map and a book, right or damaged.
fn any(random: &mut Random) -> (Vec<u8>, Vec<u8>) {
    let case = cases::right(random);
    let (mut map, mut book) = (case.map, case.dict);
    for _ in 0..random.below(5) {
        let length = random.below(6) as u8;
        book.extend([84, 66, length, 0]);
        book.extend(random.list(length.into(), Random::byte));
    }
    for _ in 0..random.pick(&[0, 0, 1, 1, 1, 2]) {
        match random.below(5) {
            0 => cut(random, &mut book),
            1 => book.extend_from_within(..),
            2 => map.resize(random.pick(&[0, 255, 256, 257]), 0),
            _ => flip(random, &mut book),
        }
    }
    (map, book)
}
