//! A dictionary with its table.

use std::ops::Range;

use crate::calls::block_range;
use crate::{build, check_book, Block, Built, Refused};
use crate::{MAP_LENGTH, MOST_NUMBERS, WIDTH};

const WORD_MARK: [u8; 2] = [87, 68];
/// A word record's mark and length byte.
const WORD_HEAD: usize = 3;
/// A block record's mark and length bytes.
const BLOCK_HEAD: usize = 4;

/// A dictionary that was accepted, the map that its letters are compared by, and its table.
#[derive(Clone, Debug)]
pub struct Dictionary {
    map: [u8; MAP_LENGTH],
    records: Vec<u8>,
    table: Vec<u16>,
    built: Built,
    /// Where each word's letters stand in `records`.
    words: Vec<Range<usize>>,
}

impl Dictionary {
    /// From word records.
    pub fn new(map: &[u8; MAP_LENGTH], records: impl Into<Vec<u8>>) -> Result<Self, Refused> {
        let records = records.into();
        let mut table = vec![0; MOST_NUMBERS];
        let built = build(map, &records, &mut table)?;
        table.truncate(WIDTH * built.states);
        let words = words_in(&records);
        Ok(Dictionary {
            map: *map,
            records,
            table,
            built,
            words,
        })
    }

    /// From the words themselves.
    ///
    /// ```
    /// use orgamish::{identity, Dictionary};
    ///
    /// let mut map = identity();
    /// map[usize::from(b'b')] = b'a';
    /// let dictionary = Dictionary::from_words(&map, ["a", "aa"])?;
    /// assert_eq!(dictionary.scan(b"ab")?.count(), 2);
    /// # Ok::<(), orgamish::Refused>(())
    /// ```
    pub fn from_words<W: AsRef<[u8]>>(
        map: &[u8; MAP_LENGTH],
        words: impl IntoIterator<Item = W>,
    ) -> Result<Self, Refused> {
        let mut records = Vec::new();
        for word in words {
            let letters = word.as_ref();
            // a word over 255 letters is refused as one of 255 is
            let length = u8::try_from(letters.len()).unwrap_or(u8::MAX);
            records.extend(WORD_MARK);
            records.push(length);
            records.extend(letters);
        }
        Self::new(map, records)
    }

    /// From the word records that a book begins with. The whole book is checked.
    pub fn from_book(map: &[u8; MAP_LENGTH], book: &[u8]) -> Result<Self, Refused> {
        check_book(map, book)?;
        let first_text = block_range(map, book, 0);
        let end = first_text.map_or(book.len(), |text| text.start - BLOCK_HEAD);
        Self::new(map, &book[..end])
    }

    /// The numbers of words and states, and the longest chain.
    pub fn built(&self) -> Built {
        self.built
    }

    pub fn map(&self) -> &[u8; MAP_LENGTH] {
        &self.map
    }

    /// The word records.
    pub fn records(&self) -> &[u8] {
        &self.records
    }

    /// The table, [`WIDTH`] numbers a state.
    pub fn table(&self) -> &[u16] {
        &self.table
    }

    /// The bytes of a word, as its record has them; none where there is no word with the number.
    pub fn word(&self, number: u16) -> Option<&[u8]> {
        let letters = self.words.get(usize::from(number))?;
        Some(&self.records[letters.clone()])
    }

    /// The positions where the words of a reading end.
    ///
    /// # Panics
    ///
    /// Where the dictionary has no word with one of the numbers.
    pub fn ends(&self, reading: &[u16]) -> Vec<usize> {
        let mut end = 0;
        let end_after = |&number: &u16| {
            end += self.words[usize::from(number)].len();
            end
        };
        reading.iter().map(end_after).collect()
    }

    /// Reads a text.
    pub fn scan<'a>(&'a self, text: &'a [u8]) -> Result<Block<'a>, Refused> {
        Block::new(self, text)
    }
}

/// Where the letters of each word stand in records that were accepted.
fn words_in(records: &[u8]) -> Vec<Range<usize>> {
    let mut words = Vec::new();
    let mut at = 0;
    while at < records.len() {
        let letters = at + WORD_HEAD;
        at = letters + usize::from(records[letters - 1]);
        words.push(letters..at);
    }
    words
}
