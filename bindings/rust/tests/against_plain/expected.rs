//! What each call has to tell and write, and the order in which it refuses: document 01's.

use std::ops::Range;

use crate::plain::{self, mapped, Reading, Word};

/// A refusal's number, and the bad record's where there is one.
pub type Refusal = (u16, Option<usize>);
pub type Answer<T> = Result<T, Refusal>;

const WIDE: usize = 8;
const NARROW: usize = 7;

pub struct Built {
    /// Words, states, the longest chain.
    pub told: (usize, usize, usize),
    pub table: Vec<u16>,
}

pub struct Scanned {
    /// Accepted, farthest, the count, the probes.
    pub told: (bool, usize, u64, u64),
    pub states: Vec<u16>,
    pub counts: Vec<u64>,
}

pub struct Book {
    pub words: Vec<Word>,
    /// The bytes before the first block record.
    pub word_part: usize,
    /// Where each text stands.
    pub blocks: Vec<Range<usize>>,
}

fn refuse<T>(number: u16) -> Answer<T> {
    Err((number, None))
}

fn refuse_if(bad: bool, number: u16) -> Answer<()> {
    if bad {
        return refuse(number);
    }
    Ok(())
}

pub fn dictionary(map: &[u8], bytes: &[u8]) -> Answer<Vec<Word>> {
    refuse_if(map.len() != 256, 18)?;
    let (words, _) = word_records(map, bytes, |_| false)?;
    Ok(words)
}

pub fn book(map: &[u8], bytes: &[u8]) -> Answer<Book> {
    refuse_if(map.len() != 256, 18)?;
    refuse_if(bytes.len() > 65536, 16)?;
    let (words, word_part) = word_records(map, bytes, |rest| rest.starts_with(&[84, 66]))?;
    let mut blocks: Vec<Range<usize>> = Vec::new();
    let mut at = word_part;
    while at < bytes.len() {
        let record = words.len() + blocks.len();
        let length = block_record(&bytes[at..]).map_err(|number| (number, Some(record)))?;
        blocks.push(at + 4..at + 4 + length);
        at += 4 + length;
    }
    Ok(Book {
        words,
        word_part,
        blocks,
    })
}

/// The words, and the offset after them.
fn word_records(
    map: &[u8],
    bytes: &[u8],
    ends_words: fn(&[u8]) -> bool,
) -> Answer<(Vec<Word>, usize)> {
    let mut words: Vec<Word> = Vec::new();
    let mut at = 0;
    while at < bytes.len() && !ends_words(&bytes[at..]) {
        let here = Some(words.len());
        let letters = word_record(&bytes[at..]).map_err(|number| (number, here))?;
        let word = mapped(map, letters);
        joins(&words, &word).map_err(|number| (number, here))?;
        at += 3 + word.len();
        words.push(word);
    }
    Ok((words, at))
}

/// The letters of the record that the bytes begin with.
fn word_record(bytes: &[u8]) -> Result<&[u8], u16> {
    let rest = bytes.strip_prefix(&[87, 68]).ok_or(1u16)?;
    let (&length, rest) = rest.split_first().ok_or(3u16)?;
    if length == 0 || length > 64 {
        return Err(2);
    }
    rest.get(..usize::from(length)).ok_or(3)
}

/// Whether a word may stand after the words before it.
fn joins(before: &[Word], word: &Word) -> Result<(), u16> {
    let letters: usize = before.iter().map(Vec::len).sum();
    if before.len() == 256 {
        Err(4)
    } else if letters + word.len() > 2047 {
        Err(5)
    } else if before.contains(word) {
        Err(6)
    } else {
        Ok(())
    }
}

/// The length of the text whose record the bytes begin with.
fn block_record(bytes: &[u8]) -> Result<usize, u16> {
    let [84, 66, low, high, text @ ..] = bytes else {
        return Err(15);
    };
    let length = usize::from(u16::from_le_bytes([*low, *high]));
    if length > 4096 {
        Err(9)
    } else if text.len() < length {
        Err(15)
    } else {
        Ok(length)
    }
}

pub fn build(map: &[u8], dict: &[u8], room: usize) -> Answer<Built> {
    let words = dictionary(map, dict)?;
    written(&words, WIDE, room)
}

pub fn widen(map: &[u8], dict: &[u8], narrow: &[u16], room: usize) -> Answer<Built> {
    let words = dictionary(map, dict)?;
    judge_table(&words, NARROW, narrow)?;
    written(&words, WIDE, room)
}

pub fn narrow(map: &[u8], dict: &[u8], table: &[u16], room: usize) -> Answer<Built> {
    let words = dictionary(map, dict)?;
    judge_table(&words, WIDE, table)?;
    written(&words, NARROW, room)
}

fn written(words: &[Word], width: usize, room: usize) -> Answer<Built> {
    let table = plain::table(words, width);
    refuse_if(room < table.len(), 7)?;
    let states = plain::states(words).len();
    Ok(Built {
        told: (words.len(), states, plain::longest_chain(words)),
        table,
    })
}

fn judge_table(words: &[Word], width: usize, lent: &[u16]) -> Answer<()> {
    let table = plain::table(words, width);
    refuse_if(lent.len() < table.len(), 7)?;
    refuse_if(!lent.starts_with(&table), 8)
}

/// What scan, and all calls on readings, are lent first.
pub struct Scan<'a> {
    pub map: &'a [u8],
    pub dict: &'a [u8],
    pub table: &'a [u16],
    pub text: &'a [u8],
}

impl Scan<'_> {
    /// 18 to 10: the words, and the text's letters.
    fn opened(&self, states_room: usize, counts_room: usize) -> Answer<(Vec<Word>, Word)> {
        let words = dictionary(self.map, self.dict)?;
        judge_table(&words, WIDE, self.table)?;
        refuse_if(self.text.len() > 4096, 9)?;
        refuse_if(
            states_room <= self.text.len() || counts_room <= self.text.len(),
            10,
        )?;
        Ok((words, mapped(self.map, self.text)))
    }

    pub fn scan(&self, states_room: usize, counts_room: usize) -> Answer<Scanned> {
        let (words, text) = self.opened(states_room, counts_room)?;
        let states = plain::state_column(&words, &text);
        let counts = plain::count_column(&words, &text);
        let count = counts[text.len()];
        let farthest = plain::farthest(&words, &text);
        let told = (count != 0, farthest, count, plain::probes(&words, &text));
        Ok(Scanned {
            told,
            states,
            counts,
        })
    }

    /// 18 to 11.
    pub fn columns(&self, states: &[u16], counts: &[u64]) -> Answer<Listing> {
        let (words, text) = self.opened(states.len(), counts.len())?;
        refuse_if(!states.starts_with(&plain::state_column(&words, &text)), 11)?;
        refuse_if(!counts.starts_with(&plain::count_column(&words, &text)), 11)?;
        Ok(Listing { words, text })
    }
}

/// A text that is to be read, its memory judged.
pub struct Listing {
    words: Vec<Word>,
    text: Word,
}

impl Listing {
    fn readings(&self) -> Vec<Reading> {
        plain::readings(&self.words, &self.text)
    }

    pub fn first(&self, room: usize) -> Answer<Reading> {
        let first = self.readings().into_iter().next();
        first.map_or(refuse(12), |first| fitting(first, room))
    }

    /// None is End.
    pub fn next(&self, buffer: &[u16], given: usize) -> Answer<Option<Reading>> {
        let given = self.given(buffer, given)?;
        let mut after = self
            .readings()
            .into_iter()
            .skip_while(|reading| reading != given);
        let next = after.nth(1);
        next.map(|next| fitting(next, buffer.len())).transpose()
    }

    pub fn jump(&self, room: usize, n: u64) -> Answer<Reading> {
        self.count_is_exact()?;
        let reading = self.readings().into_iter().nth(n as usize);
        reading.map_or(refuse(21), |reading| fitting(reading, room))
    }

    pub fn place(&self, buffer: &[u16], given: usize) -> Answer<u64> {
        self.count_is_exact()?;
        let given = self.given(buffer, given)?;
        let place = self
            .readings()
            .into_iter()
            .position(|reading| reading == given);
        Ok(place.expect("a reading is among the readings") as u64)
    }

    fn count_is_exact(&self) -> Answer<()> {
        let counts = plain::count_column(&self.words, &self.text);
        refuse_if(counts[self.text.len()] == u64::MAX, 22)
    }

    fn given<'a>(&self, buffer: &'a [u16], given: usize) -> Answer<&'a [u16]> {
        match buffer.get(..given) {
            Some(given) if plain::is_reading(&self.words, &self.text, given) => Ok(given),
            _ => refuse(13),
        }
    }
}

fn fitting(reading: Reading, room: usize) -> Answer<Reading> {
    refuse_if(reading.len() > room, 14)?;
    Ok(reading)
}
