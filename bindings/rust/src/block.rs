//! A text that was scanned, and its readings.

use std::iter::FusedIterator;

use crate::LONGEST_TEXT;
use crate::{first, jump, next, place, scan, Dictionary, Refusal, Refused, Scanned};

/// A text, the dictionary that it is read by, and its columns.
#[derive(Clone, Debug)]
pub struct Block<'a> {
    dictionary: &'a Dictionary,
    text: &'a [u8],
    states: Vec<u16>,
    counts: Vec<u64>,
    scanned: Scanned,
}

impl<'a> Block<'a> {
    pub(crate) fn new(dictionary: &'a Dictionary, text: &'a [u8]) -> Result<Self, Refused> {
        // a longer text is refused, and needs no longer columns for that
        let entries = text.len().min(LONGEST_TEXT) + 1;
        let (mut states, mut counts) = (vec![0; entries], vec![0; entries]);
        let scanned = scan(
            dictionary.map(),
            dictionary.records(),
            dictionary.table(),
            text,
            &mut states,
            &mut counts,
        )?;
        Ok(Block {
            dictionary,
            text,
            states,
            counts,
            scanned,
        })
    }

    pub fn dictionary(&self) -> &'a Dictionary {
        self.dictionary
    }

    pub fn text(&self) -> &'a [u8] {
        self.text
    }

    /// Whether the text is a concatenation of words.
    pub fn accepted(&self) -> bool {
        self.scanned.accepted
    }

    /// The length of the longest prefix that some concatenation of words begins with.
    pub fn farthest(&self) -> usize {
        self.scanned.farthest
    }

    /// The number of readings, [`MOST_COUNTED`](crate::MOST_COUNTED) for that many or more.
    pub fn count(&self) -> u64 {
        self.scanned.count
    }

    /// How many words end in the text, each as often as it does.
    pub fn probes(&self) -> u64 {
        self.scanned.probes
    }

    /// The state of each position.
    pub fn states(&self) -> &[u16] {
        &self.states
    }

    /// The count of each position.
    pub fn counts(&self) -> &[u64] {
        &self.counts
    }

    /// All readings, in order.
    pub fn readings(&self) -> Readings<'_> {
        Readings {
            block: self,
            buffer: self.buffer(),
            stage: Stage::Start,
        }
    }

    /// Reading `n` of [`readings`](Block::readings), counted from 0.
    pub fn reading(&self, n: u64) -> Result<Vec<u16>, Refused> {
        let (dictionary, mut buffer) = (self.dictionary, self.buffer());
        let words = jump(
            dictionary.map(),
            dictionary.records(),
            dictionary.table(),
            self.text,
            &self.states,
            &self.counts,
            &mut buffer,
            n,
        )?;
        buffer.truncate(words);
        Ok(buffer)
    }

    /// The number of a reading, counted from 0.
    pub fn place(&self, reading: &[u16]) -> Result<u64, Refused> {
        place(
            self.dictionary.map(),
            self.dictionary.records(),
            self.dictionary.table(),
            self.text,
            &self.states,
            &self.counts,
            reading,
            reading.len(),
        )
    }

    fn first(&self, buffer: &mut [u16]) -> Result<usize, Refused> {
        first(
            self.dictionary.map(),
            self.dictionary.records(),
            self.dictionary.table(),
            self.text,
            &self.states,
            &self.counts,
            buffer,
        )
    }

    fn next(&self, buffer: &mut [u16], given: usize) -> Result<Option<usize>, Refused> {
        next(
            self.dictionary.map(),
            self.dictionary.records(),
            self.dictionary.table(),
            self.text,
            &self.states,
            &self.counts,
            buffer,
            given,
        )
    }

    /// Room for any reading: no word is empty.
    fn buffer(&self) -> Vec<u16> {
        vec![0; self.text.len()]
    }
}

/// The readings of a block, each as its word numbers, in order.
#[derive(Clone, Debug)]
pub struct Readings<'a> {
    block: &'a Block<'a>,
    buffer: Vec<u16>,
    stage: Stage,
}

#[derive(Clone, Copy, Debug)]
enum Stage {
    Start,
    /// The buffer begins with a reading of so many words.
    After(usize),
    End,
}

impl Readings<'_> {
    /// Puts the next reading into the buffer and tells the number of its words.
    fn advance(&mut self) -> Result<Option<usize>, Refused> {
        match self.stage {
            Stage::Start => match self.block.first(&mut self.buffer) {
                Err(Refused {
                    refusal: Refusal::NoReading,
                    ..
                }) => Ok(None),
                first => first.map(Some),
            },
            Stage::After(words) => self.block.next(&mut self.buffer, words),
            Stage::End => Ok(None),
        }
    }
}

impl Iterator for Readings<'_> {
    type Item = Vec<u16>;

    fn next(&mut self) -> Option<Vec<u16>> {
        let words = self.advance().expect("a block's own memory is not refused");
        self.stage = words.map_or(Stage::End, Stage::After);
        words.map(|words| self.buffer[..words].to_vec())
    }
}

impl FusedIterator for Readings<'_> {}
