//! Orgamish's calls on memory that is kept between runs.

use orgamish::{
    build, check_book, first, identity, next, scan, Refusal, LONGEST_TEXT, MAP_LENGTH, MOST_NUMBERS,
};

pub struct Lent {
    map: [u8; MAP_LENGTH],
    dict: Vec<u8>,
    table: Vec<u16>,
    states: Vec<u16>,
    pub counts: Vec<u64>,
    reading: Vec<u16>,
}

impl Lent {
    pub fn new(dict: Vec<u8>) -> Lent {
        Lent {
            map: identity(),
            dict,
            table: vec![0; MOST_NUMBERS],
            states: vec![0; LONGEST_TEXT + 1],
            counts: vec![0; LONGEST_TEXT + 1],
            reading: vec![0; LONGEST_TEXT],
        }
    }

    pub fn build(&mut self) {
        build(&self.map, &self.dict, &mut self.table).expect("the dictionary is right");
    }

    pub fn scan(&mut self, text: &[u8]) {
        let (states, counts) = (&mut self.states, &mut self.counts);
        scan(&self.map, &self.dict, &self.table, text, states, counts).expect("the table is right");
    }

    /// The dictionary's check alone: a book without blocks.
    pub fn check_words(&self) {
        check_book(&self.map, &self.dict).expect("the dictionary is right");
    }

    pub fn first(&mut self, text: &[u8]) -> usize {
        let (states, counts) = (&self.states, &self.counts);
        first(
            &self.map,
            &self.dict,
            &self.table,
            text,
            states,
            counts,
            &mut self.reading,
        )
        .expect("there is a reading")
    }

    /// The reading after the first one.
    pub fn next(&mut self, text: &[u8], reading: &[u16]) {
        self.reading[..reading.len()].copy_from_slice(reading);
        self.ask_next(text, reading.len())
            .expect("a reading is given");
    }

    pub fn reading(&self, words: usize) -> Vec<u16> {
        self.reading[..words].to_vec()
    }

    /// All checks of next, to the columns': more words are given than the buffer has.
    pub fn check_columns(&mut self, text: &[u8]) {
        let refused = self
            .ask_next(text, self.reading.len() + 1)
            .expect_err("no reading is given");
        assert_eq!(refused.refusal, Refusal::NotAReading);
    }

    fn ask_next(&mut self, text: &[u8], given: usize) -> Result<Option<usize>, orgamish::Refused> {
        let (states, counts) = (&self.states, &self.counts);
        next(
            &self.map,
            &self.dict,
            &self.table,
            text,
            states,
            counts,
            &mut self.reading,
            given,
        )
    }
}
