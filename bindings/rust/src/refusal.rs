//! Refusals: their numbers, what they mean, and the record that they name.

use std::error::Error;
use std::fmt;

/// Why a call was refused. The names are those of the header's macros, and so are the numbers.
#[derive(Clone, Copy, Debug, PartialEq, Eq, Hash)]
#[repr(u16)]
pub enum Refusal {
    BadWordMark = 1,
    BadWordLength = 2,
    WordCutOff = 3,
    TooManyWords = 4,
    TooManyLetters = 5,
    RepeatedWord = 6,
    TableTooShort = 7,
    OtherTable = 8,
    TextTooLong = 9,
    ColumnTooShort = 10,
    OtherColumns = 11,
    NoReading = 12,
    NotAReading = 13,
    BufferTooShort = 14,
    BadBlock = 15,
    BookTooLong = 16,
    BadMap = 18,
    NoSuchReading = 21,
    CountNotExact = 22,
}

impl Refusal {
    /// Every refusal, by rising numbers.
    pub const ALL: [Refusal; 19] = [
        Refusal::BadWordMark,
        Refusal::BadWordLength,
        Refusal::WordCutOff,
        Refusal::TooManyWords,
        Refusal::TooManyLetters,
        Refusal::RepeatedWord,
        Refusal::TableTooShort,
        Refusal::OtherTable,
        Refusal::TextTooLong,
        Refusal::ColumnTooShort,
        Refusal::OtherColumns,
        Refusal::NoReading,
        Refusal::NotAReading,
        Refusal::BufferTooShort,
        Refusal::BadBlock,
        Refusal::BookTooLong,
        Refusal::BadMap,
        Refusal::NoSuchReading,
        Refusal::CountNotExact,
    ];

    pub fn number(self) -> u16 {
        self as u16
    }

    /// None where no refusal has the number.
    pub fn from_number(number: u16) -> Option<Refusal> {
        Refusal::ALL
            .into_iter()
            .find(|refusal| refusal.number() == number)
    }

    fn message(self) -> &'static str {
        match self {
            Refusal::BadWordMark => "a word record is due and its mark, 87 68, is not there",
            Refusal::BadWordLength => "a word has 1 to 64 letters",
            Refusal::WordCutOff => "the bytes end inside a word record",
            Refusal::TooManyWords => "a dictionary has at most 256 words",
            Refusal::TooManyLetters => "a dictionary's words have at most 2,047 letters in all",
            Refusal::RepeatedWord => "the word equals an earlier one",
            Refusal::TableTooShort => "the table is too short for the dictionary",
            Refusal::OtherTable => "the table is not this dictionary's",
            Refusal::TextTooLong => "a text has at most 4,096 letters",
            Refusal::ColumnTooShort => "a column needs one entry more than the text has letters",
            Refusal::OtherColumns => "the columns are not this text's",
            Refusal::NoReading => "the text has no reading",
            Refusal::NotAReading => "the given words are no reading of the text",
            Refusal::BufferTooShort => "the reading has more words than the buffer has entries",
            Refusal::BadBlock => "a block record is due and is not there, or not whole",
            Refusal::BookTooLong => "a book has at most 65,536 bytes",
            Refusal::BadMap => "a map has 256 numbers",
            Refusal::NoSuchReading => "the text has no reading with that number",
            Refusal::CountNotExact => "the text has 2^64 - 1 readings or more",
        }
    }
}

impl fmt::Display for Refusal {
    fn fmt(&self, f: &mut fmt::Formatter) -> fmt::Result {
        f.write_str(self.message())
    }
}

/// A refused call. It has written nothing.
#[derive(Clone, Copy, Debug, PartialEq, Eq, Hash)]
pub struct Refused {
    pub refusal: Refusal,
    /// The number of the bad record, counted from 0 over all records; none where the refusal is of
    /// no record.
    pub place: Option<usize>,
}

impl fmt::Display for Refused {
    fn fmt(&self, f: &mut fmt::Formatter) -> fmt::Result {
        match self.place {
            Some(record) => write!(f, "record {record}: {}", self.refusal),
            None => write!(f, "{}", self.refusal),
        }
    }
}

impl Error for Refused {}
