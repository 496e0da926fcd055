//! The limits and the layout of a table's row, with the names of the header's macros.

/// Numbers in a map.
pub const MAP_LENGTH: usize = 256;
/// Letters of a word.
pub const LONGEST_WORD: usize = 64;
/// Words of a dictionary.
pub const MOST_WORDS: usize = 256;
/// Letters of all words together.
pub const MOST_LETTERS: usize = 2047;
/// Letters of a text.
pub const LONGEST_TEXT: usize = 4096;
/// Bytes of a book.
pub const LONGEST_BOOK: usize = 65536;
/// States of a dictionary.
pub const MOST_STATES: usize = 2048;
/// Numbers in a row of a table.
pub const WIDTH: usize = 8;
/// Numbers in a row of a narrow table, which lacks [`CHAIN`].
pub const NARROW_WIDTH: usize = 7;
/// Numbers of a table: room for any.
pub const MOST_NUMBERS: usize = 16384;
/// Entries of a column: room for any text's.
pub const MOST_ENTRIES: usize = 4097;
/// The count that stands for so many readings or more.
pub const MOST_COUNTED: u64 = u64::MAX;
/// Numbers that every call of the C interface tells.
pub const TOLD: usize = 5;
/// Bytes of stack that a call takes at most.
pub const STACK: usize = 589824;

/// A state's last letter, under the map.
pub const LETTER: usize = 0;
/// The longer state by the least letter.
pub const CHILD: usize = 1;
/// The state that differs in its last letter only, by the next greater letter.
pub const SIBLING: usize = 2;
/// The number of a state's letters.
pub const DEPTH: usize = 3;
/// The number of the word that a state is.
pub const WORD: usize = 4;
/// The longest proper suffix that is a state.
pub const BORDER: usize = 5;
/// The longest proper suffix that is a word.
pub const LINK: usize = 6;
/// How many words a state ends with.
pub const CHAIN: usize = 7;
/// Stands for none in a row.
pub const NONE: u16 = 65535;
