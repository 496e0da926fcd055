//! Orgamish reads emulator traces: it tells whether a block is a concatenation of dictionary words,
//! how many readings it has, which they are, in order, and where each word ends. Every answer is
//! the C archive's, whose calls are proved; this crate adds no dependency and no state. The archive
//! is looked for in the folder that `ORGAMISH_LIB_DIR` names, else in the repository's
//! `target/staticlib`, where `make target/staticlib/liborgamish_c.a` puts it.
//!
//! [`Dictionary`], [`Block`] and [`Readings`] own the memory that the calls write:
//!
//! ```
//! use orgamish::{identity, Dictionary};
//!
//! let dictionary = Dictionary::from_words(&identity(), ["a", "aa"])?;
//! let block = dictionary.scan(b"aaa")?;
//! assert!(block.accepted());
//! assert_eq!(block.count(), 3);
//! assert_eq!(block.readings().collect::<Vec<_>>(), [vec![0, 1], vec![1, 0], vec![0, 0, 0]]);
//! assert_eq!(dictionary.ends(&[0, 1]), [1, 3]);
//! # Ok::<(), orgamish::Refused>(())
//! ```
//!
//! The functions below them are the header's calls, one for one, on memory that the caller lends:
//!
//! ```
//! use orgamish::{build, identity, Refusal, Refused};
//!
//! let twice = [87, 68, 1, b'a', 87, 68, 1, b'a'];
//! let refused = build(&identity(), &twice, &mut [0; 16]).unwrap_err();
//! assert_eq!(refused, Refused { refusal: Refusal::RepeatedWord, place: Some(1) });
//! assert_eq!(refused.to_string(), "record 1: the word equals an earlier one");
//! ```

mod block;
mod calls;
mod dictionary;
mod ffi;
mod limits;
mod refusal;

pub use block::{Block, Readings};
pub use calls::{
    block, build, check_book, first, identity, jump, narrow, next, place, scan, widen, Built,
    Contents, Scanned,
};
pub use dictionary::Dictionary;
pub use limits::*;
pub use refusal::{Refusal, Refused};
