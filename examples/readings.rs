//! Prints the readings of a block of a book: readings BOOK BLOCK. A reading's words are told by
//! number, with the position where each ends. readings.c prints the same. To run it:
//! cargo run --manifest-path bindings/rust/Cargo.toml --example readings crates/readings/stdin 0

use std::env;
use std::error::Error;
use std::fs;
use std::process::ExitCode;

use orgamish::{block, identity, Block, Dictionary, MOST_COUNTED};

const MOST_SHOWN: usize = 20;

fn main() -> ExitCode {
    let arguments: Vec<String> = env::args().skip(1).collect();
    match print_block(&arguments) {
        Ok(()) => ExitCode::SUCCESS,
        Err(message) => {
            println!("{message}");
            ExitCode::FAILURE
        }
    }
}

fn print_block(arguments: &[String]) -> Result<(), Box<dyn Error>> {
    let [path, number] = arguments else {
        return Err("usage: readings BOOK BLOCK".into());
    };
    let book = fs::read(path)?;
    let dictionary = Dictionary::from_book(&identity(), &book)?;
    let Some(text) = block(&identity(), &book, number.parse()?) else {
        return Err(format!("there is no block {number}").into());
    };
    print_readings(&dictionary.scan(text)?);
    Ok(())
}

fn print_readings(block: &Block) {
    let more = if block.count() == MOST_COUNTED {
        " or more"
    } else {
        ""
    };
    println!(
        "readings {}{more}, farthest {}",
        block.count(),
        block.farthest()
    );
    for (n, reading) in block.readings().take(MOST_SHOWN).enumerate() {
        println!(
            "reading {n}:{}",
            words_and_ends(block.dictionary(), &reading)
        );
    }
    let left = block.count().saturating_sub(MOST_SHOWN as u64);
    if left > 0 {
        println!("and {left} more");
    }
}

fn words_and_ends(dictionary: &Dictionary, reading: &[u16]) -> String {
    let ends = dictionary.ends(reading);
    let words = reading
        .iter()
        .zip(ends)
        .map(|(word, end)| format!(" {word} to {end}"));
    words.collect::<Vec<_>>().join(",")
}
