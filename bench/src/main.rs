//! Orgamish and its peer on the same inputs, in one run. With a call's name, an input's number and a number of turns: that call alone, so
//! often, for a count of instructions.

mod inputs;
mod ours;
mod peer;
mod timing;

use inputs::{inputs, records, Input};
use ours::Lent;
use timing::medians;

fn main() {
    let words: Vec<String> = std::env::args().skip(1).collect();
    match words.as_slice() {
        [] => inputs().iter().for_each(compare),
        [call, number, turns] => repeat(call, number, turns),
        _ => panic!("bench [CALL INPUT TURNS]"),
    }
}

/// Orgamish's memory for an input, with table and columns written, and the first reading.
fn prepared(input: &Input) -> (Lent, Vec<u16>) {
    let mut lent = Lent::new(records(&input.words));
    lent.build();
    lent.scan(&input.text);
    let words = lent.first(&input.text);
    let reading = lent.reading(words);
    (lent, reading)
}

/// Microseconds.
struct Ours {
    check_words: f64,
    build: f64,
    check_table: f64,
    scan: f64,
    check_columns: f64,
    next: f64,
}

struct Peer {
    build: f64,
    scan: f64,
}

fn compare(input: &Input) {
    let text = &input.text;
    let (mut lent, reading) = prepared(input);
    let (nfa, dfa) = (
        peer::built(&input.words, false),
        peer::built(&input.words, true),
    );
    let mut counts = vec![0; text.len() + 1];
    let [check_words, build, all_checks, scan, columns_too, next, nfa_build, nfa_scan, dfa_build, dfa_scan] =
        medians(|action| match action {
            0 => lent.check_words(),
            1 => lent.build(),
            2 => lent.scan(&[]),
            3 => lent.scan(text),
            4 => lent.check_columns(text),
            5 => lent.next(text, &reading),
            6 => drop(peer::built(&input.words, false)),
            7 => peer::scan(&nfa, text, &mut counts),
            8 => drop(peer::built(&input.words, true)),
            _ => peer::scan(&dfa, text, &mut counts),
        });
    assert_eq!(counts, lent.counts, "both count the same readings");
    let check_table = all_checks - check_words;
    let ours = Ours {
        check_words,
        build,
        check_table,
        scan,
        check_columns: columns_too - all_checks,
        next,
    };
    print_ours(input, &ours);
    print_peer(
        "NFA",
        &Peer {
            build: nfa_build,
            scan: nfa_scan,
        },
        &ours,
        text.len(),
    );
    print_peer(
        "DFA",
        &Peer {
            build: dfa_build,
            scan: dfa_scan,
        },
        &ours,
        text.len(),
    );
    println!();
}

fn print_ours(input: &Input, ours: &Ours) {
    let letters: usize = input.words.iter().map(Vec::len).sum();
    let part = |some: f64, all: f64| 100.0 * some / all;
    println!(
        "{}: {} words, {letters} letters; a text of {}",
        input.name,
        input.words.len(),
        input.text.len()
    );
    println!("  build {:8.1} us", ours.build);
    println!(
        "  scan  {:8.1} us, {:.2} ns a letter",
        ours.scan,
        a_letter(ours.scan, input.text.len())
    );
    println!("  next  {:8.1} us", ours.next);
    println!(
        "  of scan: the dictionary's check {:.0}%, the table's (8) {:.0}%",
        part(ours.check_words, ours.scan),
        part(ours.check_table, ours.scan)
    );
    println!(
        "  of next: the dictionary's check {:.0}%, the table's (8) {:.0}%, the columns' (11) {:.0}%",
        part(ours.check_words, ours.next),
        part(ours.check_table, ours.next),
        part(ours.check_columns, ours.next)
    );
}

fn print_peer(name: &str, peer: &Peer, ours: &Ours, letters: usize) {
    println!(
        "  {name}: build {:.1} us, scan {:.1} us, {:.2} ns a letter; ratios, ours to it: build {:.2}, scan {:.2}",
        peer.build,
        peer.scan,
        a_letter(peer.scan, letters),
        ours.build / peer.build,
        ours.scan / peer.scan
    );
}

/// Nanoseconds.
fn a_letter(microseconds: f64, letters: usize) -> f64 {
    1000.0 * microseconds / letters as f64
}

fn repeat(call: &str, number: &str, turns: &str) {
    let all = inputs();
    let input = &all[number
        .parse::<usize>()
        .expect("the number of an input, from 0")];
    let (mut lent, reading) = prepared(input);
    for _ in 0..turns.parse().expect("a number of turns") {
        match call {
            "build" => lent.build(),
            "scan" => lent.scan(&input.text),
            "next" => lent.next(&input.text, &reading),
            _ => panic!("build, scan or next"),
        }
    }
}
