//! The peer: overlapping matches, and a saturating sum over them.

use aho_corasick::{AhoCorasick, AhoCorasickBuilder};

pub fn built(words: &[Vec<u8>], dfa: bool) -> AhoCorasick {
    AhoCorasickBuilder::new().dfa(dfa).build(words)
}

/// The counts of readings of each prefix of the text.
pub fn scan(automaton: &AhoCorasick, text: &[u8], counts: &mut [u64]) {
    counts.fill(0);
    counts[0] = 1;
    for word in automaton.find_overlapping_iter(text) {
        counts[word.end()] = counts[word.end()].saturating_add(counts[word.start()]);
    }
}
