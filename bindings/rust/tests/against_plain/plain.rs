//! The notions of document 01 by plain search: no automaton, and no code of the library.

use std::cmp::Ordering;

pub type Word = Vec<u8>;
pub type Reading = Vec<u16>;

pub const NONE: u16 = 65535;

/// Bytes under a map.
pub fn mapped(map: &[u8], bytes: &[u8]) -> Word {
    bytes.iter().map(|&byte| map[usize::from(byte)]).collect()
}

/// The distinct prefixes of words, as they first appear.
pub fn states(words: &[Word]) -> Vec<&[u8]> {
    let mut states: Vec<&[u8]> = vec![&[]];
    for word in words {
        for end in 1..=word.len() {
            if !states.contains(&&word[..end]) {
                states.push(&word[..end]);
            }
        }
    }
    states
}

/// The rows of all states, so many numbers of each.
pub fn table(words: &[Word], width: usize) -> Vec<u16> {
    let states = states(words);
    let row_of = |state: &&[u8]| row(words, &states, state)[..width].to_vec();
    states.iter().flat_map(row_of).collect()
}

fn row(words: &[Word], states: &[&[u8]], state: &[u8]) -> [u16; 8] {
    let border = proper_suffixes(state).find(|suffix| states.contains(suffix));
    let link = proper_suffixes(state).find(|suffix| number_of(words, suffix).is_some());
    [
        state.last().map_or(NONE, |&letter| u16::from(letter)),
        stored(first_child(states, state), states),
        stored(next_sibling(states, state), states),
        state.len() as u16,
        number_of(words, state).unwrap_or(NONE),
        stored(border, states),
        stored(link, states),
        chain(words, state).count() as u16,
    ]
}

fn stored(state: Option<&[u8]>, states: &[&[u8]]) -> u16 {
    state.map_or(NONE, |state| number_of(states, state).expect("a state"))
}

fn number_of<W: AsRef<[u8]>>(list: &[W], wanted: &[u8]) -> Option<u16> {
    let place = list.iter().position(|word| word.as_ref() == wanted)?;
    Some(place as u16)
}

fn first_child<'a>(states: &[&'a [u8]], state: &[u8]) -> Option<&'a [u8]> {
    children(states, state).min_by_key(|child| child.last())
}

fn next_sibling<'a>(states: &[&'a [u8]], state: &[u8]) -> Option<&'a [u8]> {
    let (letter, parent) = state.split_last()?;
    let greater = children(states, parent).filter(|child| child.last() > Some(letter));
    greater.min_by_key(|child| child.last())
}

fn children<'a: 'b, 'b>(
    states: &'b [&'a [u8]],
    state: &'b [u8],
) -> impl Iterator<Item = &'a [u8]> + 'b {
    let one_longer = move |child: &&'a [u8]| child.len() == state.len() + 1;
    states
        .iter()
        .copied()
        .filter(one_longer)
        .filter(move |child| child.starts_with(state))
}

/// The longest first.
fn proper_suffixes(state: &[u8]) -> impl Iterator<Item = &[u8]> {
    (1..=state.len()).map(|from| &state[from..])
}

/// The words that a text ends with.
fn chain<'a>(words: &'a [Word], text: &'a [u8]) -> impl Iterator<Item = &'a Word> {
    words.iter().filter(|word| text.ends_with(word))
}

pub fn longest_chain(words: &[Word]) -> usize {
    let chains = states(words)
        .into_iter()
        .map(|state| chain(words, state).count());
    chains.max().expect("the empty prefix is a state")
}

/// The state of each position: the longest suffix of the letters before it that is a state.
pub fn state_column(words: &[Word], text: &[u8]) -> Vec<u16> {
    let states = states(words);
    let longest = words.iter().map(Vec::len).max().unwrap_or(0);
    let state_at = |end: usize| {
        let mut suffixes = (end.saturating_sub(longest)..=end).map(|from| &text[from..end]);
        suffixes
            .find_map(|suffix| number_of(&states, suffix))
            .expect("the empty suffix is a state")
    };
    (0..=text.len()).map(state_at).collect()
}

/// The number of readings before each position, 2^64 - 1 for that many or more.
pub fn count_column(words: &[Word], text: &[u8]) -> Vec<u64> {
    let mut counts: Vec<u64> = vec![1];
    for end in 1..=text.len() {
        let before = chain(words, &text[..end]).map(|word| counts[end - word.len()]);
        let count = before.fold(0, u64::saturating_add);
        counts.push(count);
    }
    counts
}

pub fn probes(words: &[Word], text: &[u8]) -> u64 {
    let ends = 1..=text.len();
    ends.map(|end| chain(words, &text[..end]).count() as u64)
        .sum()
}

/// The length of the longest prefix that is also a prefix of some concatenation of words.
pub fn farthest(words: &[Word], text: &[u8]) -> usize {
    let counts = count_column(words, text);
    let begun = |rest: &[u8]| rest.is_empty() || words.iter().any(|word| word.starts_with(rest));
    let viable = |&end: &usize| (0..=end).any(|at| counts[at] != 0 && begun(&text[at..end]));
    (0..=text.len())
        .rev()
        .find(viable)
        .expect("the empty prefix")
}

/// All readings, in order.
pub fn readings(words: &[Word], text: &[u8]) -> Vec<Reading> {
    let mut all = Vec::new();
    read_on(words, text, &mut Vec::new(), &mut all);
    all.sort_by(|one, other| order(words, one, other));
    all
}

/// Each word that the text begins with, and then the rest of the text.
fn read_on(words: &[Word], text: &[u8], so_far: &mut Reading, all: &mut Vec<Reading>) {
    if text.is_empty() {
        all.push(so_far.clone());
        return;
    }
    for (number, word) in words.iter().enumerate() {
        if let Some(rest) = text.strip_prefix(word.as_slice()) {
            so_far.push(number as u16);
            read_on(words, rest, so_far, all);
            so_far.pop();
        }
    }
}

/// From the last words backwards: at the first pair that differs, the longer word comes first.
pub fn order(words: &[Word], one: &[u16], other: &[u16]) -> Ordering {
    let length = |number: u16| words[usize::from(number)].len();
    let mut pairs = one.iter().rev().zip(other.iter().rev());
    match pairs.find(|(word, instead)| word != instead) {
        Some((&word, &instead)) => length(instead).cmp(&length(word)),
        None => Ordering::Equal,
    }
}

pub fn is_reading(words: &[Word], text: &[u8], given: &[u16]) -> bool {
    let parts: Option<Vec<&[u8]>> = given
        .iter()
        .map(|&number| words.get(usize::from(number)).map(Vec::as_slice))
        .collect();
    parts.is_some_and(|parts| parts.concat() == text)
}
