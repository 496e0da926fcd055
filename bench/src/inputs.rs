//! The dictionaries and texts that are timed.

use orgamish::{LONGEST_TEXT, MOST_LETTERS};

pub struct Input {
    pub name: &'static str,
    pub words: Vec<Vec<u8>>,
    pub text: Vec<u8>,
}

pub fn inputs() -> [Input; 3] {
    let alike = (1..=63).map(|n| vec![b'a'; n]).collect();
    let bytes = (0..=255).map(|x| vec![x]).collect();
    [
        input("random", random_words()),
        input("a to a^63", alike),
        input("256 bytes", bytes),
    ]
}

fn input(name: &'static str, words: Vec<Vec<u8>>) -> Input {
    let text = random_text(&words);
    Input { name, words, text }
}

/// Words over 16 letters, no two alike.
fn random_words() -> Vec<Vec<u8>> {
    let mut random = Random(0x9e37_79b9_7f4a_7c15);
    let mut words: Vec<Vec<u8>> = Vec::new();
    for len in random_lengths(&mut random) {
        let mut word = random.letters(len);
        while words.contains(&word) {
            word = random.letters(len);
        }
        words.push(word);
    }
    words
}

/// 250 lengths of 2 to 13, some made longer until there are 2,047 letters in all.
fn random_lengths(random: &mut Random) -> Vec<usize> {
    let mut lengths: Vec<usize> = (0..250).map(|_| 2 + random.below(12)).collect();
    while lengths.iter().sum::<usize>() < MOST_LETTERS {
        let k = random.below(lengths.len());
        lengths[k] = 13.min(lengths[k] + 1);
    }
    lengths
}

/// Words one after the other, 4,096 letters: the last ones are those that still fit.
fn random_text(words: &[Vec<u8>]) -> Vec<u8> {
    let mut random = Random(0x0123_4567_89ab_cdef);
    let shortest = words.iter().map(Vec::len).min().expect("there are words");
    let mut text = Vec::new();
    while text.len() < LONGEST_TEXT {
        let room = LONGEST_TEXT - text.len();
        let fitting: Vec<_> = words
            .iter()
            .filter(|w| w.len() == room || w.len() + shortest <= room)
            .collect();
        text.extend_from_slice(fitting[random.below(fitting.len())]);
    }
    text
}

/// The records of the words.
pub fn records(words: &[Vec<u8>]) -> Vec<u8> {
    let record = |word: &Vec<u8>| [&[87, 68, word.len() as u8], word.as_slice()].concat();
    words.iter().flat_map(record).collect()
}

/// Marsaglia's xorshift.
struct Random(u64);

impl Random {
    fn below(&mut self, n: usize) -> usize {
        self.0 ^= self.0 << 13;
        self.0 ^= self.0 >> 7;
        self.0 ^= self.0 << 17;
        (self.0 >> 20) as usize % n
    }

    fn letters(&mut self, len: usize) -> Vec<u8> {
        (0..len).map(|_| b'a' + self.below(16) as u8).collect()
    }
}
