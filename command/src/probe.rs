//! What the library says of a single character or frequency, asked of a book that holds one word.
use std::collections::HashMap;
use tongsvale::{Dictionary, Error, Scratch};

/// A Han character, which stands in any word.
const HAN: char = '一';

/// A dictionary that holds a word alone.
fn alone(word: &str, frequency: u64) -> Result<Dictionary, Error> {
    let characters = word.chars().count().max(12);
    let mut dictionary = Dictionary::with_sizes(1, (characters * 2).next_power_of_two(), 1)?;
    dictionary.add_word(word, frequency)?;
    Ok(dictionary)
}

/// Whether `cut` answers a word whole where the dictionary holds it alone.
pub fn is_whole(word: &str) -> Result<bool, Error> {
    let dictionary = alone(word, 1)?;
    let mut scratch = Scratch::for_sentence(word);
    let answered = dictionary.cut(word, &mut scratch)?.next().is_some_and(|token| token.word == word);
    Ok(answered)
}

/// Whether a character can stand inside a word: between two that can, it does not part the word.
pub fn stands_inside(character: char) -> Result<bool, Error> {
    is_whole(&String::from_iter([HAN, character, HAN]))
}

/// The library's logarithms, each asked for once: what it keeps beside a frequency.
#[derive(Default)]
pub struct Logarithms {
    known: HashMap<u64, f64>,
}

impl Logarithms {
    pub fn of(&mut self, frequency: u64) -> Result<f64, Error> {
        if let Some(&logarithm) = self.known.get(&frequency) {
            return Ok(logarithm);
        }
        let logarithm = alone("一", frequency)?.areas().logarithms[0];
        self.known.insert(frequency, logarithm);
        Ok(logarithm)
    }
}
