//! The words that a sentence is cut with.
use std::fs;
use std::path::PathBuf;
use tongsvale::{Dictionary, Error, LoadError};

/// The words of a house.
const HOUSE: &str = include_str!("../../examples/house.txt");

/// `WORD=FREQUENCY`, as an argument.
pub fn word(argument: &str) -> Result<(String, u64), String> {
    let (word, frequency) = argument.rsplit_once('=').ok_or("no = between word and frequency")?;
    let frequency = frequency.parse().map_err(|_| format!("no frequency: {frequency}"))?;
    Ok((word.to_owned(), frequency))
}

/// What the number of a refusal means for a vocabulary.
pub fn reason(error: Error) -> String {
    match error {
        Error::Malformed => "not UTF-8: saved as GBK?".to_owned(),
        Error::BadFrequency => "its frequency is no number from 0 to 4294967295".to_owned(),
        Error::TotalTooLarge => "with its frequency the total of all would pass 4294967295".to_owned(),
        Error::RecordsFull => "more than 1048576 words".to_owned(),
        Error::SlotsFull => "too many different beginnings of words: the slots do not suffice".to_owned(),
        Error::TooLong => "a text over 16777215 bytes".to_owned(),
        other => other.to_string(),
    }
}

/// A dictionary of these files and words, and of the house's words where no file is given.
pub fn dictionary(files: &[PathBuf], words: &[(String, u64)]) -> Result<Dictionary, String> {
    let mut texts = Vec::new();
    for file in files {
        texts.push((file.display().to_string(), fs::read(file).map_err(|error| format!("{}: {error}", file.display()))?));
    }
    if files.is_empty() {
        texts.push(("the house's words".to_owned(), HOUSE.into()));
    }
    let mut all: Vec<u8> = texts.iter().flat_map(|(_, text)| text.iter().chain(b"\n")).copied().collect();
    for (word, _) in words {
        // A word of an argument may have white space in it, at which a line would end it.
        all.extend(word.bytes().map(|byte| if byte.is_ascii_whitespace() { b'-' } else { byte }).chain(*b"\n"));
    }
    let mut dictionary = Dictionary::for_text(&all).map_err(reason)?;
    for (name, text) in &texts {
        dictionary.load(text).map_err(|LoadError { error, line }| format!("{name}:{line}: {}", reason(error)))?;
    }
    for (word, frequency) in words {
        dictionary.add_word(word, *frequency).map_err(|error| format!("{word}: {}", reason(error)))?;
    }
    Ok(dictionary)
}
