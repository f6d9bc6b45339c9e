use crate::Tokens;
use std::fmt;

/// Why a call was refused or stopped. The cases have the library's numbers, 1 to 11.
#[derive(Clone, Copy, Debug, PartialEq, Eq, Hash)]
#[repr(u32)]
pub enum Error {
    /// A part of the book outside its sizes, or a token area that is not a whole number of tokens.
    BadAreas = 1,
    /// A text over 16,777,215 bytes.
    TooLong = 2,
    /// Malformed UTF-8.
    Malformed = 3,
    /// A frequency malformed or over 4,294,967,295.
    BadFrequency = 4,
    /// The total would pass 4,294,967,295, by a word without a frequency too, which adds 1.
    TotalTooLarge = 5,
    /// A new word, and every record is taken.
    RecordsFull = 6,
    /// A new word, and the slots do not suffice.
    SlotsFull = 7,
    /// A damaged book met.
    Damaged = 8,
    /// A work area shorter than the sentence's characters + 1.
    WorkTooShort = 9,
    /// A block has more edges than the edge area.
    EdgesFull = 10,
    /// More tokens than places.
    TokensFull = 11,
}

/// A load that was refused, with the line it was refused at: from 1, or 0 where no line was read.
#[derive(Clone, Copy, Debug, PartialEq, Eq)]
pub struct LoadError {
    /// Why.
    pub error: Error,
    /// At which line.
    pub line: usize,
}

/// A cut that was refused or stopped, with the tokens that it had written by then.
#[derive(Clone, Debug)]
pub struct Stopped<'s, 't> {
    /// Why.
    pub error: Error,
    /// The tokens written.
    pub tokens: Tokens<'s, 't>,
}

impl Error {
    /// The library's number.
    pub fn number(self) -> u32 {
        self as u32
    }
}

/// A returned number as a result.
#[inline]
pub(crate) fn result_of(number: u32) -> Result<(), Error> {
    Err(match number {
        0 => return Ok(()),
        1 => Error::BadAreas,
        2 => Error::TooLong,
        3 => Error::Malformed,
        4 => Error::BadFrequency,
        5 => Error::TotalTooLarge,
        6 => Error::RecordsFull,
        7 => Error::SlotsFull,
        8 => Error::Damaged,
        9 => Error::WorkTooShort,
        10 => Error::EdgesFull,
        11 => Error::TokensFull,
        _ => unreachable!("the library has no number {number}"),
    })
}

impl fmt::Display for Error {
    fn fmt(&self, f: &mut fmt::Formatter<'_>) -> fmt::Result {
        f.write_str(match self {
            Error::BadAreas => "an area outside its sizes",
            Error::TooLong => "text over 16777215 bytes",
            Error::Malformed => "malformed UTF-8",
            Error::BadFrequency => "frequency malformed or over 4294967295",
            Error::TotalTooLarge => "the total would pass 4294967295",
            Error::RecordsFull => "every record is taken",
            Error::SlotsFull => "the slots do not suffice",
            Error::Damaged => "damaged book",
            Error::WorkTooShort => "work area too short for the sentence",
            Error::EdgesFull => "edge area too short for a block",
            Error::TokensFull => "more tokens than places",
        })
    }
}

impl fmt::Display for LoadError {
    fn fmt(&self, f: &mut fmt::Formatter<'_>) -> fmt::Result {
        write!(f, "line {}: {}", self.line, self.error)
    }
}

impl fmt::Display for Stopped<'_, '_> {
    fn fmt(&self, f: &mut fmt::Formatter<'_>) -> fmt::Result {
        write!(f, "{}, after {} tokens", self.error, self.tokens.len())
    }
}

/// What is left of a load's error without its line.
impl From<LoadError> for Error {
    fn from(refused: LoadError) -> Error {
        refused.error
    }
}

/// What is left of a stopped cut without its tokens, which borrow: so `?` takes it out of any function.
impl From<Stopped<'_, '_>> for Error {
    fn from(stopped: Stopped<'_, '_>) -> Error {
        stopped.error
    }
}

impl std::error::Error for Error {}
impl std::error::Error for LoadError {}
impl std::error::Error for Stopped<'_, '_> {}
