//! Chinese sentences into words: safe calls of the proved static library (`include/tongsvale.h` has its numbers).
//!
//! A [`Dictionary`] owns a book's areas, a [`Scratch`] the areas that a cut works in and writes its tokens to. The library
//! answers areas of any length and contents, so both can be made of parts that nobody tested.
//!
//! ```
//! use tongsvale::{Dictionary, Scratch};
//!
//! let vocabulary = "打开 256\n客厅灯 64\n";
//! let mut dictionary = Dictionary::for_text(vocabulary)?;
//! dictionary.load(vocabulary)?;
//! let sentence = "打开客厅灯";
//! let mut scratch = Scratch::for_sentence(sentence);
//! let words: Vec<&str> = dictionary.cut(sentence, &mut scratch)?.map(|token| token.word).collect();
//! assert_eq!(words, ["打开", "客厅灯"]);
//! # Ok::<(), tongsvale::Error>(())
//! ```
#![warn(missing_docs)]

mod calls;
mod error;
mod sizes;
mod tokens;

pub use error::{Error, LoadError, Stopped};
pub use sizes::Sizes;
pub use tokens::{Token, Tokens};

/// The longest text that is read, in bytes.
pub const LONGEST_TEXT: usize = 16_777_215;
/// The most entries of a root table.
pub const MOST_ROOTS: usize = 65_536;
/// The most slots; the fewest are 16, and their number is a power of two.
pub const MOST_SLOTS: usize = 4_194_304;
/// The most records.
pub const MOST_RECORDS: usize = 1_048_576;

const HEAD_LENGTH: usize = 4;
const SLOT_WIDTH: usize = 2;
const TOKEN_WIDTH: usize = 6;

/// A book's areas.
#[derive(Clone, Debug, Default, PartialEq)]
#[allow(missing_docs)]
pub struct Areas {
    /// Records used, slots used, next node, total.
    pub head: Vec<u64>,
    /// The root table, a link each: a child in the lower 32 bits, the number of a word's record plus one in the upper 32.
    pub roots: Vec<u64>,
    /// Two numbers a slot: a key, and behind it a link.
    pub slots: Vec<u64>,
    /// A word's frequency in the lower 32 bits. The upper 32 are kept for later: a new word has 0 there, and a new frequency
    /// leaves them as they are.
    pub records: Vec<u64>,
    /// One for each record.
    pub logarithms: Vec<f64>,
}

/// A dictionary: words, each with its frequency.
#[derive(Clone, Debug)]
pub struct Dictionary {
    areas: Areas,
}

/// Which cut [`Dictionary::tokenize`] chooses. The cases have the library's numbers.
#[derive(Clone, Copy, Debug, PartialEq, Eq, Hash)]
#[repr(u32)]
pub enum TokenizeMode {
    /// [`Dictionary::cut`].
    Default = 0,
    /// [`Dictionary::cut_for_search`].
    Search = 1,
}

/// The areas that a cut works in, and the token area that it writes.
///
/// What they hold before a cut plays no part in it.
#[derive(Clone, Debug, Default, PartialEq)]
#[allow(missing_docs)]
pub struct Scratch {
    pub chars: Vec<u32>,
    pub offsets: Vec<u64>,
    pub starts: Vec<usize>,
    pub scores: Vec<f64>,
    pub ends: Vec<u32>,
    pub route_records: Vec<u32>,
    pub edge_ends: Vec<u32>,
    pub edge_records: Vec<u32>,
    /// Six numbers a token: its start and end in characters, in bytes and in UTF-16 code units.
    pub tokens: Vec<u32>,
}

impl Areas {
    /// Areas of these sizes, all zeros. They are no book until they are prepared.
    pub fn with_sizes(roots: usize, slots: usize, records: usize) -> Areas {
        Areas {
            head: vec![0; HEAD_LENGTH],
            roots: vec![0; roots],
            slots: vec![0; slots.saturating_mul(SLOT_WIDTH)],
            records: vec![0; records],
            logarithms: vec![0.0; records],
        }
    }
}

impl Dictionary {
    /// An empty dictionary of 1 to 65,536 root entries, a power of two of slots from 16 to 4,194,304, and 1 to 1,048,576
    /// records.
    pub fn with_sizes(roots: usize, slots: usize, records: usize) -> Result<Dictionary, Error> {
        // The library refuses what is too large; one too many is enough for that, and never asks for absurd memory.
        let roots = roots.min(MOST_ROOTS + 1);
        let slots = slots.min(MOST_SLOTS + 1);
        let records = records.min(MOST_RECORDS + 1);
        let mut dictionary = Dictionary::from_areas(Areas::with_sizes(roots, slots, records));
        dictionary.prepare()?;
        Ok(dictionary)
    }

    /// An empty dictionary that has room for the words of a dictionary text, whatever the text is: [`Sizes::for_text`]. A text
    /// that needs more than the limits is then refused where it is loaded.
    pub fn for_text(text: impl AsRef<[u8]>) -> Result<Dictionary, Error> {
        let Sizes { roots, slots, records } = Sizes::for_text(text);
        Dictionary::with_sizes(roots, slots, records)
    }

    /// A dictionary of these areas as they are. Each call tests what it reads of them.
    pub fn from_areas(areas: Areas) -> Dictionary {
        Dictionary { areas }
    }

    /// The areas.
    pub fn areas(&self) -> &Areas {
        &self.areas
    }

    /// The areas, given back.
    pub fn into_areas(self) -> Areas {
        self.areas
    }

    /// Empties the dictionary.
    pub fn prepare(&mut self) -> Result<(), Error> {
        error::result_of(calls::prepare(&mut self.areas))
    }

    /// Loads a dictionary text, and returns its number of lines. A refused line ends the load; the lines before it stay. A line
    /// without a frequency gives its word the frequency 1.
    pub fn load(&mut self, text: impl AsRef<[u8]>) -> Result<usize, LoadError> {
        let loaded = calls::load(&mut self.areas, text.as_ref());
        match error::result_of(loaded.number) {
            Ok(()) => Ok(loaded.line),
            Err(error) => Err(LoadError { error, line: loaded.line }),
        }
    }

    /// Adds a word or gives a held word the new frequency, which is returned. For the empty word, which is not held, that is 0.
    pub fn add_word(&mut self, word: impl AsRef<[u8]>, frequency: u64) -> Result<u64, Error> {
        let added = calls::add(&mut self.areas, word.as_ref(), frequency);
        error::result_of(added.number).map(|()| added.frequency)
    }

    /// The frequency of a word, or `None` where it is absent.
    pub fn lookup(&self, word: impl AsRef<[u8]>) -> Result<Option<u32>, Error> {
        let found = calls::lookup(&self.areas, word.as_ref());
        error::result_of(found.number).map(|()| (found.held == 1).then_some(found.frequency))
    }

    /// Cuts a sentence into words.
    ///
    /// A sentence may be anything that has bytes; one that is malformed is refused. Of several best ways through it the one
    /// taken has the longer step at the first place where it parts from any other of them, unless every way takes a word of
    /// frequency 0.
    pub fn cut<'s, 't>(
        &self,
        sentence: &'s (impl AsRef<[u8]> + ?Sized),
        scratch: &'t mut Scratch,
    ) -> Result<Tokens<'s, 't>, Stopped<'s, 't>> {
        let sentence = sentence.as_ref();
        tokens::tokens_of(calls::cut(&self.areas, sentence, scratch), sentence, &scratch.tokens)
    }

    /// Cuts a sentence into words, before each of them what search finds in it: its parts between `.`, `_` and `-`, and the held
    /// words of two and of three characters in it.
    pub fn cut_for_search<'s, 't>(
        &self,
        sentence: &'s (impl AsRef<[u8]> + ?Sized),
        scratch: &'t mut Scratch,
    ) -> Result<Tokens<'s, 't>, Stopped<'s, 't>> {
        let sentence = sentence.as_ref();
        tokens::tokens_of(calls::cut_for_search(&self.areas, sentence, scratch), sentence, &scratch.tokens)
    }

    /// Cuts a sentence into words by a mode.
    pub fn tokenize<'s, 't>(
        &self,
        sentence: &'s (impl AsRef<[u8]> + ?Sized),
        mode: TokenizeMode,
        scratch: &'t mut Scratch,
    ) -> Result<Tokens<'s, 't>, Stopped<'s, 't>> {
        let sentence = sentence.as_ref();
        tokens::tokens_of(calls::tokenize(&self.areas, sentence, mode as u32, scratch), sentence, &scratch.tokens)
    }

    /// Cuts a sentence into all the words that it holds.
    pub fn cut_all<'s, 't>(
        &self,
        sentence: &'s (impl AsRef<[u8]> + ?Sized),
        scratch: &'t mut Scratch,
    ) -> Result<Tokens<'s, 't>, Stopped<'s, 't>> {
        let sentence = sentence.as_ref();
        tokens::tokens_of(calls::cut_all(&self.areas, sentence, scratch), sentence, &scratch.tokens)
    }
}

impl Scratch {
    /// Areas for a sentence, each with places for what a sentence of its characters mostly takes: for the work as many as it
    /// needs, for edges and tokens eight a character. A book with many words that begin alike may want more, and a cut then
    /// stops with [`Error::EdgesFull`] or [`Error::TokensFull`]: [`Scratch::grow`].
    pub fn for_sentence(sentence: impl AsRef<[u8]>) -> Scratch {
        let characters = sizes::characters(sentence.as_ref());
        let places = characters.saturating_mul(8).max(8);
        Scratch::with_sizes(characters + 1, places, places)
    }

    /// Twice as many places where a cut found too few. Answers whether the areas grew: other errors ask for something else.
    pub fn grow(&mut self, error: Error) -> bool {
        match error {
            Error::EdgesFull => {
                let places = (self.edge_ends.len().min(self.edge_records.len()) * 2).max(8);
                self.edge_ends.resize(places, 0);
                self.edge_records.resize(places, 0);
            }
            Error::TokensFull => {
                let numbers = (self.tokens.len() * 2).max(8 * TOKEN_WIDTH);
                self.tokens.resize(numbers, 0);
            }
            _ => return false,
        }
        true
    }

    /// Areas of so many places. A sentence needs its characters + 1 of work; a block a place of edges for each held word at each
    /// place where it starts. Of tokens, as many places as characters suffice for `cut`, and 7 thirds of the characters, rounded
    /// down, for `cut_for_search`. `cut_all` needs a place for each held word at each place of a Han block where it starts, and
    /// for each token between these blocks; that may be more than the characters.
    pub fn with_sizes(work: usize, edges: usize, tokens: usize) -> Scratch {
        Scratch {
            chars: vec![0; work],
            offsets: vec![0; work],
            starts: vec![0; work],
            scores: vec![0.0; work],
            ends: vec![0; work],
            route_records: vec![0; work],
            edge_ends: vec![0; edges],
            edge_records: vec![0; edges],
            tokens: vec![0; tokens * TOKEN_WIDTH],
        }
    }
}
