//! The library for the programs that compare and measure, over the wrapper in rust/: a book that owns its areas, and the areas a cut
//! takes. Both are full of rubbish before they are used, and answers come as the library's numbers.

#![allow(dead_code)]

use tongsvale::{Areas, Dictionary, Error, Scratch, Stopped, TokenizeMode, Tokens};

pub struct Loaded {
    pub number: u32,
    pub line: usize,
}

pub struct Added {
    pub number: u32,
    pub frequency: u64,
}

pub struct Found {
    pub number: u32,
    pub held: u32,
    pub frequency: u32,
}

pub struct Cut {
    pub number: u32,
    pub count: usize,
}

/// A cut's answer as its number and the tokens written.
fn cut_of(answer: Result<Tokens, Stopped>) -> Cut {
    match answer {
        Ok(tokens) => Cut { number: 0, count: tokens.len() },
        Err(stopped) => Cut { number: stopped.error.number(), count: stopped.tokens.len() },
    }
}

/// A book with its areas.
pub struct Book {
    dictionary: Dictionary,
}

/// The areas a cut works in. Their content is never cleaned between two cuts: no answer may depend on it.
pub struct Work {
    scratch: Scratch,
}

impl Work {
    /// Areas for a sentence of so many characters and a block of so many edges, full of rubbish.
    pub fn new(chars: usize, edges: usize) -> Self {
        let mut work = Work { scratch: Scratch::default() };
        work.lend(chars + 1);
        work.reserve(edges);
        work
    }

    /// Makes the edge area long enough for a block of so many edges.
    pub fn reserve(&mut self, edges: usize) {
        if self.scratch.edge_ends.len() < edges {
            self.scratch.edge_ends.resize(edges, 0xDEAD_BEEF);
            self.scratch.edge_records.resize(edges, 0xDEAD_BEEF);
        }
    }

    /// Gives the work area so many places.
    fn lend(&mut self, length: usize) {
        let Scratch { chars, offsets, starts, scores, ends, route_records, .. } = &mut self.scratch;
        chars.resize(length, 0xDEAD_BEEF);
        offsets.resize(length, 0xDEAD_BEEF_DEAD_BEEF);
        starts.resize(length, usize::MAX);
        scores.resize(length, f64::NAN);
        ends.resize(length, 0xDEAD_BEEF);
        route_records.resize(length, 0xDEAD_BEEF);
    }

    /// What a cut answers with so many places of the work area and this token area.
    fn answer(&mut self, length: usize, tokens: &mut Vec<u32>, cut: impl FnOnce(&mut Scratch) -> Cut) -> Cut {
        if self.scratch.chars.len() != length {
            self.lend(length);
        }
        std::mem::swap(&mut self.scratch.tokens, tokens);
        let answer = cut(&mut self.scratch);
        std::mem::swap(&mut self.scratch.tokens, tokens);
        answer
    }
}

impl Book {
    /// An empty book of these sizes.
    pub fn prepare(root: usize, slots: usize, records: usize) -> Self {
        let mut book = Book {
            dictionary: Dictionary::from_areas(Areas {
                head: vec![u64::MAX; 4],
                roots: vec![0xDEAD_BEEF_DEAD_BEEF; root],
                slots: vec![u64::MAX; 2 * slots],
                records: vec![0xDEAD_BEEF_DEAD_BEEF; records],
                logarithms: vec![f64::NAN; records],
            }),
        };
        let number = book.clear();
        assert_eq!(number, 0, "prepare refused {root} root entries, {slots} slots, {records} records");
        book
    }

    /// Records used, slots used, next node, total.
    pub fn head(&self) -> &[u64] {
        &self.dictionary.areas().head
    }

    /// Prepares the areas again.
    pub fn clear(&mut self) -> u32 {
        self.dictionary.prepare().err().map_or(0, Error::number)
    }

    pub fn load(&mut self, text: &[u8]) -> Loaded {
        match self.dictionary.load(text) {
            Ok(line) => Loaded { number: 0, line },
            Err(refused) => Loaded { number: refused.error.number(), line: refused.line },
        }
    }

    pub fn add(&mut self, word: &[u8], frequency: u64) -> Added {
        match self.dictionary.add_word(word, frequency) {
            Ok(frequency) => Added { number: 0, frequency },
            Err(error) => Added { number: error.number(), frequency: 0 },
        }
    }

    pub fn lookup(&self, word: &[u8]) -> Found {
        match self.dictionary.lookup(word) {
            Ok(Some(frequency)) => Found { number: 0, held: 1, frequency },
            Ok(None) => Found { number: 0, held: 0, frequency: 0 },
            Err(error) => Found { number: error.number(), held: 0, frequency: 0 },
        }
    }

    /// Cuts with `length` places of the work area.
    pub fn cut(&self, sentence: &[u8], work: &mut Work, length: usize, tokens: &mut Vec<u32>) -> Cut {
        work.answer(length, tokens, |scratch| cut_of(self.dictionary.cut(sentence, scratch)))
    }

    /// Cuts for search.
    pub fn cut_for_search(&self, sentence: &[u8], work: &mut Work, length: usize, tokens: &mut Vec<u32>) -> Cut {
        work.answer(length, tokens, |scratch| cut_of(self.dictionary.cut_for_search(sentence, scratch)))
    }

    /// Cuts by a mode.
    pub fn tokenize(&self, sentence: &[u8], mode: TokenizeMode, work: &mut Work, length: usize, tokens: &mut Vec<u32>) -> Cut {
        work.answer(length, tokens, |scratch| cut_of(self.dictionary.tokenize(sentence, mode, scratch)))
    }

    /// Cuts into all words.
    pub fn cut_all(&self, sentence: &[u8], work: &mut Work, length: usize, tokens: &mut Vec<u32>) -> Cut {
        work.answer(length, tokens, |scratch| cut_of(self.dictionary.cut_all(sentence, scratch)))
    }
}
