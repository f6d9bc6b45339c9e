use crate::calls::Cut;
use crate::error::{self, Stopped};
use crate::TOKEN_WIDTH;
use std::ops::Range;
use std::slice::ChunksExact;
use std::str;

/// A word of a sentence. Character offsets count scalar values. UTF-16 offsets count code units, as a browser's strings do: two
/// for a character from U+10000 on, one for any other.
#[derive(Clone, Copy, Debug, PartialEq, Eq)]
#[allow(missing_docs)]
pub struct Token<'s> {
    pub word: &'s str,
    pub start: usize,
    pub end: usize,
    pub byte_start: usize,
    pub byte_end: usize,
    pub utf16_start: usize,
    pub utf16_end: usize,
}

impl Token<'_> {
    /// Where the word stands in the sentence's UTF-16 code units: what a browser marks.
    #[inline]
    pub fn utf16(&self) -> Range<usize> {
        self.utf16_start..self.utf16_end
    }
}

/// The tokens of a cut, in its order. They borrow the sentence, and the iterator borrows the token area.
#[derive(Clone, Debug)]
pub struct Tokens<'s, 't> {
    sentence: &'s [u8],
    numbers: ChunksExact<'t, u32>,
}

impl<'s> Iterator for Tokens<'s, '_> {
    type Item = Token<'s>;

    fn next(&mut self) -> Option<Token<'s>> {
        let &[start, end, byte_start, byte_end, utf16_start, utf16_end] = self.numbers.next()? else {
            unreachable!("chunks have the width of a token");
        };
        let (byte_start, byte_end) = (byte_start as usize, byte_end as usize);
        Some(Token {
            word: str::from_utf8(&self.sentence[byte_start..byte_end]).expect("a sentence that was cut is well formed"),
            start: start as usize,
            end: end as usize,
            byte_start,
            byte_end,
            utf16_start: utf16_start as usize,
            utf16_end: utf16_end as usize,
        })
    }

    fn size_hint(&self) -> (usize, Option<usize>) {
        self.numbers.size_hint()
    }
}

impl ExactSizeIterator for Tokens<'_, '_> {}

/// What a cut of a sentence returned.
#[inline]
pub(crate) fn tokens_of<'s, 't>(cut: Cut, sentence: &'s [u8], area: &'t [u32]) -> Result<Tokens<'s, 't>, Stopped<'s, 't>> {
    let tokens = Tokens { sentence, numbers: area[..cut.count * TOKEN_WIDTH].chunks_exact(TOKEN_WIDTH) };
    match error::result_of(cut.number) {
        Ok(()) => Ok(tokens),
        Err(error) => Err(Stopped { error, tokens }),
    }
}
