//! The library's eight calls, over areas and slices, and its interface's number. All unsafe code of the crate is here.
//!
//! What the library asks of its caller is what Rust asks of a slice, and each call below gives it. A pointer of a `Vec` or a
//! slice is not null, is aligned, and is valid for the length given with it. Areas that are written are fields of a struct
//! borrowed by `&mut`: different `Vec`s, so apart from each other, and apart from all that the call borrows besides. Nothing is
//! kept after the return, and every pattern of bits is a value of the element types.
use crate::{Areas, Scratch};

#[repr(C)]
pub(crate) struct Loaded {
    pub(crate) number: u32,
    pub(crate) line: usize,
}

#[repr(C)]
pub(crate) struct Added {
    pub(crate) number: u32,
    pub(crate) frequency: u64,
}

#[repr(C)]
pub(crate) struct Found {
    pub(crate) number: u32,
    pub(crate) held: u32,
    pub(crate) frequency: u32,
}

#[repr(C)]
pub(crate) struct Cut {
    pub(crate) number: u32,
    pub(crate) count: usize,
}

// The parameters of include/tongsvale.h, one for one.
extern "C" {
    fn tongsvale_abi_2() -> u32;

    fn tongsvale_prepare(
        head: *mut u64,
        head_length: usize,
        roots: *mut u64,
        roots_length: usize,
        slots: *mut u64,
        slots_length: usize,
        records: *mut u64,
        records_length: usize,
        logarithms: *mut f64,
        logarithms_length: usize,
    ) -> u32;

    fn tongsvale_load(
        head: *mut u64,
        head_length: usize,
        roots: *mut u64,
        roots_length: usize,
        slots: *mut u64,
        slots_length: usize,
        records: *mut u64,
        records_length: usize,
        logarithms: *mut f64,
        logarithms_length: usize,
        text: *const u8,
        text_length: usize,
    ) -> Loaded;

    fn tongsvale_add(
        head: *mut u64,
        head_length: usize,
        roots: *mut u64,
        roots_length: usize,
        slots: *mut u64,
        slots_length: usize,
        records: *mut u64,
        records_length: usize,
        logarithms: *mut f64,
        logarithms_length: usize,
        word: *const u8,
        word_length: usize,
        frequency: u64,
    ) -> Added;

    fn tongsvale_lookup(
        head: *const u64,
        head_length: usize,
        roots: *const u64,
        roots_length: usize,
        slots: *const u64,
        slots_length: usize,
        records: *const u64,
        records_length: usize,
        logarithms: *const f64,
        logarithms_length: usize,
        word: *const u8,
        word_length: usize,
    ) -> Found;

    fn tongsvale_cut(
        head: *const u64,
        head_length: usize,
        roots: *const u64,
        roots_length: usize,
        slots: *const u64,
        slots_length: usize,
        records: *const u64,
        records_length: usize,
        logarithms: *const f64,
        logarithms_length: usize,
        sentence: *const u8,
        sentence_length: usize,
        chars: *mut u32,
        chars_length: usize,
        offsets: *mut u64,
        offsets_length: usize,
        starts: *mut usize,
        starts_length: usize,
        scores: *mut f64,
        scores_length: usize,
        ends: *mut u32,
        ends_length: usize,
        route_records: *mut u32,
        route_records_length: usize,
        edge_ends: *mut u32,
        edge_ends_length: usize,
        edge_records: *mut u32,
        edge_records_length: usize,
        tokens: *mut u32,
        tokens_length: usize,
    ) -> Cut;

    fn tongsvale_cut_for_search(
        head: *const u64,
        head_length: usize,
        roots: *const u64,
        roots_length: usize,
        slots: *const u64,
        slots_length: usize,
        records: *const u64,
        records_length: usize,
        logarithms: *const f64,
        logarithms_length: usize,
        sentence: *const u8,
        sentence_length: usize,
        chars: *mut u32,
        chars_length: usize,
        offsets: *mut u64,
        offsets_length: usize,
        starts: *mut usize,
        starts_length: usize,
        scores: *mut f64,
        scores_length: usize,
        ends: *mut u32,
        ends_length: usize,
        route_records: *mut u32,
        route_records_length: usize,
        edge_ends: *mut u32,
        edge_ends_length: usize,
        edge_records: *mut u32,
        edge_records_length: usize,
        tokens: *mut u32,
        tokens_length: usize,
    ) -> Cut;

    fn tongsvale_tokenize(
        head: *const u64,
        head_length: usize,
        roots: *const u64,
        roots_length: usize,
        slots: *const u64,
        slots_length: usize,
        records: *const u64,
        records_length: usize,
        logarithms: *const f64,
        logarithms_length: usize,
        sentence: *const u8,
        sentence_length: usize,
        mode: u32,
        chars: *mut u32,
        chars_length: usize,
        offsets: *mut u64,
        offsets_length: usize,
        starts: *mut usize,
        starts_length: usize,
        scores: *mut f64,
        scores_length: usize,
        ends: *mut u32,
        ends_length: usize,
        route_records: *mut u32,
        route_records_length: usize,
        edge_ends: *mut u32,
        edge_ends_length: usize,
        edge_records: *mut u32,
        edge_records_length: usize,
        tokens: *mut u32,
        tokens_length: usize,
    ) -> Cut;

    fn tongsvale_cut_all(
        head: *const u64,
        head_length: usize,
        roots: *const u64,
        roots_length: usize,
        slots: *const u64,
        slots_length: usize,
        records: *const u64,
        records_length: usize,
        logarithms: *const f64,
        logarithms_length: usize,
        sentence: *const u8,
        sentence_length: usize,
        chars: *mut u32,
        chars_length: usize,
        offsets: *mut u64,
        offsets_length: usize,
        tokens: *mut u32,
        tokens_length: usize,
    ) -> Cut;
}

/// Refers to the number of the interface, so that an archive of another number does not link. It goes up with every change of an
/// area, a token or a call, as that of include/tongsvale.h.
#[used]
static ABI: unsafe extern "C" fn() -> u32 = tongsvale_abi_2;

/// Makes an empty book.
#[inline]
pub(crate) fn prepare(book: &mut Areas) -> u32 {
    // Sound: five different `Vec`s, all borrowed by `&mut` for the call.
    unsafe {
        tongsvale_prepare(
            book.head.as_mut_ptr(),
            book.head.len(),
            book.roots.as_mut_ptr(),
            book.roots.len(),
            book.slots.as_mut_ptr(),
            book.slots.len(),
            book.records.as_mut_ptr(),
            book.records.len(),
            book.logarithms.as_mut_ptr(),
            book.logarithms.len(),
        )
    }
}

/// Loads a dictionary text.
#[inline]
pub(crate) fn load(book: &mut Areas, text: &[u8]) -> Loaded {
    // Sound: the book's five `Vec`s are borrowed by `&mut`, so `text` is none of them; it is only read.
    unsafe {
        tongsvale_load(
            book.head.as_mut_ptr(),
            book.head.len(),
            book.roots.as_mut_ptr(),
            book.roots.len(),
            book.slots.as_mut_ptr(),
            book.slots.len(),
            book.records.as_mut_ptr(),
            book.records.len(),
            book.logarithms.as_mut_ptr(),
            book.logarithms.len(),
            text.as_ptr(),
            text.len(),
        )
    }
}

/// Adds a word.
#[inline]
pub(crate) fn add(book: &mut Areas, word: &[u8], frequency: u64) -> Added {
    // Sound: the book's five `Vec`s are borrowed by `&mut`, so `word` is none of them; it is only read.
    unsafe {
        tongsvale_add(
            book.head.as_mut_ptr(),
            book.head.len(),
            book.roots.as_mut_ptr(),
            book.roots.len(),
            book.slots.as_mut_ptr(),
            book.slots.len(),
            book.records.as_mut_ptr(),
            book.records.len(),
            book.logarithms.as_mut_ptr(),
            book.logarithms.len(),
            word.as_ptr(),
            word.len(),
            frequency,
        )
    }
}

/// Looks a word up.
#[inline]
pub(crate) fn lookup(book: &Areas, word: &[u8]) -> Found {
    // Sound: nothing is written, and all slices are borrowed for the call.
    unsafe {
        tongsvale_lookup(
            book.head.as_ptr(),
            book.head.len(),
            book.roots.as_ptr(),
            book.roots.len(),
            book.slots.as_ptr(),
            book.slots.len(),
            book.records.as_ptr(),
            book.records.len(),
            book.logarithms.as_ptr(),
            book.logarithms.len(),
            word.as_ptr(),
            word.len(),
        )
    }
}

/// A call on a book, a sentence, all areas of a scratch, and a mode where there is one.
macro_rules! with_all_areas {
    ($call:ident, $book:expr, $sentence:expr, $scratch:expr $(, $mode:expr)?) => {
        $call(
            $book.head.as_ptr(),
            $book.head.len(),
            $book.roots.as_ptr(),
            $book.roots.len(),
            $book.slots.as_ptr(),
            $book.slots.len(),
            $book.records.as_ptr(),
            $book.records.len(),
            $book.logarithms.as_ptr(),
            $book.logarithms.len(),
            $sentence.as_ptr(),
            $sentence.len(),
            $($mode,)?
            $scratch.chars.as_mut_ptr(),
            $scratch.chars.len(),
            $scratch.offsets.as_mut_ptr(),
            $scratch.offsets.len(),
            $scratch.starts.as_mut_ptr(),
            $scratch.starts.len(),
            $scratch.scores.as_mut_ptr(),
            $scratch.scores.len(),
            $scratch.ends.as_mut_ptr(),
            $scratch.ends.len(),
            $scratch.route_records.as_mut_ptr(),
            $scratch.route_records.len(),
            $scratch.edge_ends.as_mut_ptr(),
            $scratch.edge_ends.len(),
            $scratch.edge_records.as_mut_ptr(),
            $scratch.edge_records.len(),
            $scratch.tokens.as_mut_ptr(),
            $scratch.tokens.len(),
        )
    };
}

/// Cuts a sentence into words.
#[inline]
pub(crate) fn cut(book: &Areas, sentence: &[u8], scratch: &mut Scratch) -> Cut {
    // Sound: only the nine `Vec`s of `scratch` are written; they are borrowed by `&mut`, so book and sentence are none of them.
    unsafe { with_all_areas!(tongsvale_cut, book, sentence, scratch) }
}

/// Cuts a sentence into words, before each of them what search finds in it.
#[inline]
pub(crate) fn cut_for_search(book: &Areas, sentence: &[u8], scratch: &mut Scratch) -> Cut {
    // Sound: as `cut`; the same areas are read and written.
    unsafe { with_all_areas!(tongsvale_cut_for_search, book, sentence, scratch) }
}

/// Cuts a sentence into words by a mode.
#[inline]
pub(crate) fn tokenize(book: &Areas, sentence: &[u8], mode: u32, scratch: &mut Scratch) -> Cut {
    // Sound: as `cut`; the same areas are read and written, and every number is answered as a mode.
    unsafe { with_all_areas!(tongsvale_tokenize, book, sentence, scratch, mode) }
}

/// Cuts a sentence into all the words that it holds.
#[inline]
pub(crate) fn cut_all(book: &Areas, sentence: &[u8], scratch: &mut Scratch) -> Cut {
    // Sound: only three `Vec`s of `scratch` are written; they are borrowed by `&mut`, so book and sentence are none of them.
    unsafe {
        tongsvale_cut_all(
            book.head.as_ptr(),
            book.head.len(),
            book.roots.as_ptr(),
            book.roots.len(),
            book.slots.as_ptr(),
            book.slots.len(),
            book.records.as_ptr(),
            book.records.len(),
            book.logarithms.as_ptr(),
            book.logarithms.len(),
            sentence.as_ptr(),
            sentence.len(),
            scratch.chars.as_mut_ptr(),
            scratch.chars.len(),
            scratch.offsets.as_mut_ptr(),
            scratch.offsets.len(),
            scratch.tokens.as_mut_ptr(),
            scratch.tokens.len(),
        )
    }
}

#[cfg(test)]
mod tests {
    use super::*;

    #[test]
    fn the_archive_has_the_number_of_the_interface() {
        // Sound: it takes nothing and returns a number.
        assert_eq!(unsafe { ABI() }, 2);
    }

    /// The library takes every number as a mode; the crate gives it 0 and 1 alone.
    #[test]
    fn number_1_for_other_modes() {
        let mut book = Areas::with_sizes(1, 16, 1);
        assert_eq!(prepare(&mut book), 0);
        for mode in [2, 3, 255, 256, 1 << 31, u32::MAX] {
            let mut scratch = Scratch::with_sizes(4, 4, 4);
            let before = scratch.clone();
            let cut = tokenize(&book, b"ab", mode, &mut scratch);
            assert_eq!((cut.number, cut.count), (1, 0), "mode {mode}");
            // 1 comes before 3.
            let cut = tokenize(&book, b"\xff", mode, &mut scratch);
            assert_eq!((cut.number, cut.count), (1, 0), "mode {mode}, malformed");
            assert!(scratch == before, "a refused cut has written");
        }
        for mode in [0, 1] {
            let cut = tokenize(&book, b"ab", mode, &mut Scratch::with_sizes(4, 4, 4));
            assert_eq!((cut.number, cut.count), (0, 1), "mode {mode}");
        }
    }
}
