//! What the tests share. Each file uses a part of it.
#![allow(dead_code)]
use tongsvale::{Areas, Dictionary, Error, LoadError, Scratch, Stopped, TokenizeMode, Tokens};

/// Document 01's book A.
pub const BOOK_A: &str = "打开 256\n开灯 256\n打 64\n开 64\n灯 128\n客厅 128\n客厅灯 64\n厅灯 64\n";

/// A dictionary of these sizes with a text that it takes whole.
pub fn loaded(roots: usize, slots: usize, records: usize, text: &str) -> Dictionary {
    let mut dictionary = Dictionary::with_sizes(roots, slots, records).unwrap();
    dictionary.load(text.as_bytes()).unwrap();
    dictionary
}

/// Book A, its first characters in the root table.
pub fn book_a() -> Dictionary {
    loaded(65_536, 16, 8, BOOK_A)
}

/// The dictionary with its areas changed by hand.
pub fn changed(dictionary: &Dictionary, change: impl FnOnce(&mut Areas)) -> Dictionary {
    let mut areas = dictionary.areas().clone();
    change(&mut areas);
    Dictionary::from_areas(areas)
}

/// Where a slot has its key, and behind it its link.
pub fn key_at(slot: usize) -> usize {
    2 * slot
}

pub fn link_at(slot: usize) -> usize {
    2 * slot + 1
}

/// The slot whose key and link are such.
pub fn slot_where(areas: &Areas, test: impl Fn(u64, u64) -> bool) -> usize {
    areas.slots.chunks_exact(2).position(|slot| test(slot[0], slot[1])).unwrap()
}

/// The upper half of a link or a record.
pub fn upper(number: u64) -> u64 {
    number >> 32
}

/// A link or a record with this upper half: in a link a word's number plus one, and 0 where there is no word.
pub fn with_upper(number: u64, half: u32) -> u64 {
    number & 0xffff_ffff | u64::from(half) << 32
}

/// A scratch in which no place holds 0, so that a place that is written shows.
pub fn scratch(work: usize, edges: usize, tokens: usize) -> Scratch {
    let mut scratch = Scratch::with_sizes(work, edges, tokens);
    scratch.chars.fill(901);
    scratch.offsets.fill(902 << 32 | 902);
    scratch.starts.fill(903);
    scratch.scores.fill(904.5);
    scratch.ends.fill(905);
    scratch.route_records.fill(906);
    scratch.edge_ends.fill(907);
    scratch.edge_records.fill(908);
    scratch.tokens.fill(909);
    scratch
}

/// What a call returns, when it has left the areas as they were.
#[track_caller]
pub fn unchanged<T>(dictionary: &mut Dictionary, call: impl FnOnce(&mut Dictionary) -> T) -> T {
    let before = dictionary.areas().clone();
    let returned = call(dictionary);
    assert!(dictionary.areas() == &before, "the areas have changed");
    returned
}

pub fn at_line<T>(line: usize, error: Error) -> Result<T, LoadError> {
    Err(LoadError { error, line })
}

/// A cut's number, and the words of its tokens.
pub fn words<'s>(cut: Result<Tokens<'s, '_>, Stopped<'s, '_>>) -> (u32, Vec<&'s str>) {
    let (number, tokens) = match cut {
        Ok(tokens) => (0, tokens),
        Err(stopped) => (stopped.error.number(), stopped.tokens),
    };
    (number, tokens.map(|token| token.word).collect())
}

/// Cuts in a scratch that is large enough for every small test.
pub fn cut<'s>(dictionary: &Dictionary, sentence: &'s str) -> (u32, Vec<&'s str>) {
    words(dictionary.cut(sentence, &mut scratch(64, 64, 64)))
}

pub fn cut_for_search<'s>(dictionary: &Dictionary, sentence: &'s str) -> (u32, Vec<&'s str>) {
    words(dictionary.cut_for_search(sentence, &mut scratch(64, 64, 64)))
}

pub fn cut_all<'s>(dictionary: &Dictionary, sentence: &'s str) -> (u32, Vec<&'s str>) {
    words(dictionary.cut_all(sentence, &mut scratch(64, 64, 64)))
}

/// A cut of bytes, by its name or by a mode.
pub type CutBytes = for<'s, 't> fn(&Dictionary, &'s [u8], &'t mut Scratch) -> Result<Tokens<'s, 't>, Stopped<'s, 't>>;

/// Every call that cuts, `tokenize` in both modes.
pub const CUTS: [(&str, CutBytes); 5] = [
    ("cut", |d, sentence, scratch| d.cut(sentence, scratch)),
    ("cut_for_search", |d, sentence, scratch| d.cut_for_search(sentence, scratch)),
    ("tokenize by default", |d, sentence, scratch| d.tokenize(sentence, TokenizeMode::Default, scratch)),
    ("tokenize for search", |d, sentence, scratch| d.tokenize(sentence, TokenizeMode::Search, scratch)),
    ("cut_all", |d, sentence, scratch| d.cut_all(sentence, scratch)),
];

/// The number of all cuts of a sentence, that are refused before they begin: no token, and every area unchanged.
#[track_caller]
pub fn refused_cuts(dictionary: &Dictionary, sentence: &[u8], scratch: &Scratch) -> u32 {
    let mut after = scratch.clone();
    let numbers = CUTS.map(|(name, cut)| {
        let (number, tokens) = words(cut(dictionary, sentence, &mut after));
        assert!(tokens.is_empty() && &after == scratch, "{name}, refused, has written");
        number
    });
    assert_eq!(numbers, [numbers[0]; CUTS.len()], "the cuts are refused with different numbers");
    numbers[0]
}
