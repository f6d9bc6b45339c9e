//! Compares the static library with the Rust, answer by answer: `oracle/compare` builds and runs it.
//!
//!     compare                          made-up books and sentences
//!     compare --dict FILE --text FILE  the same, then a real dictionary and a real text
//!     compare --sample FOLDER          writes a sample for the program `cutlines`, FOLDER/stdin, and its answers, FOLDER/stdout
//!
//! The Rust that is compared has document 01's logarithm L in place of `ln` (jieba_l); for sentences with characters of Extensions
//! G, H and I, which note 9 of document 02 adds to Han, it has these among its ranges too (jieba_rare). The Rust as it is (jieba_ln)
//! is only asked which sentences it cuts otherwise. Every made-up book and sentence comes from one fixed seed. The program ends with
//! 1 if there was a difference.
//!
//! A word without a frequency counts 1 here and 0 in the Rust (note 7 of document 02). The library gets every text as it is, and the
//! Rust gets it with the 1 filled in.
//!
//! The Rust has no UTF-16 offsets (note 6 of document 02). They are worked out from its own words, by Rust's own encoder.

mod library;

use library::{Book, Work};
use rare::is_rare;
use tongsvale::TokenizeMode;
use std::collections::BTreeMap;
use std::fmt::Write as _;
use std::io::Write as _;
use std::process::exit;
use std::time::Instant;

const SEED: u64 = 20_261_115;
const GREATEST: u64 = 4_294_967_295;
/// A number that no token of the compared sentences has, to see that later places keep what they held.
const UNTOUCHED: u32 = 0xFFFF_FFF0;
/// The numbers of a token.
const TOKEN_WIDTH: usize = 6;

// ---- the Rust's side

/// The UTF-16 code units of a text.
fn units(text: &str) -> usize {
    text.encode_utf16().count()
}

/// How far a sentence has been counted: a byte offset, and the code units before it. The next offset is counted from there, forth
/// or back, so that a long sentence is counted about once.
#[derive(Default)]
struct Counted {
    byte: usize,
    units: usize,
}

impl Counted {
    /// The code units before a byte of the sentence.
    fn to(&mut self, sentence: &str, byte: usize) -> usize {
        if self.byte <= byte {
            self.units += units(&sentence[self.byte..byte]);
        } else {
            self.units -= units(&sentence[byte..self.byte]);
        }
        self.byte = byte;
        self.units
    }
}

/// One build of the Rust. Tokens are flat, as in the library: character start and end, byte start and end, UTF-16 start and end.
macro_rules! rust_side {
    ($name:ident, $build:ident) => {
        mod $name {
            pub struct Rust($build::Jieba);

            fn numbers(sentence: &str, tokens: Vec<$build::Token>) -> Vec<u32> {
                let mut numbers = Vec::with_capacity(super::TOKEN_WIDTH * tokens.len());
                let mut counted = super::Counted::default();
                for token in tokens {
                    assert_eq!(token.word, &sentence[token.byte_start..token.byte_end]);
                    let utf16_start = counted.to(sentence, token.byte_start);
                    let utf16_end = utf16_start + super::units(token.word);
                    let offsets = [token.start, token.end, token.byte_start, token.byte_end, utf16_start, utf16_end];
                    numbers.extend(offsets.map(|n| n as u32));
                }
                numbers
            }

            #[allow(dead_code)]
            impl Rust {
                pub fn empty() -> Self {
                    Rust($build::Jieba::empty())
                }

                pub fn load(&mut self, text: &str) {
                    self.0.load_dict(&mut text.as_bytes()).expect("the Rust refused a load");
                }

                pub fn add(&mut self, word: &str, frequency: u64) -> u64 {
                    self.0.add_word(word, Some(frequency as usize), None) as u64
                }

                /// The records and the total, which the Rust shows only when it is printed for debugging.
                pub fn records_and_total(&self) -> (u64, u64) {
                    let shown = format!("{:?}", self.0);
                    let mut numbers = shown.split(|c: char| !c.is_ascii_digit()).filter(|s| !s.is_empty());
                    let mut next = || numbers.next().unwrap().parse().unwrap();
                    (next(), next())
                }

                pub fn has_word(&self, word: &str) -> bool {
                    self.0.has_word(word)
                }

                /// The frequency of a held word, which is private: what the total loses when the word gets frequency 0. The
                /// word gets its frequency back.
                pub fn frequency(&mut self, word: &str) -> u64 {
                    let (_, before) = self.records_and_total();
                    self.add(word, 0);
                    let (_, after) = self.records_and_total();
                    self.add(word, before - after);
                    before - after
                }

                pub fn cut(&self, sentence: &str) -> Vec<u32> {
                    numbers(sentence, self.0.cut(sentence, false))
                }

                pub fn cut_all(&self, sentence: &str) -> Vec<u32> {
                    numbers(sentence, self.0.cut_all(sentence))
                }

                pub fn cut_for_search(&self, sentence: &str) -> Vec<u32> {
                    numbers(sentence, self.0.cut_for_search(sentence, false))
                }

                /// The tokens of each cut.
                pub fn cuts(&self, sentence: &str) -> super::Cuts {
                    super::Cuts {
                        cut: self.cut(sentence),
                        search: self.cut_for_search(sentence),
                        all: self.cut_all(sentence),
                    }
                }
            }
        }
    };
}

rust_side!(with_l, jieba_l);
rust_side!(with_rare, jieba_rare);
rust_side!(with_ln, jieba_ln);

/// The tokens of one sentence by each of the three cuts.
#[derive(PartialEq)]
struct Cuts {
    cut: Vec<u32>,
    search: Vec<u32>,
    all: Vec<u32>,
}

/// Where the word of a line ends, if it is bare: the line has no second field.
fn bare_end(line: &str) -> Option<usize> {
    (line.split_whitespace().count() == 1).then(|| line.trim_end().len())
}

fn bare_words(text: &str) -> u64 {
    text.split_inclusive('\n').filter(|line| bare_end(line).is_some()).count() as u64
}

/// A dictionary text as the Rust gets it: a bare word counts 1 by note 7 of document 02, and 0 in the Rust, so a space and 1 are put
/// right after it. All else stays.
fn filled(text: &str) -> String {
    let mut filled = String::with_capacity(text.len());
    for line in text.split_inclusive('\n') {
        match bare_end(line) {
            Some(end) => filled.extend([&line[..end], " 1", &line[end..]]),
            None => filled.push_str(line),
        }
    }
    filled
}

/// Whether a sentence has a character of Extensions G, H or I.
fn has_rare(sentence: &str) -> bool {
    sentence.chars().any(is_rare)
}

/// The Rust that is compared, with L: by its own ranges, and by note 9's too for the sentences that have such characters. A third one
/// gets the texts with their bare words, and is only asked which sentences it cuts otherwise.
struct Rust {
    plain: with_l::Rust,
    rare: with_rare::Rust,
    unfilled: with_l::Rust,
    /// The texts with bare words, and these words.
    bare_texts: u64,
    bare_words: u64,
}

impl Rust {
    fn empty() -> Self {
        Rust {
            plain: with_l::Rust::empty(),
            rare: with_rare::Rust::empty(),
            unfilled: with_l::Rust::empty(),
            bare_texts: 0,
            bare_words: 0,
        }
    }

    fn load(&mut self, text: &str) {
        let filled = filled(text);
        self.plain.load(&filled);
        self.rare.load(&filled);
        self.unfilled.load(text);
        let bare = bare_words(text);
        self.bare_texts += u64::from(bare > 0);
        self.bare_words += bare;
    }

    fn add(&mut self, word: &str, frequency: u64) -> u64 {
        let added = self.plain.add(word, frequency);
        assert_eq!(added, self.rare.add(word, frequency));
        assert_eq!(added, self.unfilled.add(word, frequency));
        added
    }

    fn records_and_total(&self) -> (u64, u64) {
        let counted = self.plain.records_and_total();
        assert_eq!(counted, self.rare.records_and_total());
        counted
    }

    fn cuts(&self, sentence: &str) -> Cuts {
        if has_rare(sentence) { self.rare.cuts(sentence) } else { self.plain.cuts(sentence) }
    }
}

// ---- books

/// A call that enters words. Only calls that both sides accept are made.
#[derive(Clone)]
enum Call {
    Load(String),
    Add(String, u64),
}

/// A made-up book: its calls, and what they leave.
#[derive(Clone, Default)]
struct Plan {
    name: String,
    calls: Vec<Call>,
    held: BTreeMap<String, u64>,
    total: u64,
}

impl Plan {
    fn new(name: String) -> Self {
        Plan { name, ..Plan::default() }
    }

    /// Enters a word, with as much of its frequency as the total has room for.
    fn enter(&mut self, word: &str, frequency: u64) -> u64 {
        let old = self.held.get(word).copied().unwrap_or(0);
        let frequency = frequency.min(GREATEST - (self.total - old));
        self.total = self.total - old + frequency;
        self.held.insert(word.to_string(), frequency);
        frequency
    }

    fn add(&mut self, word: &str, frequency: u64) {
        let frequency = if word.is_empty() { frequency } else { self.enter(word, frequency) };
        self.calls.push(Call::Add(word.to_string(), frequency));
    }

    /// A load of plain lines.
    fn load(&mut self, entries: &[(&str, u64)]) {
        let mut text = String::new();
        for &(word, frequency) in entries {
            let frequency = self.enter(word, frequency);
            writeln!(text, "{word} {frequency}").unwrap();
        }
        self.calls.push(Call::Load(text));
    }

    /// A load of a text as it is, for which the total has room.
    fn load_text(&mut self, text: &str) {
        for line in text.lines() {
            let mut fields = line.split_whitespace();
            if let Some(word) = fields.next() {
                let frequency = fields.next().map_or(1, |field| field.parse().unwrap());
                assert_eq!(self.enter(word, frequency), frequency, "the total has no room");
            }
        }
        self.calls.push(Call::Load(text.to_string()));
    }

    /// A load whose lines are written in every manner that is accepted. Every tenth word is bare, or has frequency 0 where there are to
    /// be no bare words or the total has no room.
    fn load_oddly(&mut self, random: &mut Random, entries: &[(String, u64)], bare: bool) {
        let mut text = String::new();
        for (i, (word, frequency)) in entries.iter().enumerate() {
            while random.below(8) == 0 {
                text.push_str(random.one_of(&["\n", " \n", "\r\n", "\u{3000}\t\n", "\u{85}\u{2028}\n"]));
            }
            let absent = random.below(10) == 0;
            let frequency = self.enter(word, if absent { u64::from(bare) } else { *frequency });
            if random.below(6) == 0 {
                text.push_str(random.one_of(&WHITE_SPACE));
            }
            text.push_str(word);
            if absent && frequency == 0 {
                text.push_str(" 0");
            } else if !absent {
                text.push_str(random.one_of(&WHITE_SPACE));
                text.push_str(random.one_of(&["", "", "", "+", "0", "+000"]));
                write!(text, "{frequency}").unwrap();
                if random.below(3) == 0 {
                    text.push_str(random.one_of(&[" n", "\u{A0}x y z", "\t-1 99999999999999999999"]));
                }
            }
            if random.below(6) == 0 {
                text.push_str(random.one_of(&WHITE_SPACE));
            }
            if i + 1 < entries.len() || random.below(2) == 0 {
                text.push_str(random.one_of(&["\n", "\n", "\r\n"]));
            }
        }
        self.calls.push(Call::Load(text));
    }
}

const WHITE_SPACE: [&str; 16] = [
    " ", "\t", " ", "\t", "\u{B}", "\u{C}", "\r", "  ", "\u{85}", "\u{A0}", "\u{1680}", "\u{2000}", "\u{200A}", "\u{202F}",
    "\u{205F}", "\u{3000}",
];

/// One book of the library, with its sizes.
struct Sized {
    book: Book,
    sizes: String,
}

// ---- numbers by chance, the same in every run

struct Random(u64);

impl Random {
    fn next(&mut self) -> u64 {
        self.0 = self.0.wrapping_add(0x9E37_79B9_7F4A_7C15);
        let mut z = self.0;
        z = (z ^ (z >> 30)).wrapping_mul(0xBF58_476D_1CE4_E5B9);
        z = (z ^ (z >> 27)).wrapping_mul(0x94D0_49BB_1331_11EB);
        z ^ (z >> 31)
    }

    fn below(&mut self, n: usize) -> usize {
        (self.next() % n as u64) as usize
    }

    fn one_of<T: Copy>(&mut self, choices: &[T]) -> T {
        choices[self.below(choices.len())]
    }
}

// ---- the comparison

#[derive(Default)]
struct Comparison {
    books: u64,
    sized_books: u64,
    sentences: u64,
    calls: u64,
    lookups: u64,
    cuts: u64,
    cuts_for_search: u64,
    cuts_all: u64,
    tokens: u64,
    /// Those whose UTF-16 offsets are other numbers than their character offsets.
    shifted: u64,
    rare: Rare,
    bare: Bare,
    differences: u64,
    work: Option<Work>,
    lent: Vec<u32>,
}

/// Of the sentences and answers those with characters of Extensions G, H and I, and how many of these sentences the Rust without
/// the three ranges cuts otherwise.
#[derive(Default)]
struct Rare {
    sentences: u64,
    answers: u64,
    otherwise: u64,
}

impl Rare {
    fn count(&mut self, rust: &Rust, cuts: &Cuts, sentence: &str, books: usize) {
        if has_rare(sentence) {
            self.sentences += 1;
            self.answers += 3 * books as u64;
            self.otherwise += u64::from(rust.plain.cuts(sentence) != *cuts);
        }
    }
}

/// The texts with bare words, these words, the sentences cut in books that have some, and how many of these sentences the Rust without
/// the 1 filled in cuts otherwise. Left out are sentences with characters of Extensions G, H and I.
#[derive(Default)]
struct Bare {
    texts: u64,
    words: u64,
    sentences: u64,
    otherwise: u64,
}

impl Bare {
    fn count(&mut self, rust: &Rust, cuts: &Cuts, sentence: &str) {
        if rust.bare_words > 0 && !has_rare(sentence) {
            self.sentences += 1;
            self.otherwise += u64::from(rust.unfilled.cuts(sentence) != *cuts);
        }
    }
}

impl Comparison {
    fn difference(&mut self, plan: &Plan, sizes: &str, what: &str, rust: &dyn std::fmt::Debug, library: &dyn std::fmt::Debug) {
        self.differences += 1;
        println!("DIFFERENCE: book {}, {sizes}, {what}", plan.name);
        println!("  Rust:    {rust:?}");
        println!("  library: {library:?}");
        if plan.held.len() < 50 {
            for call in &plan.calls {
                match call {
                    Call::Load(text) => println!("  load {text:?}"),
                    Call::Add(word, frequency) => println!("  add {word:?} {frequency}"),
                }
            }
        }
        if self.differences >= 20 {
            println!("stopped after {} differences", self.differences);
            exit(1);
        }
    }

    /// The Rust's book of a plan.
    fn rust_book(&mut self, plan: &Plan) -> Rust {
        let mut rust = Rust::empty();
        for call in &plan.calls {
            match call {
                Call::Load(text) => rust.load(text),
                Call::Add(word, frequency) => assert_eq!(rust.add(word, *frequency), if word.is_empty() { 0 } else { *frequency }),
            }
        }
        assert_eq!(rust.records_and_total(), (plan.held.len() as u64, plan.total));
        self.bare.texts += rust.bare_texts;
        self.bare.words += rust.bare_words;
        rust
    }

    /// The plan's book in these sizes, or nothing if its slots do not suffice.
    fn library_book(&mut self, plan: &Plan, root: usize, slots: usize, records: usize) -> Option<Sized> {
        let sizes = format!("{root} root entries, {slots} slots, {records} records");
        let mut book = Book::prepare(root, slots, records);
        for call in &plan.calls {
            match call {
                Call::Load(text) => {
                    let loaded = book.load(text.as_bytes());
                    if loaded.number == 7 {
                        return None;
                    }
                    let lines = text.split_inclusive('\n').count();
                    if (loaded.number, loaded.line) != (0, lines) {
                        self.difference(plan, &sizes, "load", &(0, lines), &(loaded.number, loaded.line));
                    }
                }
                Call::Add(word, frequency) => {
                    let added = book.add(word.as_bytes(), *frequency);
                    if added.number == 7 {
                        return None;
                    }
                    let expected = if word.is_empty() { 0 } else { *frequency };
                    if (added.number, added.frequency) != (0, expected) {
                        self.difference(plan, &sizes, "add", &(0, expected), &(added.number, added.frequency));
                    }
                }
            }
        }
        self.calls += plan.calls.len() as u64;
        let expected = (plan.held.len() as u64, plan.total);
        if (book.head()[0], book.head()[3]) != expected {
            self.difference(plan, &sizes, "records and total", &expected, &(book.head()[0], book.head()[3]));
        }
        Some(Sized { book, sizes })
    }

    /// The plan's book in six sizes: three root tables, each with slots just enough and ample.
    fn library_books(&mut self, plan: &Plan) -> Vec<Sized> {
        let mut books = Vec::new();
        let records = plan.held.len().max(1);
        for root in [1, 256, 65_536] {
            let mut slots = 16;
            let book = loop {
                if let Some(book) = self.library_book(plan, root, slots, records) {
                    break book;
                }
                slots *= 2;
            };
            books.push(book);
            books.push(self.library_book(plan, root, (slots * 16).min(4_194_304), records + 100).expect("ample slots"));
        }
        self.books += 1;
        self.sized_books += books.len() as u64;
        books
    }

    /// Compares one sentence in every size of a book.
    fn sentence(&mut self, plan: &Plan, rust: &Rust, books: &[Sized], sentence: &str) {
        let chars = sentence.chars().count();
        let cuts = rust.cuts(sentence);
        self.rare.count(rust, &cuts, sentence, books.len());
        self.bare.count(rust, &cuts, sentence);
        let Cuts { cut, search: searched, all: cut_all } = cuts;
        let mut work = self.work.take().unwrap_or_else(|| Work::new(1024, 16_384));
        work.reserve(16 * chars.min(100_000) + 3 * chars);
        for (i, sized) in books.iter().enumerate() {
            // Places exactly enough and more than enough, by turns.
            let spare = (self.sentences as usize + i) % 2 * 3;
            let length = chars + 1 + if spare > 0 && chars + 4 <= 1024 { 3 } else { 0 };

            // `cut` and `cut_for_search` by their own calls and by the mode, by turns.
            let by_mode = (self.sentences as usize / 2 + i) % 2 == 1;

            let mut lent = std::mem::take(&mut self.lent);
            lent.clear();
            lent.resize(cut.len() + TOKEN_WIDTH * spare, UNTOUCHED);
            let answer = match by_mode {
                false => sized.book.cut(sentence.as_bytes(), &mut work, length, &mut lent),
                true => sized.book.tokenize(sentence.as_bytes(), TokenizeMode::Default, &mut work, length, &mut lent),
            };
            self.cuts += 1;
            self.check(plan, sized, "cut", sentence, &cut, &answer, &lent);

            lent.clear();
            lent.resize(searched.len() + TOKEN_WIDTH * spare, UNTOUCHED);
            let answer = match by_mode {
                false => sized.book.cut_for_search(sentence.as_bytes(), &mut work, length, &mut lent),
                true => sized.book.tokenize(sentence.as_bytes(), TokenizeMode::Search, &mut work, length, &mut lent),
            };
            self.cuts_for_search += 1;
            self.check(plan, sized, "cut_for_search", sentence, &searched, &answer, &lent);

            lent.clear();
            lent.resize(cut_all.len() + TOKEN_WIDTH * spare, UNTOUCHED);
            let answer = sized.book.cut_all(sentence.as_bytes(), &mut work, length, &mut lent);
            self.cuts_all += 1;
            self.check(plan, sized, "cut_all", sentence, &cut_all, &answer, &lent);
            self.lent = lent;
        }
        assert!(searched.len() / TOKEN_WIDTH <= chars * 7 / 3, "search has more tokens than 7 thirds of the characters: {sentence:?}");
        for tokens in [&cut, &searched, &cut_all] {
            let shifted = tokens.chunks(TOKEN_WIDTH).filter(|token| token[4..6] != token[..2]).count();
            self.tokens += (tokens.len() / TOKEN_WIDTH * books.len()) as u64;
            self.shifted += (shifted * books.len()) as u64;
        }
        self.sentences += 1;
        self.work = Some(work);
    }

    #[allow(clippy::too_many_arguments)]
    fn check(&mut self, plan: &Plan, sized: &Sized, call: &str, sentence: &str, rust: &[u32], answer: &library::Cut, lent: &[u32]) {
        let same = answer.number == 0
            && answer.count * TOKEN_WIDTH == rust.len()
            && lent[..rust.len()] == *rust
            && lent[rust.len()..].iter().all(|&n| n == UNTOUCHED);
        if !same {
            let what = format!("{call} of {sentence:?}");
            self.difference(plan, &sized.sizes, &what, &rust, &(answer.number, answer.count, lent));
        }
    }

    /// Compares a word's frequency, or that it is absent, in every size of a book.
    fn word(&mut self, plan: &Plan, rust: &mut Rust, books: &[Sized], word: &str) {
        let rust = &mut rust.plain;
        let expected = if rust.has_word(word) { (0, 1, rust.frequency(word)) } else { (0, 0, 0) };
        let planned = plan.held.get(word).copied();
        assert_eq!(planned, (expected.1 == 1).then_some(expected.2), "the Rust and the plan part at {word:?}");
        for sized in books {
            let found = sized.book.lookup(word.as_bytes());
            let found = (found.number, found.held, found.frequency as u64);
            self.lookups += 1;
            if found != expected {
                self.difference(plan, &sized.sizes, &format!("lookup of {word:?}"), &expected, &found);
            }
        }
    }

    /// Compares the words of a plan, their beginnings and some words that lie near.
    fn words(&mut self, plan: &Plan, rust: &mut Rust, books: &[Sized]) {
        self.word(plan, rust, books, "");
        for word in plan.held.keys() {
            self.word(plan, rust, books, word);
            let last = word.chars().next_back().unwrap();
            let beginning = &word[..word.len() - last.len_utf8()];
            self.word(plan, rust, books, beginning);
            self.word(plan, rust, books, &format!("{word}{last}"));
            self.word(plan, rust, books, &format!("{beginning}丁"));
        }
    }

    fn report(&self, part: &str, since: Instant) {
        println!(
            "{part}: {} books in {} sizes, {} sentences; {} cut, {} cut_for_search, {} cut_all, {} lookup, {} load and add answers; {} tokens, {} of them elsewhere in UTF-16 than in characters; {} differences; {:.1} s",
            self.books, self.sized_books, self.sentences, self.cuts, self.cuts_for_search, self.cuts_all, self.lookups, self.calls,
            self.tokens, self.shifted, self.differences, since.elapsed().as_secs_f64(),
        );
        let Rare { sentences, answers, otherwise } = self.rare;
        println!("  with characters of Extensions G, H and I: {sentences} sentences, {answers} cuts; the Rust without them cuts {otherwise} otherwise");
        let Bare { texts, words, sentences, otherwise } = self.bare;
        println!("  with bare words: {texts} texts, {words} bare words, {sentences} sentences; the Rust without the 1 filled in cuts {otherwise} otherwise");
    }

    fn answers(&self) -> u64 {
        self.cuts + self.cuts_for_search + self.cuts_all + self.lookups + self.calls
    }
}

// ---- every short sentence

const ALPHABET: [char; 17] =
    ['甲', '乙', '\u{20000}', 'a', 'B', '1', '.', '_', '-', '+', '#', '&', '%', '\r', '\n', ' ', '，'];

/// Every sentence over an alphabet of at most so many characters.
fn every_sentence(alphabet: &[char], longest: usize, mut each: impl FnMut(&str)) {
    let mut sentence = String::new();
    for length in 0..=longest {
        let mut places = vec![0; length];
        loop {
            sentence.clear();
            sentence.extend(places.iter().map(|&i| alphabet[i]));
            each(&sentence);
            let Some(last) = places.iter().rposition(|&i| i + 1 < alphabet.len()) else { break };
            places[last] += 1;
            places[last + 1..].fill(0);
        }
    }
}

/// Document 01's book A.
fn book_a() -> Plan {
    let mut plan = Plan::new("A".to_string());
    plan.load(&[
        ("打开", 256), ("开灯", 256), ("打", 64), ("开", 64), ("灯", 128), ("客厅", 128), ("客厅灯", 64), ("厅灯", 64),
    ]);
    plan
}

/// Books over the alphabet of the short sentences, and those of document 01's examples.
fn short_books() -> Vec<Plan> {
    let words = [
        "甲", "甲乙", "乙甲", "甲乙甲", "\u{20000}", "甲\u{20000}", "\u{20000}\u{20000}", "a", "a1", "1", "1.1", "a-", "B_a", "甲a",
        "a甲", "+#", "&", "#1", "-1", "%", "1%", "乙.", "._",
    ];
    let mut books = vec![Plan::new("empty".to_string())];

    let mut plan = Plan::new("mixed".to_string());
    plan.load(&words.iter().enumerate().map(|(i, &word)| (word, (i * i * 7 + 3) as u64)).collect::<Vec<_>>());
    books.push(plan);

    let mut plan = Plan::new("total 0".to_string());
    plan.load(&words.map(|word| (word, 0)));
    books.push(plan);

    let mut plan = Plan::new("frequencies 0, total 1".to_string());
    plan.load(&words.map(|word| (word, 0)));
    plan.add("丙", 1);
    books.push(plan);

    let mut plan = Plan::new("ties".to_string());
    for (i, word) in words.iter().enumerate() {
        plan.add(word, 1 << (2 * (4 - word.chars().count()) + i % 2));
    }
    plan.add("丙", 4096 - plan.total);
    books.push(plan);

    let mut plan = Plan::new("all 1".to_string());
    plan.load(&words.map(|word| (word, 1)));
    books.push(plan);

    let mut plan = Plan::new("one word of 2^32-1".to_string());
    plan.load(&words.map(|word| (word, 0)));
    plan.add("甲乙", GREATEST);
    books.push(plan);

    let mut plan = Plan::new("words outside the class".to_string());
    for (i, word) in ["甲 乙", "\r\n", "a\n", "，", "甲，", " ", "\n1", "乙\r", "甲", "1 ", "a甲", "\u{20000}乙"].iter().enumerate() {
        plan.add(word, (i as u64 + 1) * 11);
    }
    books.push(plan);

    let mut plan = Plan::new("every pair".to_string());
    let mut random = Random(SEED);
    every_sentence(&ALPHABET, 2, |word| {
        if !word.is_empty() {
            plan.add(word, frequency_by_chance(&mut random) % 100_000);
        }
    });
    books.push(plan);

    books.push(book_a());
    books
}

fn compare_short(comparison: &mut Comparison) {
    for plan in short_books() {
        let mut rust = comparison.rust_book(&plan);
        let books = comparison.library_books(&plan);
        every_sentence(&ALPHABET, 4, |sentence| comparison.sentence(&plan, &rust, &books, sentence));
        every_sentence(&['打', '开', '客', '厅', '灯', 'a'], 5, |sentence| comparison.sentence(&plan, &rust, &books, sentence));
        comparison.words(&plan, &mut rust, &books);
    }
}

// ---- every short sentence with rare characters

/// The first and the last character of Extensions I, G and H and their neighbours, beside what else parts or joins a sentence.
const RARE_ALPHABET: [char; 14] = [
    '\u{2EBEF}', '\u{2EBF0}', '\u{2EE5F}', '\u{2EE60}', '\u{2FFFF}', '\u{30000}', '\u{3134F}', '\u{31350}', '\u{323AF}', '\u{323B0}',
    '甲', 'a', '-', '，',
];

/// Books over the alphabet of rare characters.
fn rare_books() -> Vec<Plan> {
    let mut books = vec![Plan::new("empty".to_string())];
    let mut pairs = Plan::new("every rare pair".to_string());
    let mut random = Random(SEED);
    every_sentence(&RARE_ALPHABET, 2, |word| {
        if !word.is_empty() {
            pairs.add(word, frequency_by_chance(&mut random) % 100_000);
        }
    });
    books.push(pairs);
    let mut long = Plan::new("long rare words".to_string());
    long.load(&[
        ("\u{2EBEF}\u{2EBF0}\u{2EE5F}", 60), ("\u{2EBEF}\u{2EBF0}", 20), ("\u{2EBF0}\u{2EE5F}", 10), ("\u{2EE5F}\u{2EE60}", 90),
        ("\u{2FFFF}\u{30000}", 90), ("\u{30000}\u{3134F}\u{31350}\u{323AF}", 80), ("\u{3134F}\u{31350}", 5), ("\u{30000}\u{3134F}\u{31350}", 4),
        ("\u{31350}\u{323AF}", 70), ("\u{323AF}\u{323B0}", 90), ("甲\u{30000}", 30), ("\u{323AF}甲", 30), ("a\u{3134F}-\u{31350}", 50), ("甲", 7),
    ]);
    books.push(long);
    books
}

fn compare_rare(comparison: &mut Comparison) {
    for plan in rare_books() {
        let mut rust = comparison.rust_book(&plan);
        let books = comparison.library_books(&plan);
        every_sentence(&RARE_ALPHABET, 4, |sentence| comparison.sentence(&plan, &rust, &books, sentence));
        comparison.words(&plan, &mut rust, &books);
    }
    assert!(comparison.rare.otherwise > 0, "the Rust without Extensions G, H and I cuts every sentence alike");
}

// ---- every short sentence with bare words

/// Books over the alphabet of the short sentences, of bare words and of these beside the frequencies 0, 1 and 2.
fn bare_books() -> Vec<Plan> {
    let words = [
        "甲", "甲乙", "乙甲", "甲乙甲", "\u{20000}", "甲\u{20000}", "\u{20000}\u{20000}", "a", "a1", "1", "1.1", "a-", "B_a", "甲a",
        "a甲", "+#", "&", "#1", "-1", "%", "1%", "乙.", "._", "乙", "乙\u{20000}", "1甲",
    ];
    let books = [
        ("bare words", &["", "\r", "\u{3000}", "\t", " \u{85}"][..]),
        ("bare words beside 0, 1 and 2", &["", " 0", "\r", " 1", "\u{3000}", "\t", " 2"][..]),
    ];
    let plan = |(name, rests): (&str, &[&str])| {
        let mut plan = Plan::new(name.to_string());
        let lines = words.iter().zip(rests.iter().cycle()).map(|(word, rest)| format!("{word}{rest}\n"));
        plan.load_text(&lines.collect::<String>());
        plan
    };
    books.map(plan).into()
}

fn compare_bare(comparison: &mut Comparison) {
    for plan in bare_books() {
        let mut rust = comparison.rust_book(&plan);
        let books = comparison.library_books(&plan);
        every_sentence(&ALPHABET, 4, |sentence| comparison.sentence(&plan, &rust, &books, sentence));
        comparison.words(&plan, &mut rust, &books);
    }
    assert!(comparison.bare.otherwise > 0, "the Rust without the 1 filled in cuts every sentence alike");
}

// ---- books and sentences by chance

/// Characters at the ends of every range that is treated apart: classes, white space, lengths in UTF-8, root tables. All that comes by
/// chance goes by how many they are, the sample with it; Extensions G, H and I have an alphabet of their own above.
const BOUNDARY: [u32; 119] = [
    0x0, 0x1, 0x8, 0x9, 0xA, 0xB, 0xC, 0xD, 0xE, 0x1C, 0x1F, 0x20, 0x21, 0x22, 0x23, 0x24, 0x25, 0x26, 0x27, 0x2A, 0x2B, 0x2C, 0x2D,
    0x2E, 0x2F, 0x30, 0x39, 0x3A, 0x40, 0x41, 0x5A, 0x5B, 0x5E, 0x5F, 0x60, 0x61, 0x7A, 0x7B, 0x7F, 0x80, 0x84, 0x85, 0x86, 0x9F,
    0xA0, 0xA1, 0xFF, 0x100, 0x7FF, 0x800, 0x167F, 0x1680, 0x1681, 0x180E, 0x1FFF, 0x2000, 0x200A, 0x200B, 0x2027, 0x2028, 0x2029,
    0x202A, 0x202E, 0x202F, 0x2030, 0x205E, 0x205F, 0x2060, 0x2FFF, 0x3000, 0x3001, 0x33FF, 0x3400, 0x4DBF, 0x4DC0, 0x4DFF, 0x4E00,
    0x4E01, 0x9FD5, 0x9FD6, 0x9FFF, 0xA000, 0xD7FF, 0xE000, 0xF8FF, 0xF900, 0xFAFF, 0xFB00, 0xFEFF, 0xFF0C, 0xFF10, 0xFF21, 0xFFFD,
    0xFFFE, 0xFFFF, 0x10000, 0x1FFFF, 0x20000, 0x2A6DF, 0x2A6E0, 0x2A6FF, 0x2A700, 0x2B73F, 0x2B740, 0x2B81F, 0x2B820, 0x2CEAF,
    0x2CEB0, 0x2EBEF, 0x2EBF0, 0x2F7FF, 0x2F800, 0x2FA1F, 0x2FA20, 0x30000, 0x3134F, 0x10FFFE, 0x10FFFF, 0x4E59,
];

fn boundary(random: &mut Random) -> char {
    char::from_u32(random.one_of(&BOUNDARY)).unwrap()
}

fn any_character(random: &mut Random) -> char {
    match random.below(8) {
        0 | 1 => boundary(random),
        2 => random.one_of(&ALPHABET),
        3 => char::from_u32(0x20 + random.below(0x5F) as u32).unwrap(),
        4 => char::from_u32(0x20000 + random.below(0x1000) as u32).unwrap(),
        _ => char::from_u32(0x4E00 + random.below(0x200) as u32).unwrap(),
    }
}

fn frequency_by_chance(random: &mut Random) -> u64 {
    let power = 1u64 << random.below(33);
    match random.below(10) {
        0 => 0,
        1 => 1,
        2 => power.min(GREATEST),
        3 => power - 1,
        4 => (power + 1).min(GREATEST),
        5 => GREATEST,
        6 => random.next() >> 32,
        _ => random.below(1000) as u64,
    }
}

/// A book by chance.
fn plan_by_chance(random: &mut Random, number: usize, words: usize) -> (Plan, Vec<char>) {
    let mut plan = Plan::new(format!("{number} by chance"));
    let characters = grow_by_chance(&mut plan, random, number, words);
    (plan, characters)
}

/// Calls by chance, of one of seven kinds, and the characters of their words.
fn grow_by_chance(plan: &mut Plan, random: &mut Random, number: usize, words: usize) -> Vec<char> {
    let kind = number % 7;
    let letters = if words > 100 { 400 } else { [8, 3, 4, 4, 20, 6, 5][kind] };
    let characters: Vec<char> =
        (0..letters).map(|_| if kind == 0 { boundary(random) } else { any_character(random) }).collect();
    let frequency = |random: &mut Random| match kind {
        1 => 1 << (2 * random.below(6)),
        2 | 3 => 0,
        6 => random.below(5) as u64,
        _ if words > 100 => random.below(1_000_000) as u64,
        _ => frequency_by_chance(random),
    };
    // Of the books whose frequencies are 0 every second has no bare words, so that it still has the total 0, or 1 by the last call.
    let bare = !matches!(kind, 2 | 3) || number % 2 == 1;
    let mut entries = Vec::new();
    for _ in 0..1 + random.below(words) + words / 2 {
        let longest = if random.below(12) == 0 { 12 } else { 4 };
        let length = 1 + random.below(longest);
        let word: String = (0..length).map(|_| random.one_of(&characters)).collect();
        let frequency = frequency(random);
        entries.push((word, frequency));
    }
    // Loads take words without white space; additions take every word. Some words enter twice.
    while !entries.is_empty() {
        let together = 1 + random.below(entries.len());
        let some: Vec<(String, u64)> = entries.drain(..together).collect();
        if random.below(3) == 0 && words <= 100 {
            for (word, frequency) in &some {
                plan.add(word, *frequency);
            }
        } else {
            let some: Vec<(String, u64)> =
                some.into_iter().filter(|(word, _)| !word.contains(char::is_whitespace)).collect();
            plan.load_oddly(random, &some, bare);
        }
        if random.below(20) == 0 {
            plan.add("", 5);
        }
    }
    match kind {
        // Ties: the total is a power of two, so that every logarithm is exact.
        1 => plan.add("丙丁", (plan.total + 1).next_power_of_two() - plan.total),
        3 => plan.add("丙丁", 1),
        5 => plan.add("丙丁", GREATEST),
        _ => {}
    }
    characters
}

fn sentence_by_chance(random: &mut Random, held: &[&str], characters: &[char], pieces: usize) -> String {
    let mut sentence = String::new();
    for _ in 0..random.below(pieces + 1) {
        match random.below(10) {
            0 => sentence.push(any_character(random)),
            1 => sentence.push_str(random.one_of(&["\r\n", "a1", "WES-5.4.5", "，", " ", "\n", "100%"])),
            2..=4 => sentence.push(random.one_of(characters)),
            _ if held.is_empty() => sentence.push(random.one_of(characters)),
            _ => sentence.push_str(random.one_of(held)),
        }
    }
    sentence
}

fn compare_by_chance(comparison: &mut Comparison, books: usize, words: usize, sentences: usize, otherwise: &mut Otherwise) {
    let mut random = Random(SEED + words as u64);
    for number in 0..books {
        let (plan, characters) = plan_by_chance(&mut random, number, words);
        let mut rust = comparison.rust_book(&plan);
        let books = comparison.library_books(&plan);
        comparison.words(&plan, &mut rust, &books);
        let held: Vec<&str> = plan.held.keys().map(String::as_str).collect();
        // The Rust with the true ln is asked about every tenth book.
        let asked = (number % 10 == 0).then(|| {
            let mut true_ln = with_ln::Rust::empty();
            for call in &plan.calls {
                match call {
                    Call::Load(text) => true_ln.load(&filled(text)),
                    Call::Add(word, frequency) => {
                        true_ln.add(word, *frequency);
                    }
                }
            }
            true_ln
        });
        for i in 0..sentences {
            let pieces = if i == 0 { 300 } else { 16 };
            let sentence = sentence_by_chance(&mut random, &held, &characters, pieces);
            comparison.sentence(&plan, &rust, &books, &sentence);
            if let Some(true_ln) = &asked {
                otherwise.ask(&plan, &rust.plain, true_ln, &sentence);
            }
        }
    }
}

// ---- sentences that the true ln cuts otherwise

struct Otherwise {
    asked: u64,
    cut_otherwise: u64,
    list: Box<dyn std::io::Write>,
    named: String,
}

impl Otherwise {
    /// Both by the Rust's own ranges, so that they part by the logarithm alone.
    fn ask(&mut self, plan: &Plan, rust: &with_l::Rust, true_ln: &with_ln::Rust, sentence: &str) {
        self.asked += 1;
        let with_l = rust.cut(sentence);
        let with_ln = true_ln.cut(sentence);
        if with_l == with_ln {
            return;
        }
        self.cut_otherwise += 1;
        if self.named != plan.name {
            self.named.clone_from(&plan.name);
            let held = if plan.held.len() < 100 { format!("{:?}", plan.held) } else { format!("{} words", plan.held.len()) };
            writeln!(self.list, "book {}, total {}: {held}", plan.name, plan.total).unwrap();
        }
        writeln!(self.list, "  L  {}", readable(sentence, &with_l)).unwrap();
        writeln!(self.list, "  ln {}", readable(sentence, &with_ln)).unwrap();
    }

    fn report(&mut self, part: &str) {
        println!("{part}: with the true ln {} of {} sentences are cut otherwise", self.cut_otherwise, self.asked);
        self.asked = 0;
        self.cut_otherwise = 0;
    }
}

/// Tokens with a bar between two, control characters escaped.
fn readable(sentence: &str, tokens: &[u32]) -> String {
    let words: Vec<String> =
        tokens.chunks(TOKEN_WIDTH).map(|t| sentence[t[2] as usize..t[3] as usize].escape_debug().to_string()).collect();
    words.join("|")
}

// ---- a real dictionary and a real text

fn compare_real(comparison: &mut Comparison, dict: &str, text: &str, otherwise: &mut Otherwise) {
    let mut plan = Plan::new(format!("{} lines of a real dictionary", dict.lines().count()));
    plan.load_text(dict);
    let mut rust = comparison.rust_book(&plan);
    let mut true_ln = with_ln::Rust::empty();
    true_ln.load(&filled(dict));
    let records = plan.held.len();
    let books: Vec<Sized> = [(65_536, 1_048_576, records), (256, 1_048_576, records + 1), (1, 4_194_304, 1_048_576)]
        .iter()
        .map(|&(root, slots, records)| comparison.library_book(&plan, root, slots, records).expect("slots suffice"))
        .collect();
    comparison.books += 1;
    comparison.sized_books += books.len() as u64;
    println!("real dictionary: {records} words, total {}, {} slots used of 1048576", plan.total, books[0].book.head()[1]);
    comparison.words(&plan, &mut rust, &books);

    let mut lines = 0;
    for line in text.split_inclusive('\n') {
        comparison.sentence(&plan, &rust, &books, line);
        otherwise.ask(&plan, &rust.plain, &true_ln, line);
        lines += 1;
    }
    println!("real text: {lines} lines, {} bytes", text.len());

    // The text as long sentences, up to the greatest length.
    for length in [1000, 65_536, 1_000_000, 15_000_000, 16_777_215] {
        let sentence = repeated(text, length);
        comparison.sentence(&plan, &rust, &books[..1], &sentence);
        otherwise.ask(&plan, &rust.plain, &true_ln, &sentence);
    }
}

/// The text, as often as needed, cut to the greatest whole number of characters of at most so many bytes.
fn repeated(text: &str, length: usize) -> String {
    let mut long = text.repeat(length / text.len() + 1);
    let mut end = length;
    while !long.is_char_boundary(end) {
        end -= 1;
    }
    long.truncate(end);
    long
}

// ---- the sample

fn hexadecimal(bytes: &[u8]) -> String {
    bytes.iter().map(|byte| format!("{byte:02x}")).collect()
}

/// The line that ends the sample in `stdin`; what follows it there and in `stdout` is kept.
const OUR_OWN: &str = "# frames of our own";

/// Lines for the program `cutlines`, and the lines that must answer them: one growing book, in a plan and in the Rust.
struct Sample {
    list: String,
    answers: String,
    plan: Plan,
    rust: Rust,
    random: Random,
}

impl Sample {
    /// A line that is no frame.
    fn comment(&mut self, line: &str) {
        assert!(line.starts_with('#'));
        writeln!(self.list, "{line}").unwrap();
        writeln!(self.answers, "fe").unwrap();
    }

    /// A frame, and the answer to it: the number 0, a count and the tokens' numbers.
    fn frame(&mut self, kind: u8, text: &str, count: usize, tokens: &[u32]) {
        assert!(text.len() <= 1024 && count <= 1024 && tokens.len() <= TOKEN_WIDTH * 512, "a frame that `cutlines` cannot answer");
        let numbers: String = tokens.iter().map(|n| format!("{n:04x}")).collect();
        writeln!(self.list, "{kind:02x}{}", hexadecimal(text.as_bytes())).unwrap();
        writeln!(self.answers, "00{count:04x}{numbers}").unwrap();
    }

    fn cuts(&mut self, sentence: &str) {
        let Cuts { cut, search, all } = self.rust.cuts(sentence);
        for (kind, tokens) in [(2, cut), (3, all), (4, search)] {
            self.frame(kind, sentence, tokens.len() / TOKEN_WIDTH, &tokens);
        }
    }

    /// Sentences of document 01, and three by chance: of the words that came last, and of all.
    fn sentences(&mut self, last: &[&str]) {
        for sentence in ["", "打开灯", "打开客厅灯", "甲乙", "WES-5.4.5", "ab-1\r\n!"] {
            self.cuts(sentence);
        }
        let all: Vec<String> = self.plan.held.keys().cloned().collect();
        let all: Vec<&str> = all.iter().map(String::as_str).collect();
        for words in [last, last, &all] {
            if words.is_empty() {
                continue;
            }
            let characters: Vec<char> = words.iter().flat_map(|word| word.chars()).collect();
            let sentence = sentence_by_chance(&mut self.random, words, &characters, 10);
            self.cuts(&sentence);
        }
    }

    /// The Rust takes the plan's calls since the last time, which are loads, and cuts sentences after each.
    fn take_calls(&mut self) {
        for call in std::mem::take(&mut self.plan.calls) {
            let Call::Load(text) = call else { unreachable!("`cutlines` has no additions") };
            self.rust.load(&text);
            self.frame(1, &text, text.split_inclusive('\n').count(), &[]);
            let words: Vec<&str> = text.split('\n').filter_map(|line| line.split_whitespace().next()).collect();
            self.sentences(&words);
        }
        assert_eq!(self.rust.records_and_total(), (self.plan.held.len() as u64, self.plan.total));
    }

    fn load(&mut self, entries: &[(&str, u64)]) {
        self.plan.load(entries);
        assert!(entries.iter().all(|&(word, frequency)| self.plan.held[word] == frequency), "the total has no room");
        self.take_calls();
    }

    /// The loads of plain lines that a plan has.
    fn load_again(&mut self, plan: &Plan) {
        for call in &plan.calls {
            if let Call::Load(text) = call {
                let entries = text.lines().map(|line| line.split_once(' ').unwrap());
                self.load(&entries.map(|(word, frequency)| (word, frequency.parse().unwrap())).collect::<Vec<_>>());
            }
        }
    }

    /// Every held word above a frequency gets a small one.
    fn lower(&mut self, above: u64, step: u64) {
        let large = self.plan.held.iter().filter(|&(_, &frequency)| frequency > above);
        let entries: Vec<(String, u64)> = large.zip(0..).map(|((word, _), i)| (word.clone(), i * step)).collect();
        if !entries.is_empty() {
            self.load(&entries.iter().map(|(word, frequency)| (word.as_str(), *frequency)).collect::<Vec<_>>());
        }
    }

    /// Every held word gets frequency 0.
    fn clear(&mut self) {
        self.lower(0, 0);
        assert_eq!(self.plan.total, 0);
    }

    /// Note 9's characters: a name with one, the ends of Extensions I, G and H, and words that run over them, which are never cut.
    /// Afterwards the total is what it was.
    fn rare_names(&mut self) {
        let total = self.plan.total;
        let words = [
            "\u{30EDE}", "\u{30EDE}家", "\u{2EBEF}\u{2EBF0}", "\u{2EE5F}\u{2EE60}", "\u{2FFFF}\u{30000}", "\u{3134F}\u{31350}",
            "\u{30000}\u{3134F}\u{31350}\u{323AF}", "\u{323AF}\u{323B0}",
        ];
        self.load(&words.map(|word| (word, 100)));
        for sentence in [
            "打开\u{30EDE}家灯", "\u{2EBEF}\u{2EBF0}\u{2EE5F}\u{2EE60}", "\u{2FFFF}\u{30000}\u{3134F}\u{31350}\u{323AF}\u{323B0}",
            "\u{3134F}\u{31350}，\u{323B0}\u{30EDE}",
        ] {
            self.cuts(sentence);
        }
        self.load(&words.map(|word| (word, 0)));
        assert_eq!(self.plan.total, total);
    }

    /// Note 7's bare words, with white space behind them, beside words of frequency 0: if they counted 0, 打开灯 would be cut as 打开 灯.
    /// They are book A's, which is loaded again afterwards, so that the total is what it was.
    fn bare_words(&mut self) {
        let total = self.plan.total;
        self.plan.load_text("打开 0\n开灯\n打\r\n\n\u{3000}开\t\n灯\u{3000}\n客厅\u{A0}\r\n客厅灯 \n厅灯 0");
        self.take_calls();
        self.load_again(&book_a());
        assert_eq!(self.plan.total, total);
    }

    /// The slots that the held words take beside 256 root entries.
    fn slots(&self) -> usize {
        let mut steps = std::collections::BTreeSet::new();
        for word in self.plan.held.keys() {
            for (start, c) in word.char_indices() {
                if start > 0 || u32::from(c) >= 256 {
                    steps.insert(&word[..start + c.len_utf8()]);
                }
            }
        }
        steps.len()
    }
}

fn sample_heading() -> String {
    format!(
        "\
# The lines down to \"{OUR_OWN}\" are made by `oracle/compare FOLDER --sample` (seed {SEED}), and so are the lines
# that answer them in `stdout`; not edited by hand. The answers are the Rust's (jieba-rs, commit bac49e65b8, with document 01's
# logarithm L in place of ln, HMM off, and with note 9's ranges of Han for sentences that have such characters), with UTF-16 offsets
# worked out from its words; a load's says that the Rust accepted the text, and how many lines the text has. The Rust got the texts
# with a space and 1 after each word that has no frequency, which note 7 has count 1.
"
    )
}

fn sample() -> Sample {
    let mut sample = Sample {
        list: String::new(),
        answers: String::new(),
        plan: Plan::new("the sample".to_string()),
        rust: Rust::empty(),
        random: Random(SEED),
    };
    for line in sample_heading().lines() {
        sample.comment(line);
    }

    // Document 01's examples, each with the total that it has there: what is held from an earlier one gets frequency 0.
    sample.sentences(&[]);
    sample.load(&[("甲", 0), ("甲乙", 0)]);
    sample.load(&[("丙", 1)]);
    sample.load(&[("甲", 16), ("乙", 16), ("甲乙", 4), ("丙", 28)]);
    sample.load(&[("甲乙", 3), ("丙", 29)]);
    assert_eq!(sample.plan.total, 64);
    sample.clear();
    sample.load_again(&book_a());
    assert_eq!(sample.plan.total, 1024);
    sample.clear();
    sample.load(&[("WES", 1), ("WES-5.4.5", 1)]);
    assert_eq!(sample.plan.total, 2);

    // The books of the short sentences, and eight by chance.
    for plan in short_books() {
        if plan.held.len() < 100 && plan.calls.iter().all(|call| matches!(call, Call::Load(_))) {
            sample.load_again(&plan);
        }
    }
    let mut number = 0;
    let mut taken = 0;
    while taken < 8 {
        // The total has room for large frequencies again.
        sample.lower(1_000_000, 10);
        let mut plan = sample.plan.clone();
        grow_by_chance(&mut plan, &mut sample.random, number, 10);
        number += 1;
        let can_be_loaded = |call: &Call| matches!(call, Call::Load(text) if text.len() <= 1024);
        if plan.held.len() >= sample.plan.held.len() + 4 && plan.calls.iter().all(can_be_loaded) {
            sample.plan = plan;
            sample.take_calls();
            taken += 1;
        }
    }
    sample.rare_names();
    sample.bare_words();
    sample.comment(OUR_OWN);
    let (records, slots, bare) = (sample.plan.held.len(), sample.slots(), sample.rust.bare_words);
    println!("sample: {} lines, {bare} bare words; {records} records, {slots} slots", sample.list.lines().count());
    assert!(records <= 256 - 60 && slots <= 768 - 160, "no room for the frames of our own");
    sample
}

/// Writes the sample's lines, and keeps those after its last one.
fn write_sample(folder: &str, sample: &Sample) {
    let old = |name: &str| std::fs::read(format!("{folder}/{name}")).unwrap_or_default();
    let (old_list, old_answers) = (old("stdin"), old("stdout"));
    let lines = |text| <[u8]>::split_inclusive(text, |&byte| byte == b'\n').collect::<Vec<_>>();
    let (old_list, old_answers): (Vec<&[u8]>, Vec<&[u8]>) = (lines(&old_list), lines(&old_answers));
    let sampled = old_list.iter().position(|line| line.trim_ascii_end() == OUR_OWN.as_bytes()).map_or(old_list.len(), |i| i + 1);
    for (name, new, old) in [("stdin", &sample.list, old_list), ("stdout", &sample.answers, old_answers)] {
        let path = format!("{folder}/{name}");
        let kept = old.get(sampled..).unwrap_or_default().concat();
        std::fs::write(&path, [new.as_bytes(), &kept].concat()).unwrap_or_else(|error| {
            eprintln!("compare: {path}: {error}");
            exit(2)
        });
    }
}

// ---- the program

/// The lines of a file that are UTF-8.
fn read(path: &str) -> String {
    let bytes = std::fs::read(path).unwrap_or_else(|error| {
        eprintln!("compare: {path}: {error}");
        exit(2)
    });
    bytes.split_inclusive(|&byte| byte == b'\n').filter_map(|line| std::str::from_utf8(line).ok()).collect()
}

fn main() {
    let arguments: Vec<String> = std::env::args().skip(1).collect();
    let after = |name: &str| arguments.iter().position(|a| a == name).map(|i| arguments[i + 1].clone());
    if let Some(folder) = after("--sample") {
        write_sample(&folder, &sample());
        return;
    }
    let mut otherwise = Otherwise { asked: 0, cut_otherwise: 0, list: Box::new(std::io::sink()), named: String::new() };
    if let Some(path) = after("--list") {
        otherwise.list = Box::new(std::fs::File::create(path).expect("the list cannot be written"));
    }
    let mut all = (0, 0, 0);
    let mut bare = (0, 0);
    let mut part = |name: &str, run: &mut dyn FnMut(&mut Comparison)| {
        let since = Instant::now();
        let mut comparison = Comparison::default();
        run(&mut comparison);
        comparison.report(name, since);
        all.0 += comparison.answers();
        all.1 += comparison.rare.answers;
        all.2 += comparison.differences;
        bare.0 += comparison.bare.texts;
        bare.1 += comparison.bare.words;
    };
    println!("seed {SEED}");
    part("every short sentence", &mut |c| compare_short(c));
    part("every short sentence with rare characters", &mut |c| compare_rare(c));
    part("every short sentence with bare words", &mut |c| compare_bare(c));
    part("small books by chance", &mut |c| compare_by_chance(c, 3000, 12, 30, &mut otherwise));
    part("larger books by chance", &mut |c| compare_by_chance(c, 40, 3000, 200, &mut otherwise));
    otherwise.report("every tenth book by chance");
    match (after("--dict"), after("--text")) {
        (Some(dict), Some(text)) => {
            let (dict, text) = (read(&dict), read(&text));
            part("real dictionary and text", &mut |c| compare_real(c, &dict, &text, &mut otherwise));
            otherwise.report("real text");
        }
        _ => println!("real dictionary and text: not given, skipped"),
    }
    println!("{} texts with {} bare words, each filled in with 1 for the Rust", bare.0, bare.1);
    println!("{} answers compared, {} of them with Extensions G, H and I; {} differences", all.0, all.1, all.2);
    exit(if all.2 == 0 { 0 } else { 1 });
}
