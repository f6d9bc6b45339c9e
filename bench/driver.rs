//! Measures the static library beside the Rust, both in this process, on the same dictionary and text: `bench/run` builds and
//! runs it.
//!
//!     driver DICTIONARY TEXT...
//!
//! The Rust is the one with document 01's logarithm L in place of `ln` (jieba_l), so that both sides do the same work. Its calls
//! make their own vectors; ours write into areas that are lent and lent again.
//! The two sides take turns, run by run, so that a busy machine hits both.

#[path = "../oracle/library.rs"]
mod library;

use jieba_l::Jieba;
use library::{Book, Work};

const RUNS: usize = 11;

#[repr(C)]
struct Timespec {
    seconds: i64,
    nanoseconds: i64,
}

unsafe extern "C" {
    fn clock_gettime(clock: i32, time: *mut Timespec) -> i32;
}

/// The processor time that this thread has taken so far, in seconds: other programs' turns do not count.
fn processor_time() -> f64 {
    const CLOCK_THREAD_CPUTIME_ID: i32 = 3;
    let mut time = Timespec { seconds: 0, nanoseconds: 0 };
    assert_eq!(unsafe { clock_gettime(CLOCK_THREAD_CPUTIME_ID, &mut time) }, 0);
    time.seconds as f64 + time.nanoseconds as f64 / 1e9
}

/// Seconds of processor time of each run of both sides, by turns.
struct Times {
    rust: Vec<f64>,
    library: Vec<f64>,
}

fn measure(runs: usize, mut rust: impl FnMut() -> usize, mut library: impl FnMut() -> usize) -> Times {
    let mut times = Times { rust: Vec::new(), library: Vec::new() };
    for _ in 0..runs {
        let start = processor_time();
        let of_rust = rust();
        let middle = processor_time();
        let of_library = library();
        let end = processor_time();
        times.rust.push(middle - start);
        times.library.push(end - middle);
        assert_eq!(of_rust, of_library, "the two sides answered otherwise");
    }
    times.rust.sort_by(f64::total_cmp);
    times.library.sort_by(f64::total_cmp);
    times
}

impl Times {
    /// One line: what each side does in a second at its best and in the middle, and how many times the Rust's speed ours is.
    fn print(&self, name: &str, amount: f64, unit: &str) {
        let middle = self.rust.len() / 2;
        println!(
            "{name:<28} Rust {:8.2} best {:8.2} median   library {:8.2} best {:8.2} median {unit}   ratio {:.2} best {:.2} median",
            amount / self.rust[0],
            amount / self.rust[middle],
            amount / self.library[0],
            amount / self.library[middle],
            self.rust[0] / self.library[0],
            self.rust[middle] / self.library[middle],
        );
    }
}

/// The library's areas for cutting sentences of at most so many bytes.
struct Areas {
    work: Work,
    length: usize,
    tokens: Vec<u32>,
}

impl Areas {
    fn new(bytes: usize) -> Self {
        Areas { work: Work::new(bytes, 4 * bytes), length: bytes + 1, tokens: vec![0; 6 * (3 * bytes + 16)] }
    }

    fn cut(&mut self, book: &Book, sentence: &str) -> usize {
        let cut = book.cut(sentence.as_bytes(), &mut self.work, self.length, &mut self.tokens);
        assert_eq!(cut.number, 0);
        cut.count
    }

    fn cut_for_search(&mut self, book: &Book, sentence: &str) -> usize {
        let cut = book.cut_for_search(sentence.as_bytes(), &mut self.work, self.length, &mut self.tokens);
        assert_eq!(cut.number, 0);
        cut.count
    }

    fn cut_all(&mut self, book: &Book, sentence: &str) -> usize {
        let cut = book.cut_all(sentence.as_bytes(), &mut self.work, self.length, &mut self.tokens);
        assert_eq!(cut.number, 0);
        cut.count
    }
}

/// The same sentences in both sides' books, so many times a run, which is so much.
struct Sentences<'a> {
    rust: &'a Jieba,
    book: &'a Book,
    areas: Areas,
    sentences: &'a [&'a str],
    runs: usize,
    times: usize,
    amount: f64,
    unit: &'a str,
}

impl Sentences<'_> {
    /// One cut measured: the tokens of a sentence by each side.
    fn cut(&mut self, name: &str, rust: impl Fn(&Jieba, &str) -> usize, library: impl Fn(&mut Areas, &Book, &str) -> usize) {
        let Sentences { rust: jieba, book, areas, sentences, times, .. } = self;
        measure(
            self.runs,
            || (0..*times).map(|_| sentences.iter().map(|sentence| rust(jieba, sentence)).sum::<usize>()).sum(),
            || (0..*times).map(|_| sentences.iter().map(|sentence| library(areas, book, sentence)).sum::<usize>()).sum(),
        )
        .print(name, self.amount, self.unit);
    }

    fn cuts(&mut self) {
        self.cut("cut", |rust, sentence| rust.cut(sentence, false).len(), Areas::cut);
        self.cut("cut_all", |rust, sentence| rust.cut_all(sentence).len(), Areas::cut_all);
        self.cut("cut_for_search", |rust, sentence| rust.cut_for_search(sentence, false).len(), Areas::cut_for_search);
    }
}

fn megabytes(bytes: usize) -> f64 {
    bytes as f64 / 1e6
}

/// An empty Rust, then the text: the records that it has then.
fn load_rust(rust: &mut Jieba, text: &str) -> usize {
    *rust = Jieba::empty();
    rust.load_dict(&mut text.as_bytes()).unwrap();
    format!("{rust:?}").split(|c: char| !c.is_ascii_digit()).find_map(|s| s.parse().ok()).unwrap()
}

/// The text of so many lines into an empty book: the records that it has then.
fn load_book(book: &mut Book, text: &str, lines: usize) -> usize {
    let loaded = book.load(text.as_bytes());
    assert_eq!((loaded.number, loaded.line), (0, lines));
    book.head()[0] as usize
}

/// The same into a book that is emptied first.
fn load_again(book: &mut Book, text: &str, lines: usize) -> usize {
    book.clear();
    load_book(book, text, lines)
}

/// A house's vocabulary: so many words of 1 to 4 characters, each once, with frequencies from 1 to 1,000, the same in every run.
fn house(words: usize) -> String {
    let mut state: u64 = 1;
    let mut below = |limit: u64| {
        state = state.wrapping_mul(6_364_136_223_846_793_005).wrapping_add(1_442_695_040_888_963_407);
        (state >> 33) % limit
    };
    let mut held = std::collections::HashSet::new();
    let mut text = String::new();
    while held.len() < words {
        let length = 1 + below(4);
        let word: String = (0..length).map(|_| char::from_u32(0x4E00 + below(2_000) as u32).unwrap()).collect();
        let frequency = 1 + below(1_000);
        if held.insert(word.clone()) {
            text += &format!("{word} {frequency}\n");
        }
    }
    text
}

fn main() {
    let arguments: Vec<String> = std::env::args().skip(1).collect();
    let read = |path: &String| std::fs::read_to_string(path).expect("a file cannot be read");
    let dict = read(&arguments[0]);

    // Load: an empty book, then the dictionary.
    let words = dict.lines().count();
    let mut book = Book::prepare(65_536, 1_048_576, words + 1);
    let mut rust = Jieba::empty();
    println!("dictionary: {words} lines, {} bytes; {RUNS} runs of each side by turns", dict.len());
    let lent = measure(RUNS, || load_rust(&mut rust, &dict), || load_again(&mut book, &dict, words));
    lent.print("load", megabytes(dict.len()), "MB/s");
    let fresh = measure(RUNS, || load_rust(&mut rust, &dict), || {
        book = Book::prepare(65_536, 1_048_576, words + 1);
        load_book(&mut book, &dict, words)
    });
    fresh.print("load, areas made anew", megabytes(dict.len()), "MB/s");

    // The same of a house's vocabulary.
    let (words, times) = (2_000, 100);
    let vocabulary = house(words);
    println!("house: {words} words, {} bytes, {times} times a run", vocabulary.len());
    let mut rust_of_house = Jieba::empty();
    let mut book_of_house = Book::prepare(65_536, 8_192, words);
    let loads = measure(
        RUNS,
        || (0..times).map(|_| load_rust(&mut rust_of_house, &vocabulary)).sum(),
        || (0..times).map(|_| load_again(&mut book_of_house, &vocabulary, words)).sum(),
    );
    loads.print("load", megabytes(times * vocabulary.len()), "MB/s");

    // Each text line by line.
    for path in &arguments[1..] {
        let text = read(path);
        let lines: Vec<&str> = text.lines().collect();
        let longest = lines.iter().map(|line| line.len()).max().unwrap_or(0);
        println!("text {}: {} lines, {} bytes", path.rsplit('/').next().unwrap(), lines.len(), text.len());
        Sentences {
            rust: &rust,
            book: &book,
            areas: Areas::new(longest),
            sentences: &lines,
            runs: RUNS,
            times: 1,
            amount: megabytes(text.len()),
            unit: "MB/s",
        }
        .cuts();
    }

    // One sentence of growing length, from the first text: the speed stays the same if the cost grows linearly.
    let text = read(&arguments[1]);
    for bytes in [1 << 10, 1 << 16, 1_000_000, 15_000_000] {
        let mut sentence = text.repeat(bytes / text.len() + 1);
        let mut end = bytes;
        while !sentence.is_char_boundary(end) {
            end -= 1;
        }
        sentence.truncate(end);
        let times = (4_000_000 / bytes).max(1);
        let runs = if bytes > 1 << 20 { 5 } else { RUNS };
        println!("one sentence of {} bytes, {times} times a run, {runs} runs", sentence.len());
        Sentences {
            rust: &rust,
            book: &book,
            areas: Areas::new(bytes),
            sentences: &[&sentence],
            runs,
            times,
            amount: megabytes(sentence.len() * times),
            unit: "MB/s",
        }
        .cuts();
    }

    // Document 01's book A and short commands, in the areas that `cutlines` lends.
    let entries = "打开 256\n开灯 256\n打 64\n开 64\n灯 128\n客厅 128\n客厅灯 64\n厅灯 64\n";
    let commands = ["打开灯", "打开客厅灯", "开灯", "打开客厅灯，开灯。", "客厅灯 on", "打开灯-2"];
    let mut rust = Jieba::empty();
    rust.load_dict(&mut entries.as_bytes()).unwrap();
    let mut book = Book::prepare(256, 1024, 256);
    assert_eq!(book.load(entries.as_bytes()).number, 0);
    let times = 100_000;
    println!("book A, {} short commands, {times} times a run", commands.len());
    Sentences {
        rust: &rust,
        book: &book,
        areas: Areas::new(1024),
        sentences: &commands,
        runs: RUNS,
        times,
        amount: (times * commands.len()) as f64 / 1e6,
        unit: "million/s",
    }
    .cuts();
}
