//! A vocabulary line by line: what is refused, and what is loaded but will disappoint its owner.
//!
//! Lines are loaded one by one, and words are cut in a book that holds them alone: so all that is said here is what the library
//! answers. Only the fields of a line are split here once more, to name the word.
use crate::probe;
use crate::vocabulary::reason;
use std::collections::HashMap;
use std::fs;
use std::io::{self, Write};
use std::path::PathBuf;
use std::process::ExitCode;
use tongsvale::{Dictionary, Error, Sizes};

const MARK: &str = "\u{FEFF}";

/// Where a word stood first, and with which frequency.
struct Seen {
    place: String,
    frequency: u64,
}

/// What has been read so far.
struct Checked {
    dictionary: Dictionary,
    seen: HashMap<String, Seen>,
    refusals: usize,
    warnings: usize,
}

impl Checked {
    fn warn(&mut self, out: &mut impl Write, place: &str, message: String) -> io::Result<()> {
        self.warnings += 1;
        writeln!(out, "{place}: warning: {message}")
    }

    /// A line, which stands at a place that is said as `file:line`.
    fn line(&mut self, out: &mut impl Write, place: &str, line: &[u8]) -> io::Result<()> {
        if let Err(refused) = self.dictionary.load(line) {
            self.refusals += 1;
            return writeln!(out, "{place}: refused: {}", reason(refused.error));
        }
        let line = std::str::from_utf8(line).expect("a line that was loaded is UTF-8");
        let mut fields = line.split_whitespace();
        let Some(word) = fields.next() else { return Ok(()) };
        // A word without a frequency counts 1.
        let frequency = fields.next().map_or(1, |field| field.parse().expect("a frequency that was loaded is a number"));
        if frequency == 0 {
            self.warn(
                out,
                place,
                format!("{word} has the frequency 0: that does not remove it, and every other word is likelier"),
            )?;
        }
        if let Some(message) = disappointing(word) {
            self.warn(out, place, message)?;
        }
        let earlier = self.seen.insert(word.to_owned(), Seen { place: place.to_owned(), frequency });
        match earlier {
            Some(seen) if seen.frequency != frequency => {
                let Seen { place: first, frequency: old } = seen;
                self.warn(
                    out,
                    place,
                    format!("{word} stands at {first} too, with the frequency {old}: the later one, {frequency}, counts"),
                )
            }
            _ => Ok(()),
        }
    }
}

/// Why no cut answers a word whole, though a dictionary holds it.
fn disappointing(word: &str) -> Option<String> {
    let shown = word.escape_debug();
    match probe::is_whole(word) {
        Ok(true) => None,
        Ok(false) => {
            let culprit = word.chars().find(|&character| !matches!(probe::stands_inside(character), Ok(true)));
            Some(match culprit {
                Some(character) => {
                    format!(
                        "{shown} is never found: no word of a cut has {} (U+{:04X}) in it",
                        character.escape_debug(),
                        u32::from(character)
                    )
                }
                None => format!("{shown} is never found whole"),
            })
        }
        Err(error) => Some(format!("{shown} cannot be tried: {error}")),
    }
}

/// What a vocabulary needs, by what the words have taken.
fn print_sizes(out: &mut impl Write, dictionary: &Dictionary) -> io::Result<()> {
    let [records, taken, _, total] = dictionary.areas().head[..] else { unreachable!("a head has four numbers") };
    let roots = dictionary.areas().roots.len();
    let slots = (taken * 8).div_ceil(6).max(16).next_power_of_two();
    let sizes = Sizes { roots, slots: slots as usize, records: records.max(1) as usize };
    writeln!(out, "{records} words, total {total}")?;
    writeln!(
        out,
        "sizes: {} root entries, {} slots ({taken} taken), {} records: {} bytes",
        sizes.roots,
        sizes.slots,
        sizes.records,
        sizes.bytes()
    )
}

/// Checks files, which are loaded one after the other into one book. Ends with 1 where something is refused, and with 2 where a
/// file cannot be read.
pub fn run(files: &[PathBuf]) -> io::Result<ExitCode> {
    let mut texts = Vec::new();
    for file in files {
        match fs::read(file) {
            Ok(text) => texts.push((file.display().to_string(), text)),
            Err(error) => return Ok(crate::misused(format_args!("{}: {error}", file.display()))),
        }
    }
    let all: Vec<u8> = texts.iter().flat_map(|(_, text)| text.iter().chain(b"\n")).copied().collect();
    let dictionary = Dictionary::for_text(&all).unwrap_or_else(|error| unreachable!("sizes within the limits: {error}"));
    let mut checked = Checked { dictionary, seen: HashMap::new(), refusals: 0, warnings: 0 };
    let mut out = io::stdout().lock();
    for (name, text) in &texts {
        if text.len() > tongsvale::LONGEST_TEXT {
            checked.refusals += 1;
            writeln!(out, "{name}:0: refused: {}", reason(Error::TooLong))?;
            continue;
        }
        if text.starts_with(MARK.as_bytes()) {
            checked.warn(
                &mut out,
                &format!("{name}:1"),
                "a byte-order mark becomes part of the first word, which is then never found".to_owned(),
            )?;
        }
        for (number, line) in text.split(|&byte| byte == b'\n').enumerate() {
            checked.line(&mut out, &format!("{name}:{}", number + 1), line)?;
        }
    }
    writeln!(out, "{} refused, {} warnings", checked.refusals, checked.warnings)?;
    print_sizes(&mut out, &checked.dictionary)?;
    Ok(ExitCode::from(u8::from(checked.refusals > 0)))
}
