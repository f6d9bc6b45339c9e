//! Words as a line and as a table.
use std::fmt::Write;
use tongsvale::{Dictionary, Error, Token};
use unicode_width::UnicodeWidthStr;

const DIM: &str = "\x1b[2m";
const BOLD: &str = "\x1b[1m";
const PLAIN: &str = "\x1b[0m";

/// A text with what fills it up to a width on a terminal, where a Han character takes two places.
pub fn filled(text: &str, width: usize) -> String {
    format!("{text}{:1$}", "", width.saturating_sub(text.width()))
}

/// The words in a line. On a terminal those that the dictionary holds stand out.
pub fn line(dictionary: &Dictionary, tokens: &[Token], separator: &str, colour: bool) -> Result<String, Error> {
    if !colour {
        return Ok(tokens.iter().map(|token| token.word).collect::<Vec<_>>().join(separator));
    }
    let mut line = String::new();
    for (i, token) in tokens.iter().enumerate() {
        if i > 0 {
            line += &format!("{DIM}{separator}{PLAIN}");
        }
        match dictionary.lookup(token.word)? {
            Some(_) => line += &format!("{BOLD}{}{PLAIN}", token.word),
            None => line += token.word,
        }
    }
    Ok(line)
}

/// A row for each word: start, end, frequency (- for a word that is not held) and the word.
pub fn table(dictionary: &Dictionary, tokens: &[Token]) -> Result<String, Error> {
    let mut rows = vec![["start".to_owned(), "end".to_owned(), "frequency".to_owned(), "word".to_owned()]];
    for token in tokens {
        let frequency = dictionary.lookup(token.word)?.map_or("-".to_owned(), |frequency| frequency.to_string());
        rows.push([token.start.to_string(), token.end.to_string(), frequency, token.word.escape_debug().to_string()]);
    }
    let width = |column: usize| rows.iter().map(|row| row[column].width()).max().unwrap_or(0);
    let [start, end, frequency] = [width(0), width(1), width(2)];
    let mut text = String::new();
    for [a, b, c, word] in &rows {
        writeln!(text, "{a:>start$}  {b:>end$}  {c:>frequency$}  {word}").expect("a string takes all");
    }
    text.pop();
    Ok(text)
}
