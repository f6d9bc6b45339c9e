//! Why a sentence is cut so: at each position the words that the dictionary holds there, the step that is taken, and ties.
//!
//! All of it is asked of the library: a lookup of each stretch for the words, a probe for where a block ends, the stored
//! logarithms for the scores, and the cut itself, whose words the steps must come to.
use crate::probe::{self, Logarithms};
use crate::show;
use std::collections::HashMap;
use std::fmt::Write;
use tongsvale::{Dictionary, Error, Token};
use unicode_width::UnicodeWidthStr;

/// A word that starts at a position, and how well the rest of its block can be cut if it is taken.
struct Edge {
    end: usize,
    frequency: u32,
    score: f64,
}

/// The step from a position.
#[derive(Default)]
struct Row {
    edges: Vec<Edge>,
    /// Where the best step ends, and its score.
    end: usize,
    score: f64,
}

/// The rows of a block that ends before the position `end`, from the right.
fn rows_of(
    dictionary: &Dictionary,
    characters: &[(usize, char)],
    sentence: &str,
    block: std::ops::Range<usize>,
    logarithms: &mut Logarithms,
) -> Result<Vec<Row>, Error> {
    let total = logarithms.of(dictionary.areas().head[3])?;
    let byte = |position: usize| characters.get(position).map_or(sentence.len(), |&(at, _)| at);
    let mut rows: Vec<Row> = Vec::new();
    for start in block.clone().rev() {
        let later = |end: usize| rows.get(block.end - 1 - end).map_or(0.0, |row: &Row| row.score);
        let mut edges = Vec::new();
        for end in start + 1..=block.end {
            if let Some(frequency) = dictionary.lookup(&sentence[byte(start)..byte(end)])? {
                let score = logarithms.of(frequency.into())? - total + if end == block.end { 0.0 } else { later(end) };
                edges.push(Edge { end, frequency, score });
            }
        }
        let mut best: Option<&Edge> = None;
        for edge in &edges {
            // Ends rise, so that an equal score is a larger end.
            if best.is_none_or(|best| best.score <= edge.score) {
                best = Some(edge);
            }
        }
        let lone = 0.0 - total + if start + 1 == block.end { 0.0 } else { later(start + 1) };
        let (end, score) = best.map_or((start + 1, lone), |edge| (edge.end, edge.score));
        rows.push(Row { edges, end, score });
    }
    rows.reverse();
    Ok(rows)
}

/// The blocks of a sentence: runs of characters that can stand inside a word.
fn blocks_of(characters: &[(usize, char)]) -> Result<Vec<std::ops::Range<usize>>, Error> {
    let mut known = HashMap::new();
    let mut blocks: Vec<std::ops::Range<usize>> = Vec::new();
    for (position, &(_, character)) in characters.iter().enumerate() {
        let inside = match known.get(&character) {
            Some(&inside) => inside,
            None => probe::stands_inside(character)?,
        };
        known.insert(character, inside);
        match blocks.last_mut() {
            Some(block) if inside && block.end == position => block.end += 1,
            _ if inside => blocks.push(position..position + 1),
            _ => {}
        }
    }
    Ok(blocks)
}

/// Why this step was taken, where that is not plain.
fn reason(row: &Row, total: u64, word: impl Fn(usize) -> String) -> Option<String> {
    let taken = row.edges.iter().find(|edge| edge.end == row.end)?;
    if row.edges.len() == 1 {
        return None;
    }
    if total == 0 {
        return Some("all frequencies are 0, so nothing can be weighed: the shortest word wins".to_owned());
    }
    let tied: Vec<String> =
        row.edges.iter().filter(|edge| edge.score == taken.score && edge.end != taken.end).map(|edge| word(edge.end)).collect();
    if tied.is_empty() {
        return None;
    }
    let weight = if taken.score.is_finite() { "equally likely" } else { "all impossible, by a frequency of 0" };
    Some(format!("tie with {}, {weight}: the longer step wins", tied.join(" and ")))
}

/// The explanation of a sentence that was cut into these tokens.
pub fn explain(dictionary: &Dictionary, sentence: &str, tokens: &[Token], separator: &str) -> Result<String, Error> {
    let characters: Vec<(usize, char)> = sentence.char_indices().collect();
    let byte = |position: usize| characters.get(position).map_or(sentence.len(), |&(at, _)| at);
    let word = |start: usize, end: usize| sentence[byte(start)..byte(end)].to_owned();
    let mut rows: Vec<Row> = (0..characters.len()).map(|start| Row { end: start + 1, ..Row::default() }).collect();
    let mut logarithms = Logarithms::default();
    for block in blocks_of(&characters)? {
        for (row, position) in
            rows_of(dictionary, &characters, sentence, block.clone(), &mut logarithms)?.into_iter().zip(block)
        {
            rows[position] = row;
        }
    }
    let total = dictionary.areas().head[3];
    let held: Vec<String> = rows
        .iter()
        .enumerate()
        .map(|(start, row)| {
            let words: Vec<String> =
                row.edges.iter().map(|edge| format!("{} {}", word(start, edge.end), edge.frequency)).collect();
            if words.is_empty() {
                "no word".to_owned()
            } else {
                words.join(", ")
            }
        })
        .collect();
    let width = held.iter().map(|text| text.width()).max().unwrap_or(0);
    let places = characters.len().to_string().len();
    let mut text = String::new();
    let mut position = 0;
    for (start, row) in rows.iter().enumerate() {
        let mut line =
            format!("{start:>places$} {}  {}", show::filled(&word(start, start + 1), 2), show::filled(&held[start], width));
        if start == position {
            write!(line, "  takes {}", word(start, row.end)).expect("a string takes all");
            if let Some(reason) = reason(row, total, |end| word(start, end)) {
                write!(line, "  ({reason})").expect("a string takes all");
            }
            position = row.end;
        }
        writeln!(text, "{}", line.trim_end()).expect("a string takes all");
    }
    text += &show::line(dictionary, tokens, separator, false)?;
    Ok(text)
}
