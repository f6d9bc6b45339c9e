//! How many token places suffice, as `Scratch::with_sizes` says, over many made-up sentences.
mod common;
use common::*;
use tongsvale::{Dictionary, Scratch};

/// Numbers by chance, the same in every run.
struct Random(u64);

impl Random {
    fn below(&mut self, n: usize) -> usize {
        self.0 = self.0.wrapping_mul(6_364_136_223_846_793_005).wrapping_add(1_442_695_040_888_963_407);
        ((self.0 >> 33) % n as u64) as usize
    }

    fn text(&mut self, characters: &[char], longest: usize) -> String {
        (0..1 + self.below(longest)).map(|_| characters[self.below(characters.len())]).collect()
    }
}

/// The places that each cut is promised to need at most for a sentence, in the order `cut`, `cut_for_search`, `cut_all`. For
/// `cut_all` the held words are asked one by one.
fn promised(dictionary: &Dictionary, sentence: &str) -> [usize; 3] {
    let characters: Vec<char> = sentence.chars().collect();
    let han = |c: &char| ('\u{4e00}'..='\u{9fff}').contains(c);
    let mut all = 0;
    for start in 0..characters.len() {
        if !han(&characters[start]) {
            all += 1;
            continue;
        }
        for end in start + 1..=characters.len() {
            if !han(&characters[end - 1]) {
                break;
            }
            let word: String = characters[start..end].iter().collect();
            all += usize::from(dictionary.lookup(word.as_bytes()).unwrap().is_some());
        }
    }
    [characters.len(), characters.len() * 7 / 3, all]
}

/// The tokens of each cut of a sentence, none of which needs more places than promised.
fn needed(dictionary: &Dictionary, sentence: &str) -> [usize; 3] {
    let places = promised(dictionary, sentence);
    let length = sentence.chars().count();
    let scratch = |places| Scratch::with_sizes(length + 1, length * length, places);
    [
        words(dictionary.cut(sentence, &mut scratch(places[0]))),
        words(dictionary.cut_for_search(sentence, &mut scratch(places[1]))),
        words(dictionary.cut_all(sentence, &mut scratch(places[2]))),
    ]
    .map(|(number, tokens)| {
        assert_eq!(number, 0, "{sentence:?}: {places:?} places do not suffice");
        tokens.len()
    })
}

#[test]
fn the_promised_places_suffice() {
    let mut random = Random(13);
    for _ in 0..300 {
        let alphabet = ['a', 'b', '-', '.', '_', '1', '甲', '乙', '!', '\r', '\n'];
        // Few characters, so that many words are found in many places.
        let characters: Vec<char> = (0..2 + random.below(3)).map(|_| alphabet[random.below(alphabet.len())]).collect();
        let mut dictionary = Dictionary::with_sizes(1, 1024, 64).unwrap();
        for _ in 0..8 + random.below(24) {
            let longest = [3, 3, 8][random.below(3)];
            let word = random.text(&characters, longest);
            dictionary.add_word(word.as_bytes(), 1 << (2 * random.below(10))).unwrap();
        }
        for _ in 0..60 {
            needed(&dictionary, &random.text(&characters, 16));
        }
    }
}

/// Sentences of one token that brings all it can: `ab-ab-..`, every word of two and of three characters held.
#[test]
fn how_near_search_comes() {
    for parts in 1..40 {
        let sentence = vec!["ab"; parts].join("-") + if parts == 1 { "-" } else { "" };
        let length = sentence.len();
        let mut dictionary = Dictionary::with_sizes(128, 1024, 16).unwrap();
        for word in ["ab", "b-", "-a", "ab-", "b-a", "-ab"] {
            dictionary.add_word(word.as_bytes(), 1).unwrap();
        }
        dictionary.add_word(sentence.as_bytes(), 1_000_000_000).unwrap();
        // Parts, words of two, words of three from four characters on, and the token.
        let expected = parts + (length - 1) + if length > 3 { length - 2 } else { 0 } + 1;
        assert_eq!(needed(&dictionary, &sentence)[1], expected, "{sentence}");
        assert!(expected <= length * 7 / 3);
        if parts > 1 {
            // One place less than this is too few, and it grows by 7 with every 3 characters.
            assert_eq!(expected, (7 * length - 5) / 3);
        }
    }
}

#[test]
fn cut_all_needs_more_places_than_characters() {
    let dictionary = book_a();
    assert_eq!(needed(&dictionary, "打开客厅灯"), [2, 4, 7]);
    assert_eq!(words(dictionary.cut_all("打开客厅灯", &mut scratch(6, 0, 6))).0, 11);
}
