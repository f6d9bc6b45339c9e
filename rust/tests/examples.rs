//! Document 01's examples, and those of document 02's notes 7 and 9.
mod common;
use common::*;
use tongsvale::{Dictionary, Error, Scratch, Token, TokenizeMode};

#[test]
fn book_a_is_cut() {
    // Whether first characters stand in the root table or among the slots, no cut shows.
    for dictionary in [book_a(), loaded(1, 32, 8, BOOK_A)] {
        assert_eq!(cut(&dictionary, "打开灯"), (0, vec!["打开", "灯"]));
        assert_eq!(cut(&dictionary, "打开客厅灯"), (0, vec!["打开", "客厅灯"]));
        assert_eq!(cut_for_search(&dictionary, "打开客厅灯"), (0, vec!["打开", "客厅", "厅灯", "客厅灯"]));
        assert_eq!(cut_all(&dictionary, "打开客厅灯"), (0, vec!["打", "打开", "开", "客厅", "客厅灯", "厅灯", "灯"]));
    }
}

#[test]
fn book_a_is_looked_up() {
    let dictionary = book_a();
    for line in BOOK_A.lines() {
        let (word, frequency) = line.split_once(' ').unwrap();
        assert_eq!(dictionary.lookup(word.as_bytes()), Ok(Some(frequency.parse().unwrap())), "{word}");
    }
    for word in ["", "客", "厅", "打开灯", "a"] {
        assert_eq!(dictionary.lookup(word.as_bytes()), Ok(None), "{word}");
    }
    assert_eq!(dictionary.areas().head, [8, 5, 11, 1024]);
}

#[test]
fn a_tie_goes_to_the_larger_end() {
    let tie = loaded(65_536, 16, 4, "甲 16\n乙 16\n甲乙 4\n丙 28\n");
    assert_eq!(cut(&tie, "甲乙"), (0, vec!["甲乙"]));
    let no_tie = loaded(65_536, 16, 4, "甲 16\n乙 16\n甲乙 3\n丙 29\n");
    assert_eq!(cut(&no_tie, "甲乙"), (0, vec!["甲", "乙"]));
}

#[test]
fn at_total_0_the_shortest_word_wins() {
    let mut dictionary = loaded(65_536, 16, 3, "甲 0\n甲乙 0\n");
    assert_eq!(cut(&dictionary, "甲乙"), (0, vec!["甲", "乙"]));
    assert_eq!(dictionary.add_word("丙".as_bytes(), 1), Ok(1));
    assert_eq!(cut(&dictionary, "甲乙"), (0, vec!["甲乙"]));
}

#[test]
fn bare_words_count_1() {
    // An absent frequency means 1 with note 7 of document 02. At total 0 the cut would be 打, 开, 灯.
    let mut dictionary = loaded(1, 16, 4, "打\n打开\r\n灯\u{3000}\n");
    for word in ["打", "打开", "灯"] {
        assert_eq!(dictionary.lookup(word), Ok(Some(1)), "{word}");
    }
    assert_eq!(dictionary.areas().head[3], 3);
    assert_eq!(cut(&dictionary, "打开灯"), (0, vec!["打开", "灯"]));
    // A held word gets 1 too, and a 0 that is written stays.
    assert_eq!(dictionary.load("灯 5\n灯\n打 0\n"), Ok(3));
    assert_eq!((dictionary.lookup("灯"), dictionary.lookup("打")), (Ok(Some(1)), Ok(Some(0))));
    assert_eq!(dictionary.areas().head[3], 2);
    // At the greatest total there is no room for 1 more.
    assert_eq!(dictionary.add_word("灯", 4_294_967_294), Ok(4_294_967_294));
    assert_eq!(unchanged(&mut dictionary, |d| d.load("打开\n门\n")), at_line(2, Error::TotalTooLarge));
}

#[test]
fn a_name_with_a_rare_character_is_cut() {
    // U+30EDE is of Extension G, which joined Han with note 9 of document 02; U+323B0 is the first character after Extension H.
    let dictionary = loaded(1, 16, 4, "打开 50\n𰻞家 30\n灯 40\n\u{323b0}家 90\n");
    assert_eq!(cut(&dictionary, "打开𰻞家灯"), (0, vec!["打开", "𰻞家", "灯"]));
    assert_eq!(cut_for_search(&dictionary, "打开𰻞家灯"), (0, vec!["打开", "𰻞家", "灯"]));
    assert_eq!(cut_all(&dictionary, "打开𰻞家灯"), (0, vec!["打开", "𰻞家", "灯"]));
    assert_eq!(cut(&dictionary, "打开\u{323b0}家灯"), (0, vec!["打开", "\u{323b0}", "家", "灯"]));
}

#[test]
fn letters_join_and_cr_lf_is_one_token() {
    let dictionary = Dictionary::with_sizes(1, 16, 1).unwrap();
    assert_eq!(cut(&dictionary, "ab-1\r\n!"), (0, vec!["ab", "-", "1", "\r\n", "!"]));
}

#[test]
fn search_writes_parts_and_words_twice_where_they_are_found_twice() {
    let dictionary = loaded(65_536, 16, 2, "WES 1\nWES-5.4.5 1\n");
    assert_eq!(cut_for_search(&dictionary, "WES-5.4.5"), (0, vec!["WES", "WES", "WES-5.4.5"]));
    assert_eq!(cut(&dictionary, "WES-5.4.5"), (0, vec!["WES-5.4.5"]));
}

#[test]
fn each_mode_is_its_cut() {
    for dictionary in [book_a(), loaded(65_536, 16, 2, "WES 1\nWES-5.4.5 1\n"), Dictionary::with_sizes(1, 16, 1).unwrap()] {
        for sentence in ["", "打开客厅灯", "WES-5.4.5", "ab-1\r\n!", "打开WES-5.4.5!客厅灯"] {
            let mut room = scratch(64, 64, 64);
            assert_eq!(words(dictionary.tokenize(sentence, TokenizeMode::Default, &mut room)), cut(&dictionary, sentence));
            let searched = words(dictionary.tokenize(sentence, TokenizeMode::Search, &mut room));
            assert_eq!(searched, cut_for_search(&dictionary, sentence));
        }
    }
}

#[test]
fn tokens_have_three_kinds_of_offsets() {
    let dictionary = book_a();
    let mut scratch = Scratch::with_sizes(7, 7, 5);
    let tokens = dictionary.cut("é!打开灯", &mut scratch).unwrap();
    assert_eq!(tokens.len(), 4);
    // Each character is one unit of UTF-16 here; utf16.rs has those that are two.
    let expected = [("é", 0, 1, 0, 2), ("!", 1, 2, 2, 3), ("打开", 2, 4, 3, 9), ("灯", 4, 5, 9, 12)];
    let expected = expected.map(|(word, start, end, byte_start, byte_end)| Token {
        word,
        start,
        end,
        byte_start,
        byte_end,
        utf16_start: start,
        utf16_end: end,
    });
    assert!(tokens.eq(expected));
    // Bytes give the same.
    assert!(dictionary.cut("é!打开灯".as_bytes(), &mut scratch).unwrap().eq(expected));
    let searched = dictionary.cut_for_search("é!客厅灯", &mut scratch).unwrap();
    let searched: Vec<_> = searched.map(|t| (t.word, t.start, t.end, t.byte_start, t.byte_end)).collect();
    let expected = [("é", 0, 1, 0, 2), ("!", 1, 2, 2, 3), ("客厅", 2, 4, 3, 9), ("厅灯", 3, 5, 6, 12), ("客厅灯", 2, 5, 3, 12)];
    assert_eq!(searched, expected);
    let all = dictionary.cut_all("é打开".as_bytes(), &mut scratch).unwrap().map(|t| (t.start, t.end, t.byte_start, t.byte_end));
    assert!(all.eq([(0, 1, 0, 2), (1, 2, 2, 5), (1, 3, 2, 8), (2, 3, 5, 8)]));
}

#[test]
fn the_frame_of_cutlines() {
    let dictionary = loaded(256, 1024, 256, "ab 1\n");
    assert_eq!(cut(&dictionary, "abc!"), (0, vec!["ab", "c", "!"]));
}

#[test]
fn sixteen_slots_take_twelve() {
    let mut dictionary = Dictionary::with_sizes(1, 16, 16).unwrap();
    for (taken, letter) in (b'a'..=b'l').enumerate() {
        assert_eq!(dictionary.add_word([letter], 1), Ok(1), "slot {}", taken + 1);
    }
    assert_eq!(dictionary.areas().head, [12, 12, 13, 12]);
    assert_eq!(unchanged(&mut dictionary, |d| d.add_word(b"m", 1)), Err(Error::SlotsFull));
    assert_eq!(unchanged(&mut dictionary, |d| d.load(b"m 1")), at_line(1, Error::SlotsFull));
    // A word that needs no slot still enters.
    assert_eq!(dictionary.add_word(b"l", 5), Ok(5));
}

#[test]
fn frequencies() {
    let mut dictionary = Dictionary::with_sizes(1, 16, 4).unwrap();
    assert_eq!(unchanged(&mut dictionary, |d| d.load(b"a +")), at_line(1, Error::BadFrequency));
    assert_eq!(dictionary.load(b"a +7\nb\nc 007 more 8"), Ok(3));
    assert_eq!(dictionary.lookup(b"a"), Ok(Some(7)));
    assert_eq!(dictionary.lookup(b"b"), Ok(Some(1)));
    assert_eq!(dictionary.lookup(b"c"), Ok(Some(7)));
}

#[test]
fn logarithms() {
    let mut dictionary = Dictionary::with_sizes(1, 16, 1).unwrap();
    let expected = [(0, f64::NEG_INFINITY), (1, 0.0), (2, 16_777_216.0), (3, 26_591_258.0), (4_294_967_295, 536_870_911.0)];
    for (frequency, logarithm) in expected {
        assert_eq!(dictionary.add_word(b"a", frequency), Ok(frequency));
        assert_eq!(dictionary.areas().logarithms, [logarithm], "L({frequency})");
    }
}

#[test]
fn what_a_scratch_held_plays_no_part() {
    let dictionary = book_a();
    for sentence in ["", "打开客厅灯", "打开,客厅灯 on/off"] {
        let mut zeros = Scratch::with_sizes(64, 64, 64);
        assert_eq!(cut(&dictionary, sentence), words(dictionary.cut(sentence, &mut zeros)));
        // The same scratch again, as the first cut left it.
        assert_eq!(cut(&dictionary, sentence), words(dictionary.cut(sentence, &mut zeros)));
        assert_eq!(cut_for_search(&dictionary, sentence), words(dictionary.cut_for_search(sentence, &mut zeros)));
        assert_eq!(cut_all(&dictionary, sentence), words(dictionary.cut_all(sentence, &mut zeros)));
    }
}

#[test]
fn prepare_empties() {
    let mut dictionary = book_a();
    dictionary.prepare().unwrap();
    let areas = dictionary.areas();
    assert_eq!(areas.head, [0, 0, 1, 0]);
    assert!(areas.roots.iter().all(|&n| n == 0) && areas.slots.iter().all(|&n| n == 0));
    assert!(areas.records.iter().all(|&n| n == 0) && areas.logarithms.iter().all(|&n| n == 0.0));
    assert_eq!(dictionary.lookup("打".as_bytes()), Ok(None));
}

#[test]
fn lines() {
    let mut dictionary = Dictionary::with_sizes(1, 16, 4).unwrap();
    assert_eq!(dictionary.load(b""), Ok(0));
    assert_eq!(dictionary.load(b"\n \n"), Ok(2));
    assert_eq!(dictionary.load("\u{3000}a\u{a0}1\r\n\nb 2".as_bytes()), Ok(3));
    assert_eq!(dictionary.lookup(b"a"), Ok(Some(1)));
    assert_eq!(dictionary.lookup(b"b"), Ok(Some(2)));
    // A held word gets the new frequency, and the total follows.
    assert_eq!(dictionary.load(b"a 5\n"), Ok(1));
    assert_eq!(dictionary.areas().head, [2, 2, 3, 7]);
}
