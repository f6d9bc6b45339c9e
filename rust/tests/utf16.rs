//! A token's third pair of offsets, in UTF-16 code units: a browser's strings count so.
mod common;
use common::*;
use tongsvale::{Dictionary, Error, Scratch};

/// Names with 𠮷 (U+20BB7), which takes two units, alone and inside words.
fn names() -> Dictionary {
    loaded(1, 64, 16, "打开 50\n开 5\n灯 40\n𠮷 5\n𠮷野 40\n野家 10\n𠮷野家 90\n开𠮷 1\na-𠮷b 90\n-𠮷 1\n")
}

/// The words of a cut by its name in `CUTS`, each with its start and end in units.
fn marked<'s>(dictionary: &Dictionary, cut: &str, sentence: &'s str) -> Vec<(&'s str, usize, usize)> {
    let (_, cut) = CUTS.iter().find(|(name, _)| *name == cut).unwrap();
    let mut scratch = scratch(64, 64, 64);
    let tokens = cut(dictionary, sentence.as_bytes(), &mut scratch).unwrap();
    tokens.map(|token| (token.word, token.utf16_start, token.utf16_end)).collect()
}

#[test]
fn a_wide_character_before_a_token() {
    let names = names();
    for cut in ["cut", "cut_for_search", "cut_all"] {
        assert_eq!(marked(&names, cut, "𠮷灯"), [("𠮷", 0, 2), ("灯", 2, 3)], "{cut}");
        // Outside the class, so in a block of its own.
        assert_eq!(marked(&names, cut, "😀灯"), [("😀", 0, 2), ("灯", 2, 3)], "{cut}");
    }
}

#[test]
fn a_wide_character_in_a_token() {
    let names = names();
    assert_eq!(marked(&names, "cut", "打开𠮷野家灯"), [("打开", 0, 2), ("𠮷野家", 2, 6), ("灯", 6, 7)]);
    // Search goes back within the word.
    let expected = [("打开", 0, 2), ("𠮷野", 2, 5), ("野家", 4, 6), ("𠮷野家", 2, 6), ("灯", 6, 7)];
    assert_eq!(marked(&names, "cut_for_search", "打开𠮷野家灯"), expected);
    let expected = [("𠮷b", 3, 6), ("-𠮷", 2, 5), ("a-𠮷b", 1, 6)];
    assert_eq!(marked(&names, "cut_for_search", "灯a-𠮷b")[1..], expected);
    let expected = [
        ("打开", 0, 2),
        ("开", 1, 2),
        ("开𠮷", 1, 4),
        ("𠮷", 2, 4),
        ("𠮷野", 2, 5),
        ("𠮷野家", 2, 6),
        ("野家", 4, 6),
        ("灯", 6, 7),
    ];
    assert_eq!(marked(&names, "cut_all", "打开𠮷野家灯"), expected);
}

#[test]
fn a_wide_character_after_a_token() {
    let names = names();
    for cut in ["cut", "cut_for_search", "cut_all"] {
        assert_eq!(marked(&names, cut, "灯𠮷"), [("灯", 0, 1), ("𠮷", 1, 3)], "{cut}");
        assert_eq!(marked(&names, cut, "灯😀"), [("灯", 0, 1), ("😀", 1, 3)], "{cut}");
    }
}

#[test]
fn units_are_carried_over_the_borders_of_blocks() {
    let names = names();
    let expected = [("𠮷野", 0, 3), ("，", 3, 4), ("😀", 4, 6), ("灯", 6, 7), ("!", 7, 8), ("𠮷野", 8, 11), ("😀", 11, 13)];
    for cut in ["cut", "cut_for_search"] {
        assert_eq!(marked(&names, cut, "𠮷野，😀灯!𠮷野😀"), expected, "{cut}");
    }
    let expected = [
        ("𠮷", 0, 2),
        ("𠮷野", 0, 3),
        ("，", 3, 4),
        ("😀", 4, 6),
        ("灯", 6, 7),
        ("!", 7, 8),
        ("𠮷", 8, 10),
        ("𠮷野", 8, 11),
        ("😀", 11, 13),
    ];
    assert_eq!(marked(&names, "cut_all", "𠮷野，😀灯!𠮷野😀"), expected);
    // Characters that `cut_all` drops are counted.
    assert_eq!(marked(&names, "cut_all", "𠀀𠀀灯"), [("灯", 4, 5)]);
}

#[test]
fn cr_lf_is_two_units() {
    let names = names();
    for cut in ["cut", "cut_for_search"] {
        assert_eq!(marked(&names, cut, "𠮷\r\n灯"), [("𠮷", 0, 2), ("\r\n", 2, 4), ("灯", 4, 5)], "{cut}");
    }
    assert_eq!(marked(&names, "cut_all", "𠮷\r\n灯"), [("𠮷", 0, 2), ("\r", 2, 3), ("\n", 3, 4), ("灯", 4, 5)]);
}

#[test]
fn two_units_from_u_10000_on() {
    let sentence = "\u{7f}\u{80}\u{7ff}\u{800}\u{d7ff}\u{e000}\u{fffd}\u{ffff}\u{10000}\u{10ffff}!";
    for (cut, _) in CUTS {
        let ends: Vec<usize> = marked(&names(), cut, sentence).iter().map(|&(_, _, end)| end).collect();
        assert_eq!(ends, [1, 2, 3, 4, 5, 6, 7, 8, 10, 12, 13], "{cut}");
    }
}

/// A sentence by all cuts: every offset is what Rust counts up to it, and the word stands in the sentence's own units.
#[track_caller]
fn counted(dictionary: &Dictionary, sentence: &str, scratch: &mut Scratch) {
    let units: Vec<u16> = sentence.encode_utf16().collect();
    let before = |byte: usize| sentence[..byte].encode_utf16().count();
    for (name, cut) in CUTS {
        for token in cut(dictionary, sentence.as_bytes(), scratch).unwrap() {
            let expected = (before(token.byte_start), before(token.byte_end));
            assert_eq!((token.utf16_start, token.utf16_end), expected, "{name} of {sentence:?}, {token:?}");
            assert_eq!(String::from_utf16(&units[token.utf16()]).unwrap(), token.word);
        }
    }
}

#[test]
fn every_offset_is_what_rust_counts() {
    let names = names();
    let mut room = scratch(256, 1024, 1024);
    for sentence in
        ["", "打开客厅灯", "打开𠮷野家灯, 😀 a-𠮷b!\r\n灯", "WES-5.4.5 é߿ࠀ\u{ffff}𐀀", "\u{10ffff}打开\u{323af}灯\u{323b0}𠮷"]
    {
        counted(&names, sentence, &mut room);
        counted(&names, &sentence.repeat(5), &mut room);
    }
    // Every sentence of up to four of these.
    let characters = ['𠮷', '野', '家', 'a', '-', '😀', '\r', '\n'];
    let mut sentences = vec![String::new()];
    for _ in 0..4 {
        sentences = sentences.iter().flat_map(|sentence| characters.map(|c| format!("{sentence}{c}"))).collect();
        for sentence in &sentences {
            counted(&names, sentence, &mut room);
        }
    }
}

#[test]
fn tokens_of_a_stopped_cut_have_them_too() {
    let mut room = scratch(8, 8, 2);
    let stopped = names().cut("𠮷野😀灯", &mut room).unwrap_err();
    assert_eq!(stopped.error, Error::TokensFull);
    assert!(stopped.tokens.map(|token| (token.utf16_start, token.utf16_end)).eq([(0, 3), (3, 5)]));
}
