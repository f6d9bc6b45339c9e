//! Every refusal of an undamaged book, but for what takes much memory (`large.rs`).
mod common;
use common::*;
use tongsvale::{Areas, Dictionary, Error, TokenizeMode};

/// Areas of these sizes in which no place holds 0.
fn filled(roots: usize, slots: usize, records: usize) -> Areas {
    let mut areas = Areas::with_sizes(roots, slots, records);
    areas.head.fill(801);
    areas.roots.fill(802 << 32 | 803);
    areas.slots.fill(804 << 32 | 805);
    areas.records.fill(806 << 32 | 807);
    areas.logarithms.fill(808.5);
    areas
}

/// All calls refuse these areas with 1 and leave them alone.
#[track_caller]
fn refused_by_all(areas: Areas, what: &str) {
    let mut dictionary = Dictionary::from_areas(areas);
    assert_eq!(unchanged(&mut dictionary, |d| d.prepare()), Err(Error::BadAreas), "prepare, {what}");
    assert_eq!(unchanged(&mut dictionary, |d| d.load(b"a 1")), at_line(0, Error::BadAreas), "load, {what}");
    assert_eq!(unchanged(&mut dictionary, |d| d.load(b"")), at_line(0, Error::BadAreas), "load nothing, {what}");
    assert_eq!(unchanged(&mut dictionary, |d| d.add_word(b"a", 1)), Err(Error::BadAreas), "add, {what}");
    // 1 comes before 3 and before the empty word.
    assert_eq!(unchanged(&mut dictionary, |d| d.add_word(b"\xff", 1)), Err(Error::BadAreas), "add malformed, {what}");
    assert_eq!(unchanged(&mut dictionary, |d| d.add_word(b"", 1)), Err(Error::BadAreas), "add the empty word, {what}");
    assert_eq!(dictionary.lookup(b"a"), Err(Error::BadAreas), "lookup, {what}");
    assert_eq!(dictionary.lookup(b""), Err(Error::BadAreas), "look up the empty word, {what}");
    assert_eq!(refused_cuts(&dictionary, b"a", &scratch(2, 1, 1)), 1, "cuts, {what}");
    assert_eq!(refused_cuts(&dictionary, b"\xff", &scratch(0, 0, 0)), 1, "cuts, malformed, {what}");
}

#[test]
fn the_sizes_at_their_ends_are_accepted() {
    for (roots, slots, records) in [(1, 16, 1), (65_536, 16, 1), (1, 32, 1), (2, 65_536, 3)] {
        let mut dictionary = Dictionary::from_areas(filled(roots, slots, records));
        assert_eq!(dictionary.prepare(), Ok(()));
        assert_eq!(dictionary.add_word("灯".as_bytes(), 1), Ok(1));
        assert_eq!(cut(&dictionary, "灯"), (0, vec!["灯"]));
    }
}

#[test]
fn number_1_for_sizes() {
    for (roots, slots, records) in [
        (0, 16, 1),
        (65_537, 16, 1),
        (1, 0, 1),
        (1, 1, 1),
        (1, 8, 1),
        (1, 15, 1),
        (1, 17, 1),
        (1, 24, 1),
        (1, 16, 0),
        (0, 0, 0),
    ] {
        refused_by_all(filled(roots, slots, records), &format!("{roots} {slots} {records}"));
        assert_eq!(Dictionary::with_sizes(roots, slots, records).unwrap_err(), Error::BadAreas);
    }
}

type Change = fn(&mut Areas);

#[test]
fn number_1_for_slots_of_an_odd_length() {
    // Half of them, rounded down or up, is a number of slots that is allowed.
    for length in [31, 33, 63, 65, 127, 129] {
        let mut areas = filled(2, 32, 2);
        areas.slots.resize(length, 804);
        refused_by_all(areas, &format!("slots of {length} numbers"));
    }
}

#[test]
fn number_1_for_unequal_slices() {
    // Both lengths of each pair are allowed by themselves, so only the difference is at fault.
    let changes: [(&str, Change); 4] = [
        ("records shorter", |a| a.records.truncate(1)),
        ("records longer", |a| a.records.resize(3, 0)),
        ("logarithms shorter", |a| a.logarithms.truncate(1)),
        ("logarithms longer", |a| a.logarithms.resize(3, 0.0)),
    ];
    for (what, change) in changes {
        let mut areas = filled(2, 32, 2);
        change(&mut areas);
        refused_by_all(areas, what);
    }
}

#[test]
fn number_1_for_a_head_of_another_length() {
    for length in [0, 1, 3, 5, 8] {
        let mut areas = filled(2, 32, 2);
        areas.head.resize(length, 801);
        refused_by_all(areas, &format!("a head of {length}"));
    }
}

#[test]
fn number_1_for_a_part_of_a_token() {
    let dictionary = book_a();
    // Among them multiples of four, which are whole tokens without their UTF-16 offsets.
    for length in [1, 2, 3, 4, 5, 7, 8, 16, 20, 255] {
        let mut scratch = scratch(8, 8, 64);
        scratch.tokens.truncate(length);
        assert_eq!(refused_cuts(&dictionary, "灯".as_bytes(), &scratch), 1, "{length} numbers");
        assert_eq!(refused_cuts(&dictionary, b"\xff", &scratch), 1, "{length} numbers, malformed");
    }
    for length in [6, 12] {
        let mut scratch = scratch(8, 8, 64);
        scratch.tokens.truncate(length);
        for (name, cut) in CUTS {
            assert_eq!(words(cut(&dictionary, "灯".as_bytes(), &mut scratch)), (0, vec!["灯"]), "{name}, {length} numbers");
        }
    }
}

const MALFORMED: [&[u8]; 14] = [
    b"\x80",
    b"\xc0\x80",
    b"\xc1\xbf",
    b"\xc3",
    b"\xc3(",
    b"\xe0\x9f\xbf",
    b"\xe4\xbd",
    b"\xed\xa0\x80",
    b"\xed\xbf\xbf",
    b"\xf0\x8f\xbf\xbf",
    b"\xf4\x90\x80\x80",
    b"\xf5\x80\x80\x80",
    b"\xf8\x88\x80\x80\x80",
    b"a\xff",
];

#[test]
fn number_3() {
    for bytes in MALFORMED {
        let mut dictionary = book_a();
        assert_eq!(unchanged(&mut dictionary, |d| d.load(bytes)), at_line(1, Error::Malformed), "load {bytes:x?}");
        // Ignored fields are read too. Earlier lines stay.
        let text = [b"\xe4\xb9\x99\n\n" as &[u8], b"c 1 ", bytes, b"\nd 1\n"].concat();
        let mut short = loaded(65_536, 16, 4, "甲 1\n");
        assert_eq!(short.load(&text), at_line(3, Error::Malformed), "load {text:x?}");
        assert_eq!(short.areas(), loaded(65_536, 16, 4, "甲 1\n乙\n").areas());
        assert_eq!(unchanged(&mut dictionary, |d| d.add_word(bytes, 1)), Err(Error::Malformed), "add {bytes:x?}");
        // 3 comes before 4.
        assert_eq!(unchanged(&mut dictionary, |d| d.add_word(bytes, u64::MAX)), Err(Error::Malformed));
        assert_eq!(dictionary.lookup(bytes), Err(Error::Malformed), "lookup {bytes:x?}");
        assert_eq!(refused_cuts(&dictionary, bytes, &scratch(8, 8, 8)), 3, "cuts {bytes:x?}");
        // What is well formed before it is not cut, and 3 comes before 9.
        let sentence = ["打开灯".as_bytes(), bytes].concat();
        assert_eq!(refused_cuts(&dictionary, &sentence, &scratch(16, 8, 8)), 3, "cuts {sentence:x?}");
        assert_eq!(refused_cuts(&dictionary, &sentence, &scratch(0, 0, 0)), 3, "cuts {sentence:x?}");
    }
}

#[test]
fn well_formed_at_the_boundaries() {
    let sentence = "\0\u{7f}\u{80}\u{7ff}\u{800}\u{d7ff}\u{e000}\u{ffff}\u{10000}\u{10ffff}";
    let each: Vec<String> = sentence.chars().map(String::from).collect();
    let (number, tokens) = cut(&book_a(), sentence);
    assert_eq!((number, tokens), (0, each.iter().map(String::as_str).collect()));
    let mut dictionary = Dictionary::with_sizes(1, 16, 1).unwrap();
    assert_eq!(dictionary.add_word(sentence.as_bytes(), 3), Ok(3));
    assert_eq!(dictionary.lookup(sentence.as_bytes()), Ok(Some(3)));
}

#[test]
fn number_4() {
    for frequency in ["+", "++1", "-1", "1.0", "1+", "x", "０", "4294967296", "99999999999999999999999"] {
        let mut dictionary = loaded(1, 16, 4, "a 1\n");
        let text = format!("b 2\n\na {frequency}\nc 3\n");
        assert_eq!(dictionary.load(text.as_bytes()), at_line(3, Error::BadFrequency), "{frequency}");
        // The line before stays, and the line and those after it have left nothing.
        assert_eq!(dictionary.areas(), loaded(1, 16, 4, "a 1\nb 2\n").areas(), "{frequency}");
    }
    let mut dictionary = loaded(1, 16, 4, "a 1\n");
    for frequency in [4_294_967_296, u64::MAX] {
        assert_eq!(unchanged(&mut dictionary, |d| d.add_word(b"a", frequency)), Err(Error::BadFrequency));
        assert_eq!(unchanged(&mut dictionary, |d| d.add_word(b"b", frequency)), Err(Error::BadFrequency));
        // The empty word comes before 4.
        assert_eq!(unchanged(&mut dictionary, |d| d.add_word(b"", frequency)), Ok(0));
    }
    assert_eq!(dictionary.add_word(b"a", 4_294_967_295), Ok(4_294_967_295));
    assert_eq!(dictionary.load(b"a 4294967295"), Ok(1));
}

#[test]
fn number_5() {
    let mut dictionary = loaded(1, 16, 4, "a 4294967290\nb 5\n");
    for frequency in [1, 4_294_967_295] {
        assert_eq!(unchanged(&mut dictionary, |d| d.add_word(b"c", frequency)), Err(Error::TotalTooLarge));
    }
    assert_eq!(unchanged(&mut dictionary, |d| d.add_word(b"b", 6)), Err(Error::TotalTooLarge));
    assert_eq!(unchanged(&mut dictionary, |d| d.load(b"b 6")), at_line(1, Error::TotalTooLarge));
    assert_eq!(unchanged(&mut dictionary, |d| d.load(b"c")), at_line(1, Error::TotalTooLarge));
    // The earlier line stays: it takes b's 5 off the total.
    assert_eq!(dictionary.load(b"b 0\nc 5\nd 1\n"), at_line(3, Error::TotalTooLarge));
    assert_eq!(dictionary.areas().head, [3, 3, 4, 4_294_967_295]);
    assert_eq!(dictionary.lookup(b"d"), Ok(None));
    // A held word's old frequency is taken off first; a word of frequency 0 still enters.
    assert_eq!(dictionary.add_word(b"a", 4_294_967_290), Ok(4_294_967_290));
    assert_eq!(dictionary.add_word(b"d", 0), Ok(0));
    assert_eq!(dictionary.lookup(b"d"), Ok(Some(0)));
}

#[test]
fn number_6() {
    let mut dictionary = loaded(1, 16, 2, "a 1\n");
    assert_eq!(dictionary.load(b"b 2\nb 3\nc 4\na 9\n"), at_line(3, Error::RecordsFull));
    assert_eq!(dictionary.areas(), loaded(1, 16, 2, "a 1\nb 3\n").areas());
    assert_eq!(unchanged(&mut dictionary, |d| d.load(b"c")), at_line(1, Error::RecordsFull));
    assert_eq!(unchanged(&mut dictionary, |d| d.add_word(b"ab", 1)), Err(Error::RecordsFull));
    assert_eq!(dictionary.add_word(b"a", 7), Ok(7));
}

#[test]
fn number_7() {
    // All 12 slots that may be taken are.
    let mut dictionary = loaded(98, 16, 16, "bcdefghijklm 1\n");
    assert_eq!(dictionary.areas().head, [1, 12, 13, 1]);
    assert_eq!(unchanged(&mut dictionary, |d| d.add_word(b"bx", 1)), Err(Error::SlotsFull));
    assert_eq!(unchanged(&mut dictionary, |d| d.load(b"c")), at_line(1, Error::SlotsFull));
    // `a` is the last entry of the root table and takes no slot; its second character does.
    assert_eq!(dictionary.load(b"a 1\nab 1\n"), at_line(2, Error::SlotsFull));
    assert_eq!(dictionary.lookup(b"a"), Ok(Some(1)));
    assert_eq!(dictionary.lookup(b"ab"), Ok(None));
    // A word along characters that are all there takes no slot.
    assert_eq!(dictionary.add_word(b"bcd", 4), Ok(4));
}

#[test]
fn the_order_of_5_6_7() {
    // Total, records and slots are all at their ends.
    let mut dictionary = loaded(1, 16, 1, "abcdefghijkl 4294967295\n");
    assert_eq!(unchanged(&mut dictionary, |d| d.add_word(b"x", 1)), Err(Error::TotalTooLarge));
    assert_eq!(unchanged(&mut dictionary, |d| d.add_word(b"x", 0)), Err(Error::RecordsFull));
    let mut dictionary = loaded(1, 16, 2, "abcdefghijkl 4294967295\n");
    assert_eq!(unchanged(&mut dictionary, |d| d.add_word(b"x", 0)), Err(Error::SlotsFull));
}

#[test]
fn number_9() {
    let dictionary = book_a();
    let shorten: [fn(&mut tongsvale::Scratch, usize); 6] = [
        |s, n| s.chars.truncate(n),
        |s, n| s.offsets.truncate(n),
        |s, n| s.starts.truncate(n),
        |s, n| s.scores.truncate(n),
        |s, n| s.ends.truncate(n),
        |s, n| s.route_records.truncate(n),
    ];
    for (sentence, characters) in [("", 0), ("灯", 1), ("打开,客厅灯", 6)] {
        for (slice, shorten) in shorten.iter().enumerate() {
            let mut enough = scratch(16, 16, 16);
            shorten(&mut enough, characters + 1);
            let mut short = enough.clone();
            shorten(&mut short, characters);
            assert_eq!(words(dictionary.cut(sentence, &mut enough)), cut(&dictionary, sentence));
            assert_eq!(words(dictionary.cut_for_search(sentence, &mut enough)), cut_for_search(&dictionary, sentence));
            let before = short.clone();
            assert_eq!(words(dictionary.cut(sentence, &mut short)), (9, vec![]), "slice {slice}, {sentence}");
            assert_eq!(words(dictionary.cut_for_search(sentence, &mut short)), (9, vec![]), "slice {slice}, {sentence}");
            assert_eq!(short, before);
            // The work area of `cut_all` is the first two slices.
            let expected = if slice < 2 { (9, vec![]) } else { cut_all(&dictionary, sentence) };
            assert_eq!(words(dictionary.cut_all(sentence, &mut short)), expected, "slice {slice}, {sentence}");
            if slice < 2 {
                assert_eq!(short, before);
            }
        }
    }
}

#[test]
fn number_10() {
    let dictionary = book_a();
    // Seven words start in the sentence, so seven edges are enough.
    let sentence = "打开客厅灯";
    assert_eq!(words(dictionary.cut(sentence, &mut scratch(6, 7, 5))), (0, vec!["打开", "客厅灯"]));
    for edges in 0..7 {
        assert_eq!(words(dictionary.cut(sentence, &mut scratch(6, edges, 5))), (10, vec![]), "{edges} edges");
        assert_eq!(words(dictionary.cut_for_search(sentence, &mut scratch(6, edges, 5))), (10, vec![]), "{edges} edges");
    }
    // The edge area counts as its shorter slice.
    for (ends, records) in [(6, 7), (7, 6)] {
        let mut scratch = scratch(6, 7, 5);
        scratch.edge_ends.truncate(ends);
        scratch.edge_records.truncate(records);
        assert_eq!(words(dictionary.cut(sentence, &mut scratch)), (10, vec![]), "{ends} ends, {records} records");
    }
    // The tokens of earlier blocks stay, and later places hold what they held.
    let mut scratch = scratch(8, 6, 5);
    assert_eq!(words(dictionary.cut("灯!打开客厅灯", &mut scratch)), (10, vec!["灯", "!"]));
    assert_eq!(scratch.tokens[..12], [0, 1, 0, 3, 0, 1, 1, 2, 3, 4, 1, 2]);
    assert_eq!(scratch.tokens[12..], [909; 18]);
    // What search writes of earlier blocks stays too.
    let searched = words(dictionary.cut_for_search("客厅灯!打开客厅灯", &mut common::scratch(10, 6, 9)));
    assert_eq!(searched, (10, vec!["客厅", "厅灯", "客厅灯", "!"]));
    // A lone step takes no edge, and `cut_all` none at all.
    assert_eq!(words(dictionary.cut("甲乙", &mut common::scratch(3, 0, 2))), (0, vec!["甲", "乙"]));
    assert_eq!(words(dictionary.cut_all(sentence, &mut common::scratch(6, 0, 7))), cut_all(&dictionary, sentence));
}

#[test]
fn number_11() {
    let dictionary = book_a();
    let sentence = "打开,客厅灯!";
    let (_, one) = cut(&dictionary, sentence);
    let (_, all) = cut_all(&dictionary, sentence);
    assert_eq!((one.len(), all.len()), (4, 9));
    for places in 0..12 {
        // Where they do not suffice, the first tokens fill all places; where they do, later places hold what they held.
        let expected = if places < one.len() { (11, one[..places].to_vec()) } else { (0, one.clone()) };
        let mut room = scratch(8, 8, places);
        assert_eq!(words(dictionary.cut(sentence, &mut room)), expected, "{places} places");
        assert!(room.tokens[6 * expected.1.len()..].iter().all(|&n| n == 909));
        let expected = if places < all.len() { (11, all[..places].to_vec()) } else { (0, all.clone()) };
        let mut room = scratch(8, 0, places);
        assert_eq!(words(dictionary.cut_all(sentence, &mut room)), expected, "{places} places, all");
        assert!(room.tokens[6 * expected.1.len()..].iter().all(|&n| n == 909));
    }
    // An empty sentence needs no place.
    assert_eq!(words(dictionary.cut("", &mut scratch(1, 0, 0))), (0, vec![]));
    assert_eq!(words(dictionary.cut_all("", &mut scratch(1, 0, 0))), (0, vec![]));
    // With all places full the next block is still walked, so its 10 comes before 11.
    assert_eq!(words(dictionary.cut("灯!打开客厅灯", &mut scratch(8, 6, 2))), (10, vec!["灯", "!"]));
    assert_eq!(words(dictionary.cut("灯!打开客厅灯", &mut scratch(8, 7, 2))), (11, vec!["灯", "!"]));
}

/// 11 between two parts, between parts and words, between words of two and of three characters, and before the token itself.
#[test]
fn number_11_in_the_middle_of_a_token() {
    let dictionary = loaded(1, 64, 16, "ab-cd甲 100\nab 1\nb- 1\n-cd 1\nd甲 1\ncd甲 1\n");
    let sentence = "灯ab-cd甲!";
    let all = ["灯", "ab", "cd甲", "ab", "b-", "d甲", "-cd", "cd甲", "ab-cd甲", "!"];
    for places in 0..=all.len() + 2 {
        let expected = if places < all.len() { (11, all[..places].to_vec()) } else { (0, all.to_vec()) };
        for mode in [None, Some(TokenizeMode::Search)] {
            let mut room = scratch(9, 9, places);
            let found = match mode {
                None => words(dictionary.cut_for_search(sentence, &mut room)),
                Some(mode) => words(dictionary.tokenize(sentence, mode, &mut room)),
            };
            assert_eq!(found, expected, "{places} places");
            assert!(room.tokens[6 * expected.1.len()..].iter().all(|&n| n == 909));
        }
    }
    // With all places full the next block is still walked, so its 10 comes before 11, and the places stay full.
    let sentence = "ab-cd甲!ab-cd甲ab";
    assert_eq!(words(dictionary.cut_for_search(sentence, &mut scratch(16, 6, 9))), (10, [&all[1..9], &["!"]].concat()));
    assert_eq!(words(dictionary.cut_for_search(sentence, &mut scratch(16, 7, 9))), (11, [&all[1..9], &["!"]].concat()));
}
