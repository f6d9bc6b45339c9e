//! Number 8: every kind of damage in document 01's list, made by hand in the areas.
mod common;
use common::*;
use tongsvale::{Areas, Dictionary, Error};

/// A key that no character has.
const NO_KEY: u64 = u64::MAX;

/// No slot from this one on is empty, nor has it a key that a character has.
fn fill_keys(areas: &mut Areas, start: usize) {
    areas.slots.chunks_exact_mut(2).skip(start).for_each(|slot| slot[0] = NO_KEY);
}

/// A root entry without the bits of its child.
fn without_bits(link: u64) -> u64 {
    link & !0xff00_0000
}

/// Numbers of a word that name no record where two are used.
const NO_RECORD: [u32; 5] = [2, 3, i32::MAX as u32, 1 << 31, u32::MAX - 1];

/// Loading, adding and looking up this word and cutting it as a sentence all meet damage, and leave every area as it was.
#[track_caller]
fn damaged_for_all(dictionary: &mut Dictionary, word: &str, what: &str) {
    let word = word.as_bytes();
    assert_eq!(unchanged(dictionary, |d| d.load([b"\n\n", word, b" 1"].concat())), at_line(3, Error::Damaged), "load, {what}");
    assert_eq!(unchanged(dictionary, |d| d.add_word(word, 1)), Err(Error::Damaged), "add, {what}");
    assert_eq!(dictionary.lookup(word), Err(Error::Damaged), "lookup, {what}");
    for (name, cut) in CUTS {
        assert_eq!(words(cut(dictionary, word, &mut scratch(16, 16, 16))), (8, vec![]), "{name}, {what}");
    }
}

#[test]
fn heads_beyond_their_ends() {
    let whole = book_a();
    let heads: [(&str, usize, u64); 11] = [
        ("records used", 0, 9),
        ("records used", 0, u64::MAX),
        ("slots used × 8 above slots × 6", 1, 13),
        ("slots used", 1, 17),
        // Eight times this is 0 modulo 2^64.
        ("slots used", 1, 1 << 61),
        ("slots used", 1, u64::MAX),
        ("next node", 2, 0),
        ("next node", 2, 16_777_216),
        ("next node", 2, u64::MAX),
        ("total", 3, 4_294_967_296),
        ("total", 3, u64::MAX),
    ];
    for (what, place, value) in heads {
        let mut damaged = changed(&whole, |a| a.head[place] = value);
        damaged_for_all(&mut damaged, "灯", what);
        assert_eq!(refused_cuts(&damaged, "灯".as_bytes(), &scratch(2, 1, 1)), 8, "{what}");
        // An empty sentence meets the head too; 3 and 9 come before it.
        assert_eq!(refused_cuts(&damaged, b"", &scratch(1, 0, 0)), 8, "{what}");
        assert_eq!(refused_cuts(&damaged, "灯".as_bytes(), &scratch(1, 1, 1)), 9, "{what}");
        assert_eq!(refused_cuts(&damaged, b"\xff", &scratch(2, 1, 1)), 3, "{what}");
        // Without a word nothing is met.
        assert_eq!(unchanged(&mut damaged, |d| d.load(b"")), Ok(0), "{what}");
        assert_eq!(unchanged(&mut damaged, |d| d.load(b"\n \n")), Ok(2), "{what}");
        assert_eq!(unchanged(&mut damaged, |d| d.add_word(b"", 1)), Ok(0), "{what}");
        assert_eq!(damaged.lookup(b""), Ok(None), "{what}");
        // 3 and 4 come before it.
        assert_eq!(unchanged(&mut damaged, |d| d.load(b"\n\xff 1")), at_line(2, Error::Malformed), "{what}");
        assert_eq!(unchanged(&mut damaged, |d| d.load(b"a x")), at_line(1, Error::BadFrequency), "{what}");
        assert_eq!(unchanged(&mut damaged, |d| d.add_word(b"a", 1 << 32)), Err(Error::BadFrequency), "{what}");
        assert_eq!(damaged.lookup(b"\xff"), Err(Error::Malformed), "{what}");
        // A damaged book can be prepared.
        assert_eq!(damaged.prepare(), Ok(()), "{what}");
        assert_eq!(damaged.areas(), Dictionary::with_sizes(65_536, 16, 8).unwrap().areas(), "{what}");
    }
}

#[test]
fn heads_at_their_ends_are_not_damaged() {
    for (place, value) in [(0, 8), (1, 12), (2, 1), (2, 16_777_215), (3, 4_294_967_295)] {
        let whole = changed(&book_a(), |a| a.head[place] = value);
        assert_eq!(whole.lookup("灯".as_bytes()), Ok(Some(128)));
        assert_eq!(cut_all(&whole, "打开"), (0, vec!["打", "打开", "开"]));
    }
}

#[test]
fn a_probe_without_an_end() {
    // A first character among the slots.
    let mut damaged = changed(&loaded(1, 16, 1, ""), |a| fill_keys(a, 0));
    damaged_for_all(&mut damaged, "灯", "first step");
    // Characters that the root table serves do not probe.
    assert_eq!(damaged.lookup(b"\0"), Ok(None));
    // One empty slot, wherever it is, ends every probe.
    for slot in 0..16 {
        let whole = changed(&damaged, |a| a.slots[key_at(slot)] = 0);
        assert_eq!(whole.lookup("灯".as_bytes()), Ok(None), "slot {slot}");
    }
    // A later step. The step that the root entry has no bit for is not probed.
    let whole = loaded(65_536, 16, 2, "甲乙 1\n");
    let mut damaged = changed(&whole, |a| fill_keys(a, 0));
    damaged_for_all(&mut damaged, "甲乙", "second step");
    let bitless = changed(&damaged, |a| a.roots['甲' as usize] = without_bits(a.roots['甲' as usize]));
    assert_eq!(bitless.lookup("甲乙".as_bytes()), Ok(None));
    assert_eq!(cut(&bitless, "甲乙"), (0, vec!["甲", "乙"]));
    // An insertion tests no bits, so it does probe.
    let mut bitless = bitless;
    assert_eq!(unchanged(&mut bitless, |d| d.add_word("甲乙".as_bytes(), 1)), Err(Error::Damaged));
    assert_eq!(bitless.load("丙 1\n甲乙 1".as_bytes()), at_line(2, Error::Damaged));
    assert_eq!(bitless.lookup("丙".as_bytes()), Ok(Some(1)));
}

/// 甲 and 甲乙, and the slot of the second.
fn two_words() -> (Dictionary, usize) {
    let whole = loaded(65_536, 16, 3, "甲 1\n甲乙 2\n");
    let slot = slot_where(whole.areas(), |_, link| upper(link) == 2);
    (whole, slot)
}

#[test]
fn bad_word_numbers_in_the_root_table() {
    let (whole, _) = two_words();
    // Exactly as many as are used is the last one's, which is 甲乙's.
    let other = changed(&whole, |a| a.roots['甲' as usize] = with_upper(a.roots['甲' as usize], 2));
    assert_eq!(other.lookup("甲".as_bytes()), Ok(Some(2)));
    for word in NO_RECORD {
        let mut damaged = changed(&whole, |a| a.roots['甲' as usize] = with_upper(a.roots['甲' as usize], word + 1));
        damaged_for_all(&mut damaged, "甲", "root");
        // Lookup and addition test the last step's only, cuts every one.
        assert_eq!(damaged.lookup("甲乙".as_bytes()), Ok(Some(2)), "{word}");
        assert_eq!(cut(&damaged, "甲乙"), (8, vec![]), "{word}");
        assert_eq!(cut_all(&damaged, "甲乙"), (8, vec![]), "{word}");
        assert_eq!(damaged.add_word("甲乙".as_bytes(), 5), Ok(5), "{word}");
        // The third record makes 2 a record's number.
        let expected = if word == 2 { Ok(2) } else { at_line(2, Error::Damaged) };
        assert_eq!(damaged.load("甲丙 1\n甲 7".as_bytes()), expected, "{word}");
        assert_eq!(damaged.lookup("甲丙".as_bytes()), Ok(Some(if word == 2 { 7 } else { 1 })), "{word}");
    }
}

#[test]
fn bad_word_numbers_in_the_slots() {
    let (whole, slot) = two_words();
    for word in NO_RECORD {
        let mut damaged = changed(&whole, |a| a.slots[link_at(slot)] = with_upper(a.slots[link_at(slot)], word + 1));
        assert_eq!(damaged.lookup("甲乙".as_bytes()), Err(Error::Damaged), "{word}");
        assert_eq!(unchanged(&mut damaged, |d| d.add_word("甲乙".as_bytes(), 1)), Err(Error::Damaged), "{word}");
        assert_eq!(unchanged(&mut damaged, |d| d.load("甲乙 1".as_bytes())), at_line(1, Error::Damaged), "{word}");
        assert_eq!(damaged.lookup("甲".as_bytes()), Ok(Some(1)), "{word}");
        // A sentence that does not meet it is cut.
        assert_eq!(cut(&damaged, "甲"), (0, vec!["甲"]), "{word}");
        // The tokens of earlier blocks stay; `cut_all` keeps what it has written in this one too.
        assert_eq!(cut(&damaged, "丁,甲乙"), (8, vec!["丁", ","]), "{word}");
        assert_eq!(cut_for_search(&damaged, "丁,甲乙"), (8, vec!["丁", ","]), "{word}");
        assert_eq!(cut_all(&damaged, "甲,甲乙"), (8, vec!["甲", ",", "甲"]), "{word}");
        // A bad number comes before its own edge's 10, and after the 10 of an edge before it.
        assert_eq!(words(damaged.cut("甲乙", &mut scratch(3, 1, 2))), (8, vec![]), "{word}");
        assert_eq!(words(damaged.cut("甲乙", &mut scratch(3, 0, 2))), (10, vec![]), "{word}");
        assert_eq!(words(damaged.cut_for_search("甲乙", &mut scratch(3, 1, 2))), (8, vec![]), "{word}");
        assert_eq!(words(damaged.cut_for_search("甲乙", &mut scratch(3, 0, 2))), (10, vec![]), "{word}");
        // With all places full, 8 in the next block comes before 11; `cut_all` meets 11 first.
        assert_eq!(words(damaged.cut("丁,甲乙", &mut scratch(5, 4, 2))), (8, vec!["丁", ","]), "{word}");
        assert_eq!(words(damaged.cut_for_search("丁,甲乙", &mut scratch(5, 4, 2))), (8, vec!["丁", ","]), "{word}");
        assert_eq!(words(damaged.cut_all(",甲乙", &mut scratch(4, 0, 1))), (11, vec![","]), "{word}");
        // Only the insertion reaches the step where its bit is missing, and it tests the number too.
        let mut bitless = changed(&damaged, |a| a.roots['甲' as usize] = without_bits(a.roots['甲' as usize]));
        assert_eq!(bitless.lookup("甲乙".as_bytes()), Ok(None), "{word}");
        assert_eq!(unchanged(&mut bitless, |d| d.add_word("甲乙".as_bytes(), 1)), Err(Error::Damaged), "{word}");
    }
    // 0 is no word, and no damage.
    let without = changed(&whole, |a| a.slots[link_at(slot)] = with_upper(a.slots[link_at(slot)], 0));
    assert_eq!(without.lookup("甲乙".as_bytes()), Ok(None));
    assert_eq!(cut_all(&without, "甲乙"), (0, vec!["甲"]));
}

#[test]
fn a_replaced_frequency_above_the_total() {
    let whole = loaded(1, 16, 2, "a 10\nb 10\n");
    let mut damaged = changed(&whole, |a| a.head[3] = 9);
    assert_eq!(unchanged(&mut damaged, |d| d.add_word(b"a", 1)), Err(Error::Damaged));
    assert_eq!(unchanged(&mut damaged, |d| d.load(b"\nb 10")), at_line(2, Error::Damaged));
    assert_eq!(damaged.lookup(b"a"), Ok(Some(10)));
    // Exactly the total is none.
    let mut whole = changed(&whole, |a| a.head[3] = 10);
    assert_eq!(whole.add_word(b"a", 1), Ok(1));
    assert_eq!(whole.areas().head[3], 1);
}

#[test]
fn fewer_empty_slots_than_a_new_word_needs() {
    let one_empty = changed(&loaded(1, 16, 2, ""), |a| fill_keys(a, 1));
    let mut damaged = one_empty.clone();
    assert_eq!(unchanged(&mut damaged, |d| d.add_word(b"ab", 1)), Err(Error::Damaged));
    assert_eq!(unchanged(&mut damaged, |d| d.load(b"ab")), at_line(1, Error::Damaged));
    // One is enough for one. The load's next line finds none: its probe has no end.
    assert_eq!(damaged.load(b"a 4\nb 5"), at_line(2, Error::Damaged));
    assert_eq!(damaged.lookup(b"a"), Ok(Some(4)));
    assert_eq!(damaged.areas().head, [1, 1, 2, 4]);
    // 7 comes before it.
    let mut damaged = changed(&one_empty, |a| a.head[1] = 11);
    assert_eq!(unchanged(&mut damaged, |d| d.add_word(b"ab", 1)), Err(Error::SlotsFull));
    let mut damaged = changed(&one_empty, |a| a.head[1] = 10);
    assert_eq!(unchanged(&mut damaged, |d| d.add_word(b"ab", 1)), Err(Error::Damaged));
}

#[test]
fn nodes_run_out() {
    let empty = loaded(1, 16, 2, "");
    let mut damaged = changed(&empty, |a| a.head[2] = 16_777_214);
    assert_eq!(unchanged(&mut damaged, |d| d.add_word(b"ab", 1)), Err(Error::Damaged));
    assert_eq!(unchanged(&mut damaged, |d| d.load(b"ab")), at_line(1, Error::Damaged));
    assert_eq!(damaged.load(b"a 4\nb 5"), at_line(2, Error::Damaged));
    assert_eq!(damaged.lookup(b"a"), Ok(Some(4)));
    assert_eq!(damaged.areas().head, [1, 1, 16_777_215, 4]);
    // A held word takes no node.
    assert_eq!(damaged.add_word(b"a", 6), Ok(6));
    // 5, 6 and 7 come before it.
    assert_eq!(unchanged(&mut damaged, |d| d.add_word(b"b", 4_294_967_295)), Err(Error::TotalTooLarge));
    let mut full = changed(&damaged, |a| a.head[1] = 12);
    assert_eq!(unchanged(&mut full, |d| d.add_word(b"b", 1)), Err(Error::SlotsFull));
    let mut full = changed(&full, |a| a.head[0] = 2);
    assert_eq!(unchanged(&mut full, |d| d.add_word(b"b", 1)), Err(Error::RecordsFull));
}

#[test]
fn loops_and_strange_floats_are_cut_all_the_same() {
    // 甲's node leads to itself: 甲甲甲... is walked as long as the sentence is.
    let whole = loaded(1, 16, 2, "甲甲 1\n");
    let slot = slot_where(whole.areas(), |_, link| upper(link) == 1);
    let first = slot_where(whole.areas(), |key, _| key & 0xffff_ffff_ffff == '甲' as u64 + 1);
    let looped = changed(&whole, |a| {
        a.slots[link_at(slot)] = with_upper(a.slots[link_at(first)], 1);
        a.slots[key_at(slot)] |= a.slots[key_at(first)] & !0xffff_ffff_ffff;
    });
    assert_eq!(cut_all(&looped, "甲甲甲甲"), (0, vec!["甲甲", "甲甲甲", "甲甲甲甲", "甲甲", "甲甲甲", "甲甲"]));
    for logarithm in [f64::NAN, f64::INFINITY, f64::NEG_INFINITY, f64::MAX, -0.0] {
        let strange = changed(&book_a(), |a| a.logarithms.fill(logarithm));
        let (number, tokens) = cut(&strange, "打开,客厅灯");
        assert_eq!((number, tokens.concat()), (0, "打开,客厅灯".to_string()), "{logarithm}");
        // Search finds the held words of the tokens, whichever they are.
        let (number, searched) = cut_for_search(&strange, "打开,客厅灯");
        assert_eq!(number, 0, "{logarithm}");
        assert!(tokens.iter().all(|token| searched.contains(token)), "{logarithm}");
    }
}
