//! What takes much memory: the longest texts (16,777,215 bytes), one byte more, and the largest areas.
mod common;
use common::*;
use tongsvale::{Areas, Dictionary, Error, Scratch, LONGEST_TEXT, MOST_RECORDS, MOST_ROOTS, MOST_SLOTS};

/// Han characters of four bytes and 灯 at the end: 16,777,215 bytes, 4,194,304 characters.
fn longest_sentence() -> String {
    let mut sentence = "\u{20000}".repeat(4_194_303);
    sentence.push('灯');
    assert_eq!(sentence.len(), LONGEST_TEXT);
    sentence
}

#[test]
fn a_text_is_16_777_215_bytes_at_most() {
    let mut dictionary = book_a();
    assert_eq!(unchanged(&mut dictionary, |d| d.load(vec![b'\n'; 16_777_215])), Ok(16_777_215));
    assert_eq!(unchanged(&mut dictionary, |d| d.load(vec![b'\n'; 16_777_216])), at_line(0, Error::TooLong));
    // 2 comes before 3; up to the limit the bytes are read.
    assert_eq!(unchanged(&mut dictionary, |d| d.load(vec![0xff; 16_777_216])), at_line(0, Error::TooLong));
    assert_eq!(unchanged(&mut dictionary, |d| d.load(vec![0xff; 16_777_215])), at_line(1, Error::Malformed));
}

#[test]
fn a_word_is_16_777_215_bytes_at_most() {
    let mut dictionary = book_a();
    let word = "灯".repeat(5_592_405);
    assert_eq!(word.len(), 16_777_215);
    assert_eq!(unchanged(&mut dictionary, |d| d.add_word(word.as_bytes(), 1)), Err(Error::RecordsFull));
    // No book has the slots for it, so with a free record it is 7 and not 2.
    let mut roomy = loaded(65_536, 16, 9, BOOK_A);
    assert_eq!(unchanged(&mut roomy, |d| d.add_word(word.as_bytes(), 1)), Err(Error::SlotsFull));
    assert_eq!(roomy.lookup(word.as_bytes()), Ok(None));
    let mut bytes = word.into_bytes();
    bytes.push(b'a');
    for word in [bytes, vec![0xff; 16_777_216]] {
        assert_eq!(unchanged(&mut roomy, |d| d.add_word(&word, 1)), Err(Error::TooLong));
        assert_eq!(unchanged(&mut roomy, |d| d.add_word(&word, u64::MAX)), Err(Error::TooLong));
        assert_eq!(roomy.lookup(&word), Err(Error::TooLong));
    }
}

#[test]
fn a_sentence_is_16_777_215_bytes_at_most() {
    let dictionary = book_a();
    let sentence = longest_sentence();
    let mut scratch = Scratch::with_sizes(4_194_305, 1, 4_194_304);
    let tokens = dictionary.cut(&sentence, &mut scratch).unwrap();
    assert_eq!(tokens.len(), 4_194_304);
    let last = tokens.last().unwrap();
    assert_eq!((last.word, last.start, last.end), ("灯", 4_194_303, 4_194_304));
    assert_eq!((last.byte_start, last.byte_end), (16_777_212, 16_777_215));
    assert_eq!((last.utf16_start, last.utf16_end), (8_388_606, 8_388_607));
    assert!(dictionary.cut_for_search(&sentence, &mut scratch).unwrap().last() == Some(last));
    // The one held word; the other characters are dropped.
    let all = dictionary.cut_all(&sentence, &mut scratch).unwrap();
    assert!(all.eq([last]));
    // A byte more is refused, before malformed bytes and a short work area are met.
    let small = common::scratch(1, 1, 1);
    let longer = [sentence.as_bytes(), b"a"].concat();
    assert_eq!(refused_cuts(&dictionary, &longer, &small), 2);
    assert_eq!(refused_cuts(&dictionary, &vec![0xff; 16_777_216], &small), 2);
    assert_eq!(refused_cuts(&dictionary, sentence.as_bytes(), &small), 9);
    // Bad areas come before the length.
    let bad = changed(&dictionary, |a| a.head.truncate(3));
    assert_eq!(refused_cuts(&bad, &longer, &small), 1);
    assert_eq!(bad.lookup(&longer), Err(Error::BadAreas));
}

#[test]
fn the_largest_areas_are_accepted() {
    let mut dictionary = Dictionary::with_sizes(65_536, 4_194_304, 1_048_576).unwrap();
    dictionary.load(BOOK_A.as_bytes()).unwrap();
    assert_eq!(cut(&dictionary, "打开客厅灯"), (0, vec!["打开", "客厅灯"]));
}

#[test]
fn number_1_for_areas_too_large() {
    for (roots, slots, records) in [(65_537, 16, 1), (1, 8_388_608, 1), (1, 4_194_305, 1), (1, 16, 1_048_577)] {
        let mut dictionary = Dictionary::from_areas(Areas::with_sizes(roots, slots, records));
        let what = format!("{roots} {slots} {records}");
        assert_eq!(unchanged(&mut dictionary, |d| d.prepare()), Err(Error::BadAreas), "{what}");
        assert_eq!(unchanged(&mut dictionary, |d| d.load(b"a 1")), at_line(0, Error::BadAreas), "{what}");
        assert_eq!(unchanged(&mut dictionary, |d| d.add_word(b"a", 1)), Err(Error::BadAreas), "{what}");
        assert_eq!(dictionary.lookup(b"a"), Err(Error::BadAreas), "{what}");
        assert_eq!(refused_cuts(&dictionary, b"a", &scratch(2, 1, 1)), 1, "{what}");
        assert_eq!(Dictionary::with_sizes(roots, slots, records).unwrap_err(), Error::BadAreas, "{what}");
    }
}

#[test]
fn absurd_sizes_are_refused_without_their_memory() {
    for (roots, slots, records) in [(usize::MAX, 16, 1), (1, usize::MAX, 1), (1, 1 << 63, 1), (1, 16, usize::MAX)] {
        assert_eq!(Dictionary::with_sizes(roots, slots, records).unwrap_err(), Error::BadAreas);
    }
    assert!(Dictionary::with_sizes(MOST_ROOTS, MOST_SLOTS, MOST_RECORDS).is_ok());
}
