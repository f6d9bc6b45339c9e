//! Areas that size themselves, and errors that `?` takes along.
use tongsvale::{Dictionary, Error, Scratch, Sizes, MOST_RECORDS, MOST_SLOTS};

/// A text is loaded whole into the dictionary that was made for it, and each of its words is held.
#[track_caller]
fn fits(text: &str, words: &[&str]) {
    let mut dictionary = Dictionary::for_text(text).unwrap();
    dictionary.load(text).unwrap();
    for word in words {
        assert!(matches!(dictionary.lookup(word), Ok(Some(_))), "{word:?} of {text:?}");
    }
}

#[test]
fn a_text_fits_its_sizes() {
    fits("", &[]);
    fits("灯", &["灯"]);
    fits("打开 256\n客厅灯 64\n\n\t卧室电视 9 n\r\n", &["打开", "客厅灯", "卧室电视"]);
    // White space that is no ASCII only makes the sizes larger.
    fits("\u{3000}灯\u{3000}5\n书房\u{85}6", &["灯", "书房"]);
    // First characters that the root table does not serve take a slot.
    fits("𠀀\n𠀁\n𠀂\n𠀃\n𠀄\n𠀅\n𠀆\n𠀇\n𠀈\n𠀉\n𠀊\n𠀋\n𠀌\n", &["𠀀", "𠀌"]);
}

#[test]
fn a_malformed_text_is_refused_where_it_is_loaded() {
    let text = b"\x80\xBF 1\n";
    assert_eq!(Dictionary::for_text(text).unwrap().load(text).unwrap_err().error, Error::Malformed);
}

#[test]
fn a_table_that_is_just_full_is_large_enough() {
    // Words of two characters with first characters of their own take a slot each: 12 of 16, and 24 of 32.
    for words in [12, 13, 24, 25] {
        let word = |n: u32| format!("{}乙", char::from_u32(0x4E00 + n).unwrap());
        let text: String = (0..words).map(|n| word(n) + "\n").collect();
        assert_eq!(
            Sizes::for_text(&text).slots,
            if words == 12 {
                16
            } else if words < 25 {
                32
            } else {
                64
            }
        );
        fits(&text, &[&word(0), &word(words - 1)]);
    }
}

#[test]
fn a_text_beyond_the_limits_gets_the_limits() {
    let sizes = Sizes::for_text("甲乙丙丁戊己庚辛壬癸\n".repeat(MOST_RECORDS / 2));
    assert_eq!((sizes.slots, sizes.records), (MOST_SLOTS, MOST_RECORDS / 2));
    assert_eq!(sizes.bytes(), 32 + 65_536 * 8 + MOST_SLOTS * 16 + MOST_RECORDS / 2 * 16);
}

/// Cuts in all words, with more places where there are too few.
fn all_words<'s>(dictionary: &Dictionary, sentence: &'s str, scratch: &mut Scratch) -> Result<Vec<&'s str>, Error> {
    loop {
        let error = match dictionary.cut_all(sentence, scratch) {
            Ok(tokens) => return Ok(tokens.map(|token| token.word).collect()),
            Err(stopped) => Error::from(stopped),
        };
        if !scratch.grow(error) {
            return Err(error);
        }
    }
}

#[test]
fn areas_grow_until_a_cut_is_done() {
    let text: String = (1..=20).map(|n| "甲".repeat(n) + "\n").collect();
    let mut dictionary = Dictionary::for_text(&text).unwrap();
    dictionary.load(&text).unwrap();
    let sentence = "甲".repeat(40);
    let mut scratch = Scratch::for_sentence(&sentence);
    assert_eq!(dictionary.cut_all(&sentence, &mut scratch).unwrap_err().error, Error::TokensFull);
    let words = all_words(&dictionary, &sentence, &mut scratch).unwrap();
    assert_eq!(words.len(), (1..=20).map(|n| 41 - n).sum::<usize>());

    let mut scratch = Scratch::with_sizes(41, 0, 40);
    assert_eq!(dictionary.cut(&sentence, &mut scratch).unwrap_err().error, Error::EdgesFull);
    while let Err(stopped) = dictionary.cut(&sentence, &mut scratch) {
        let error = stopped.error;
        assert!(scratch.grow(error), "{error}");
    }
    assert!(!scratch.grow(Error::WorkTooShort));
}

#[test]
fn a_question_mark_takes_every_error_along() {
    fn first_word(text: &[u8], sentence: &[u8]) -> Result<String, Error> {
        let mut dictionary = Dictionary::for_text(text)?;
        dictionary.load(text)?;
        dictionary.add_word("开灯", 6)?;
        let mut scratch = Scratch::for_sentence(sentence);
        let word = dictionary.cut(sentence, &mut scratch)?.next().map(|token| token.word.to_owned());
        Ok(word.unwrap_or_default())
    }
    assert_eq!(first_word("开灯 5\n".as_bytes(), "开灯".as_bytes()), Ok("开灯".to_owned()));
    assert_eq!(first_word("开灯 x\n".as_bytes(), "开灯".as_bytes()), Err(Error::BadFrequency));
    assert_eq!(first_word(b"", b"\xFF"), Err(Error::Malformed));
}
