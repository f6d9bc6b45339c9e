//! The upper half of a record, which is kept for later: a lookup and a cut go by the lower half, a new frequency leaves the upper
//! as it is, and a new word's is 0.
mod common;
use common::*;
use tongsvale::{Dictionary, Error};

const HALVES: [u32; 4] = [1, 7, 1 << 31, u32::MAX];

/// Book A with this upper half in every record, those that are not used among them.
fn with_halves(half: u32) -> Dictionary {
    changed(&loaded(65_536, 16, 10, BOOK_A), |a| a.records.iter_mut().for_each(|record| *record = with_upper(*record, half)))
}

#[test]
fn lookups_and_cuts_go_by_the_lower_half() {
    let whole = book_a();
    for half in HALVES {
        let tagged = with_halves(half);
        for word in ["打开", "开灯", "打", "开", "灯", "客厅", "客厅灯", "厅灯", "客", "打灯"] {
            assert_eq!(tagged.lookup(word), whole.lookup(word), "{word}, {half}");
        }
        for sentence in ["打开客厅灯", "打开灯,客厅!", "灯打客"] {
            for (name, cut) in CUTS {
                let found = words(cut(&tagged, sentence.as_bytes(), &mut scratch(16, 16, 16)));
                assert_eq!(
                    found,
                    words(cut(&whole, sentence.as_bytes(), &mut scratch(16, 16, 16))),
                    "{name}, {sentence}, {half}"
                );
            }
        }
    }
}

#[test]
fn a_new_frequency_leaves_the_upper_half() {
    for half in HALVES {
        let mut tagged = with_halves(half);
        let mut expected = tagged.areas().clone();
        assert_eq!(tagged.add_word("打", 65), Ok(65), "{half}");
        expected.records[2] = with_upper(65, half);
        expected.head[3] += 1;
        assert_eq!(tagged.areas().records, expected.records, "{half}");
        assert_eq!(tagged.areas().head, expected.head, "{half}");
        assert_eq!(tagged.lookup("打"), Ok(Some(65)), "{half}");
        // Of each word a load brings anew.
        assert_eq!(tagged.load("打开 0\n打 4294966527\n灯\n"), Ok(3), "{half}");
        expected.records[0] = with_upper(0, half);
        expected.records[2] = with_upper(4_294_966_527, half);
        expected.records[4] = with_upper(1, half);
        assert_eq!(tagged.areas().records, expected.records, "{half}");
        // 256, 64, 128, 64 and 64 of the others: the total counts lower halves alone.
        assert_eq!(tagged.areas().head[3], 4_294_966_527 + 1 + 576, "{half}");
    }
}

#[test]
fn a_new_word_has_no_upper_half() {
    for half in HALVES {
        // Whatever the record held that it takes.
        let mut tagged = with_halves(half);
        assert_eq!(tagged.add_word("厅", 9), Ok(9), "{half}");
        assert_eq!(tagged.load("客 3\n"), Ok(1), "{half}");
        assert_eq!(tagged.areas().records[8..], [9, 3], "{half}");
        assert!(tagged.areas().records[..8].iter().all(|&record| upper(record) == u64::from(half)), "{half}");
    }
}

#[test]
fn a_refused_word_leaves_the_upper_half() {
    for half in HALVES {
        let mut tagged = with_halves(half);
        assert_eq!(unchanged(&mut tagged, |d| d.add_word("打", 4_294_967_295)), Err(Error::TotalTooLarge), "{half}");
        assert_eq!(unchanged(&mut tagged, |d| d.load("客厅 x")), at_line(1, Error::BadFrequency), "{half}");
        // Only the lower half is compared with the total.
        let mut damaged = changed(&tagged, |a| a.head[3] = 63);
        assert_eq!(unchanged(&mut damaged, |d| d.add_word("打", 1)), Err(Error::Damaged), "{half}");
        let mut whole = changed(&tagged, |a| a.head[3] = 64);
        assert_eq!(whole.add_word("打", 1), Ok(1), "{half}");
        assert_eq!(whole.areas().head[3], 1, "{half}");
    }
}
