use crate::{MOST_RECORDS, MOST_ROOTS, MOST_SLOTS};

/// The fewest slots.
const FEWEST_SLOTS: usize = 16;

/// The sizes of a book.
#[derive(Clone, Copy, Debug, PartialEq, Eq)]
pub struct Sizes {
    /// The entries of the root table.
    pub roots: usize,
    /// The slots, a power of two.
    pub slots: usize,
    /// The records.
    pub records: usize,
}

impl Sizes {
    /// Sizes that hold the words of a dictionary text: a record for each line, a slot for each character of a word after its
    /// first, slots filled to six eighths, and the whole root table, which serves every first character up to U+FFFF. Words that
    /// stand in the text twice, or begin alike, need less. A text beyond the limits gets the limits.
    pub fn for_text(text: impl AsRef<[u8]>) -> Sizes {
        let mut records = 0;
        let mut taken = 0;
        for line in text.as_ref().split(|&byte| byte == b'\n') {
            let word = first_field(line);
            if !word.is_empty() {
                records += 1;
                // A first character above U+FFFF, of four bytes, takes a slot too.
                taken += characters(word).saturating_sub(usize::from(word[0] < 0xF0));
            }
        }
        Sizes { roots: MOST_ROOTS, slots: slots_for(taken), records: records.clamp(1, MOST_RECORDS) }
    }

    /// The bytes of a book of these sizes.
    pub fn bytes(&self) -> usize {
        4 * 8 + self.roots * 8 + self.slots * (8 + 8) + self.records * (8 + 8)
    }
}

/// The fewest slots of which so many may be taken.
fn slots_for(taken: usize) -> usize {
    (taken.saturating_mul(8).div_ceil(6)).clamp(FEWEST_SLOTS, MOST_SLOTS).next_power_of_two()
}

/// What stands before the first white space of a line, as far as ASCII tells. Other white space only makes it longer, and the
/// sizes larger than they need be.
fn first_field(line: &[u8]) -> &[u8] {
    line.split(|byte| byte.is_ascii_whitespace() || *byte == 0x0B).find(|field| !field.is_empty()).unwrap_or(&[])
}

/// The characters of a text; of a malformed one at least as many as are read before the fault.
pub(crate) fn characters(text: &[u8]) -> usize {
    text.iter().filter(|&&byte| byte & 0xC0 != 0x80).count()
}

#[cfg(test)]
mod tests {
    use super::*;

    #[test]
    fn slots_are_filled_to_six_eighths() {
        for (taken, slots) in [(0, 16), (12, 16), (13, 32), (24, 32), (25, 64), (usize::MAX, MOST_SLOTS)] {
            assert_eq!(slots_for(taken), slots, "{taken}");
        }
    }

    #[test]
    fn a_text_gets_a_record_a_line_and_a_slot_a_character_after_the_first() {
        let sizes = Sizes::for_text("打开 256\n\n 客厅灯\t64 n\r\n𠀀灯\n");
        assert_eq!(sizes, Sizes { roots: 65_536, slots: 16, records: 3 });
        assert_eq!(Sizes::for_text("").records, 1);
    }
}
