//! The three ranges that note 9 of document 02 adds to Han, for the build of the Rust that is asked about sentences with such
//! characters, and for the program that compares, to tell these sentences; written from the note alone.

pub fn is_rare(c: char) -> bool {
    matches!(c, '\u{30000}'..='\u{3134F}' | '\u{31350}'..='\u{323AF}' | '\u{2EBF0}'..='\u{2EE5F}')
}
