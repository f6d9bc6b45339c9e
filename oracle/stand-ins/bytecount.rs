//! Stands in for the crate bytecount. lib.rs counts the characters of a piece of text of 16 bytes and more with it, in
//! `cut_for_search` and with the HMM; `cut` without the HMM, `cut_all` and `load_dict` never call it.

pub fn num_chars(text: &[u8]) -> usize {
    text.iter().filter(|&&byte| byte & 0xC0 != 0x80).count()
}
