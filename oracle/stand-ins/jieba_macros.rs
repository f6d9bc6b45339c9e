//! Stands in for the crate jieba-macros, whose one macro writes the HMM's tables. Here they are empty: every compared cut has
//! the HMM off, and reads none of them.

#[macro_export]
macro_rules! generate_hmm_data {
    () => {
        const HMM_HAN_MIN: char = '\u{4E00}';
        const HMM_HAN_MAX: char = '\u{9FD5}';
        const EMIT_MIN_CHAR: u32 = 0x4E00;
        const EMIT_NONE: u16 = u16::MAX;
        static INITIAL_PROBS: [f64; NUM_STATES] = [0.0; NUM_STATES];
        static TRANS_PROBS: [[f64; NUM_STATES]; NUM_STATES] = [[0.0; NUM_STATES]; NUM_STATES];
        static EMIT_INDEX: [u16; 0] = [];
        static EMIT_PROBS: [[f64; NUM_STATES]; 1] = [[0.0; NUM_STATES]];
    };
}
