//! Stands in for the crate rustc-hash: a multiplying hasher of the same kind. lib.rs hashes tags with it while it loads, and tags
//! are not compared; no table's order is ever read, so no answer depends on the hash. It is as short as the true one, so that the
//! Rust's load is not slowed down.

use std::hash::{BuildHasherDefault, Hasher};

pub type FxBuildHasher = BuildHasherDefault<FxHasher>;

#[derive(Default)]
pub struct FxHasher {
    state: u64,
}

impl FxHasher {
    #[inline]
    fn enter(&mut self, word: u64) {
        self.state = (self.state.rotate_left(5) ^ word).wrapping_mul(0x517c_c1b7_2722_0a95);
    }
}

impl Hasher for FxHasher {
    #[inline]
    fn write(&mut self, bytes: &[u8]) {
        for chunk in bytes.chunks(8) {
            let mut word = [0; 8];
            word[..chunk.len()].copy_from_slice(chunk);
            self.enter(u64::from_le_bytes(word));
        }
    }

    #[inline]
    fn write_u8(&mut self, number: u8) {
        self.enter(number as u64);
    }

    #[inline]
    fn write_u32(&mut self, number: u32) {
        self.enter(number as u64);
    }

    #[inline]
    fn finish(&self) -> u64 {
        self.state
    }
}
