//! Stands in for the Rust's posseg.rs, which guesses tags. Tags are not compared, and lib.rs names it only with the feature
//! `default-dict`, which is off here.
