//! Stands in for the Rust's errors.rs: the two errors that lib.rs and hmm.rs name, and the one they convert.
//!
//! No compared call makes one: the comparison gives accepted lines only, and loads no HMM.

#[derive(Debug)]
pub enum Error {
    Io(std::io::Error),
    InvalidDictEntry(String),
    InvalidHmmModel(String),
}

impl From<std::io::Error> for Error {
    fn from(error: std::io::Error) -> Self {
        Error::Io(error)
    }
}
