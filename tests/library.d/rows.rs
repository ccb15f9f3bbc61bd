//! What the rows on texts and on games share.
use std::alloc::Global;

/// Whether a word that names a kind begins with its letter.
pub fn is_kind(word: &str, letter: u8) -> bool {
    word.as_bytes().first().copied() == Some(letter)
}

/// What rows say, and the allocator with which they are read.
#[derive(Drop)]
pub struct Asked<S> {
    pub says: S,
    pub alloc: Global,
}
