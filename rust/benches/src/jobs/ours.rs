//! The jobs by the calls of `row-mask`.

pub mod appends;
pub mod deletions;
pub mod nulls;
pub mod pages;
pub mod rows;
pub mod scan;

use row_mask::Bitmap;

/// The first bits of words.
fn bitmap(words: &[u64], len: usize) -> Bitmap<'_> {
    Bitmap::from_words(words, len).unwrap()
}
