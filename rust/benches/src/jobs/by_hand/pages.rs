//! A predicate over the pages of a column that statistics don't rule out.

use super::Words;
use super::scan::below_8;
use crate::columns::Columns;

#[target_feature(enable = "avx2,bmi1,bmi2,popcnt")]
pub fn pages(columns: &Columns) -> Words {
    let mut words = vec![0; columns.len.div_ceil(64)];
    let parts = words.chunks_mut(columns.page_rows / 64);
    let pages = columns.prices.chunks(columns.page_rows).zip(&columns.pages);
    for ((page, _), out) in pages.zip(parts).filter(|((_, is_kept), _)| **is_kept) {
        let (whole, last) = page.as_chunks::<64>();
        for (rows, word) in whole.iter().zip(&mut *out) {
            *word = below_8(rows, 500);
        }
        if !last.is_empty() {
            let word = last.iter().rev().fold(0, |word, it| word << 1 | u64::from(*it < 500));
            out[whole.len()] = word;
        }
    }
    Words { words, len: columns.len }
}
