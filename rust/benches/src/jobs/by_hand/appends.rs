//! A bitmap made of parts, each behind the last.

use super::Words;
use crate::columns::{Columns, MOVED};

/// Parts of so many values, each from `MOVED` bits behind its place on.
#[target_feature(enable = "avx2,bmi1,bmi2,popcnt")]
fn appended(columns: &Columns, part: usize) -> Words {
    let mut words = vec![0; columns.len.div_ceil(64) + 1];
    let mut at = 0;
    while at < columns.len {
        let end = (at + part).min(columns.len);
        let mut from = at;
        while from < end {
            let count = (end - from).min(64);
            let bits = word_at(&columns.chosen, from + MOVED) & (!0 >> (64 - count));
            words[from / 64] |= bits << (from % 64);
            if from % 64 + count > 64 {
                words[from / 64 + 1] |= bits >> (64 - from % 64);
            }
            from += count;
        }
        at = end;
    }
    words.truncate(columns.len.div_ceil(64));
    Words { words, len: columns.len }
}

fn word_at(words: &[u64], at: usize) -> u64 {
    let (low, i) = (at % 64, at / 64);
    let next = words.get(i + 1).copied().unwrap_or(0);
    words[i] >> low | if low == 0 { 0 } else { next << (64 - low) }
}

/// Parts of ten values.
#[target_feature(enable = "avx2,bmi1,bmi2,popcnt")]
pub fn tens(columns: &Columns) -> Words {
    appended(columns, 10)
}

/// Parts of 1,000 values.
#[target_feature(enable = "avx2,bmi1,bmi2,popcnt")]
pub fn thousands(columns: &Columns) -> Words {
    appended(columns, 1000)
}
