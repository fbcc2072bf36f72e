//! A bitmap as a list of row numbers, and back.

use super::Words;
use super::compress::EIGHT;
use crate::columns::Columns;
use std::arch::x86_64::{
    __m256i, _mm256_add_epi32, _mm256_loadu_si256, _mm256_set1_epi32, _mm256_storeu_si256,
};

/// Where few bits of a word are set, one after another.
#[target_feature(enable = "avx2,bmi1,bmi2,popcnt")]
pub fn indices(columns: &Columns) -> Vec<u32> {
    let count: usize = columns.chosen.iter().map(|it| it.count_ones() as usize).sum();
    let mut out: Vec<u32> = Vec::with_capacity(count + 8);
    let mut at = 0;
    for (first, word) in (0..).step_by(64).zip(&columns.chosen) {
        let mut word = *word;
        if word.count_ones() < 12 {
            while word != 0 {
                // SAFETY: there is room for each set bit.
                unsafe { *out.as_mut_ptr().add(at) = first + word.trailing_zeros() };
                at += 1;
                word &= word - 1;
            }
            continue;
        }
        for part in 0..8_u32 {
            let bits = word >> (8 * part) & 0xFF;
            let from = _mm256_set1_epi32((first + 8 * part).cast_signed());
            // SAFETY: there is room for each set bit, and 8 more.
            unsafe {
                let places = _mm256_loadu_si256(EIGHT[bits as usize].as_ptr().cast::<__m256i>());
                let rows = _mm256_add_epi32(from, places);
                _mm256_storeu_si256(out.as_mut_ptr().add(at).cast(), rows);
            }
            at += bits.count_ones() as usize;
        }
    }
    // SAFETY: so many are written.
    unsafe { out.set_len(at) };
    out
}

pub fn from_indices(columns: &Columns) -> Words {
    let mut words = vec![0; columns.len.div_ceil(64)];
    for i in &columns.indices {
        words[*i as usize / 64] |= 1 << (i % 64);
    }
    Words { words, len: columns.len }
}

/// Rows of 8 bytes at a list of row numbers.
pub fn take(columns: &Columns) -> Vec<i64> {
    columns.indices.iter().map(|i| columns.prices[*i as usize]).collect()
}
