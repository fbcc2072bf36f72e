//! Sums over a column with nulls and over the rows chosen, and `AND` of two predicates with nulls.

use super::Words;
use crate::columns::Columns;
use std::arch::x86_64::{
    __m256i, _mm256_add_epi64, _mm256_and_si256, _mm256_cmpeq_epi64, _mm256_loadu_si256,
    _mm256_set_epi64x, _mm256_set1_epi64x, _mm256_setzero_si256, _mm256_storeu_si256,
};

/// The sum of the prices that are valid.
#[target_feature(enable = "avx2,bmi1,bmi2,popcnt")]
pub fn sum(columns: &Columns) -> u64 {
    let (whole, last) = columns.prices.as_chunks::<64>();
    let mut sums = [_mm256_setzero_si256(); 2];
    for (rows, word) in whole.iter().zip(&columns.chosen) {
        for part in 0..16 {
            let bit = 1_i64 << (4 * (part % 8));
            let bits = _mm256_set_epi64x(bit << 3, bit << 2, bit << 1, bit);
            let half = (*word >> (32 * (part / 8)) & 0xFFFF_FFFF).cast_signed();
            let is_set = _mm256_cmpeq_epi64(_mm256_and_si256(_mm256_set1_epi64x(half), bits), bits);
            // SAFETY: four rows are read.
            let four = unsafe { _mm256_loadu_si256(rows.as_ptr().add(4 * part).cast::<__m256i>()) };
            sums[part % 2] = _mm256_add_epi64(sums[part % 2], _mm256_and_si256(four, is_set));
        }
    }
    let mut four = [0_i64; 4];
    // SAFETY: four numbers are written.
    unsafe {
        _mm256_storeu_si256(four.as_mut_ptr().cast(), _mm256_add_epi64(sums[0], sums[1]));
    }
    let word = columns.chosen[whole.len()];
    let chosen = last.iter().enumerate().filter(|(i, _)| word >> i & 1 == 1);
    (four.iter().sum::<i64>() + chosen.map(|(_, it)| it).sum::<i64>()).cast_unsigned()
}

/// The sum where few rows are chosen.
#[target_feature(enable = "avx2,bmi1,bmi2,popcnt")]
pub fn sum_of_few(columns: &Columns) -> u64 {
    let mut sum = 0;
    for (rows, word) in columns.prices.chunks(64).zip(&columns.chosen) {
        let mut word = *word;
        while word != 0 {
            sum += rows[word.trailing_zeros() as usize];
            word &= word - 1;
        }
    }
    sum.cast_unsigned()
}

/// `AND` of two predicates with nulls: values, and validity.
#[target_feature(enable = "avx2,bmi1,bmi2,popcnt")]
pub fn and_kleene(columns: &Columns) -> (Words, Words) {
    let len = columns.len;
    let mut made = (vec![0; len.div_ceil(64)], vec![0; len.div_ceil(64)]);
    and_into(columns, &mut made.0, &mut made.1);
    (Words { words: made.0, len }, Words { words: made.1, len })
}

/// The same into room that is there.
#[target_feature(enable = "avx2,bmi1,bmi2,popcnt")]
pub fn and_into(columns: &Columns, values: &mut [u64], validity: &mut [u64]) {
    let Columns { chosen: a, valid: (a_valid, b_valid), other: b, .. } = columns;
    let words = a.iter().zip(a_valid).zip(b.iter().zip(b_valid));
    let out = values.iter_mut().zip(validity);
    for (((a, a_valid), (b, b_valid)), (value, valid)) in words.zip(out) {
        let (a_false, b_false) = (a_valid & !a, b_valid & !b);
        *value = a & a_valid & b & b_valid;
        *valid = *value | a_false | b_false;
    }
}
