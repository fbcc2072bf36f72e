//! Three predicates over a table, and two columns of the rows that are left.

use super::compress::{put_each, put_of_4, put_of_8};
use crate::columns::Columns;
use std::arch::x86_64::{
    __m256i, _mm256_castsi256_pd, _mm256_castsi256_ps, _mm256_cmpgt_epi32, _mm256_cmpgt_epi64,
    _mm256_loadu_si256, _mm256_movemask_pd, _mm256_movemask_ps, _mm256_set1_epi32,
    _mm256_set1_epi64x,
};

// Below so many rows of a word, they are tested and moved one after another.
const FEW: u32 = 6;

/// 64 rows of 4 bytes below a limit. Rows are below 2^31.
#[target_feature(enable = "avx2")]
#[inline]
pub fn below_4(rows: &[i32; 64], limit: i32) -> u64 {
    let (limits, mut word) = (_mm256_set1_epi32(limit), 0);
    for part in (0..8).rev() {
        // SAFETY: eight rows are read.
        let eight = unsafe { _mm256_loadu_si256(rows.as_ptr().add(8 * part).cast::<__m256i>()) };
        let below = _mm256_castsi256_ps(_mm256_cmpgt_epi32(limits, eight));
        word = word << 8 | u64::from(_mm256_movemask_ps(below).cast_unsigned());
    }
    word
}

/// 64 rows of 8 bytes below a limit.
#[target_feature(enable = "avx2")]
#[inline]
pub fn below_8(rows: &[i64; 64], limit: i64) -> u64 {
    let (limits, mut word) = (_mm256_set1_epi64x(limit), 0);
    for part in (0..16).rev() {
        // SAFETY: four rows are read.
        let four = unsafe { _mm256_loadu_si256(rows.as_ptr().add(4 * part).cast::<__m256i>()) };
        let below = _mm256_castsi256_pd(_mm256_cmpgt_epi64(limits, four));
        word = word << 4 | u64::from(_mm256_movemask_pd(below).cast_unsigned());
    }
    word
}

/// What is left of a word.
#[inline]
fn left_of<T: Copy>(mut word: u64, rows: &[T], is_left: impl Fn(T) -> bool) -> u64 {
    let mut left = 0;
    while word != 0 {
        let bit = word.trailing_zeros();
        left |= u64::from(is_left(rows[bit as usize])) << bit;
        word &= word - 1;
    }
    left
}

#[target_feature(enable = "avx2,bmi1,bmi2,popcnt")]
pub fn scan(columns: &Columns) -> (Vec<i64>, Vec<u32>) {
    let (len, limit) = (columns.len, columns.limit.cast_signed());
    // SAFETY: numbers of 4 bytes are such.
    let amounts =
        unsafe { std::slice::from_raw_parts(columns.amounts.as_ptr().cast::<i32>(), len) };
    let (mut prices, mut out) = (Vec::with_capacity(len + 8), Vec::with_capacity(len + 8));
    let (mut at, mut at_out) = (0, 0);
    let (whole, last) = amounts.as_chunks::<64>();
    let (whole_prices, last_prices) = columns.prices.as_chunks::<64>();
    let (whole_days, last_days) = columns.days.as_chunks::<64>();
    for ((amounts, eight), days) in whole.iter().zip(whole_prices).zip(whole_days) {
        let mut word = below_4(amounts, limit);
        if word.count_ones() < FEW {
            word = left_of(left_of(word, eight, |it| it < 500), days, |it| it < 900);
            // SAFETY: there is room for all rows.
            unsafe {
                at = put_each(word, eight.as_ptr(), prices.as_mut_ptr(), at);
                at_out = put_each(word, amounts.as_ptr().cast(), out.as_mut_ptr(), at_out);
            }
        } else {
            word &= below_8(eight, 500) & below_4(days, 900);
            // SAFETY: there is room for all rows and 8 more.
            unsafe {
                at = put_of_8(word, eight.as_ptr(), prices.as_mut_ptr(), at);
                at_out = put_of_4(word, amounts.as_ptr().cast(), out.as_mut_ptr(), at_out);
            }
        }
    }
    let rows = last.iter().zip(last_prices).zip(last_days);
    for ((amount, price), day) in rows {
        // SAFETY: there is room for all rows.
        unsafe {
            *prices.as_mut_ptr().add(at) = *price;
            *out.as_mut_ptr().add(at_out) = amount.cast_unsigned();
        }
        let is_left = *amount < limit && *price < 500 && *day < 900;
        at += usize::from(is_left);
        at_out += usize::from(is_left);
    }
    // SAFETY: so many are written.
    unsafe {
        prices.set_len(at);
        out.set_len(at_out);
    }
    (prices, out)
}
