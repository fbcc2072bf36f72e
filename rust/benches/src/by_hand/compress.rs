//! Rows at the true values, several at once: by AVX-512, by tables for AVX2, or one by one.

use crate::by_hand::bits::count;
use std::arch::x86_64::{
    __m256i, _mm256_loadu_si256, _mm256_permutevar8x32_epi32, _mm256_storeu_si256,
    _mm512_loadu_si512, _mm512_maskz_compress_epi32, _mm512_maskz_compress_epi64,
    _mm512_storeu_si512,
};
use std::ptr::copy_nonoverlapping;

// The lanes of four bytes of four rows of eight, at the set bits of a number below 16.
const FOURS: [[u32; 8]; 16] = {
    let (mut table, mut bits) = ([[0; 8]; 16], 0);
    while bits < 16 {
        let (mut at, mut row) = (0, 0);
        while row < 4 {
            if bits >> row & 1 == 1 {
                table[bits][2 * at] = 2 * row;
                table[bits][2 * at + 1] = 2 * row + 1;
                at += 1;
            }
            row += 1;
        }
        bits += 1;
    }
    table
};

// Those of eight rows of four bytes, at the set bits of a byte.
static EIGHTS: [[u32; 8]; 256] = {
    let (mut table, mut bits) = ([[0; 8]; 256], 0);
    while bits < 256 {
        let (mut at, mut row) = (0, 0);
        while row < 8 {
            if bits >> row & 1 == 1 {
                table[bits][at] = row;
                at += 1;
            }
            row += 1;
        }
        bits += 1;
    }
    table
};

/// Rows that are moved several at once.
pub trait Moved: Copy + Default {
    /// Writes the rows at the set bits of a word, of 64 rows, and some behind them.
    ///
    /// # Safety
    /// The processor has AVX2. There are 64 rows, and room for 8 more than are written.
    unsafe fn by_avx2(word: u64, rows: *const Self, out: *mut Self);

    /// # Safety
    /// As above, with AVX-512, and room for 16 more.
    unsafe fn by_avx512(word: u64, rows: *const Self, out: *mut Self);
}

impl Moved for u64 {
    #[target_feature(enable = "avx2,popcnt")]
    unsafe fn by_avx2(word: u64, rows: *const u64, mut out: *mut u64) {
        for k in 0..16 {
            let bits = (word >> (4 * k)) as usize & 0xF;
            // SAFETY: this is what is asked above.
            unsafe {
                let lanes = _mm256_loadu_si256(FOURS[bits].as_ptr().cast());
                let rows = _mm256_loadu_si256(rows.add(4 * k).cast::<__m256i>());
                _mm256_storeu_si256(out.cast(), _mm256_permutevar8x32_epi32(rows, lanes));
                out = out.add(bits.count_ones() as usize);
            }
        }
    }

    #[target_feature(enable = "avx512f,popcnt")]
    unsafe fn by_avx512(word: u64, rows: *const u64, mut out: *mut u64) {
        for (k, bits) in word.to_le_bytes().into_iter().enumerate() {
            // SAFETY: this is what is asked above.
            unsafe {
                let rows = _mm512_loadu_si512(rows.add(8 * k).cast());
                _mm512_storeu_si512(out.cast(), _mm512_maskz_compress_epi64(bits, rows));
                out = out.add(bits.count_ones() as usize);
            }
        }
    }
}

impl Moved for u32 {
    #[target_feature(enable = "avx2,popcnt")]
    unsafe fn by_avx2(word: u64, rows: *const u32, mut out: *mut u32) {
        for (k, bits) in word.to_le_bytes().into_iter().enumerate() {
            // SAFETY: this is what is asked above.
            unsafe {
                let lanes = _mm256_loadu_si256(EIGHTS[usize::from(bits)].as_ptr().cast());
                let rows = _mm256_loadu_si256(rows.add(8 * k).cast::<__m256i>());
                _mm256_storeu_si256(out.cast(), _mm256_permutevar8x32_epi32(rows, lanes));
                out = out.add(bits.count_ones() as usize);
            }
        }
    }

    #[target_feature(enable = "avx512f,popcnt")]
    unsafe fn by_avx512(word: u64, rows: *const u32, mut out: *mut u32) {
        for k in 0..4 {
            let bits = (word >> (16 * k) & 0xFFFF) as u16;
            // SAFETY: this is what is asked above.
            unsafe {
                let rows = _mm512_loadu_si512(rows.add(16 * k).cast());
                _mm512_storeu_si512(out.cast(), _mm512_maskz_compress_epi32(bits, rows));
                out = out.add(bits.count_ones() as usize);
            }
        }
    }
}

/// By tables, where the processor has AVX2.
pub fn choose_by_avx2<T: Moved>(words: &[u64], rows: &[T]) -> Vec<T> {
    #[target_feature(enable = "avx2,bmi1,bmi2,popcnt")]
    unsafe fn chosen<T: Moved>(words: &[u64], rows: &[T]) -> Vec<T> {
        // SAFETY: this is what is asked there.
        unsafe { put_words(words, rows, |word, rows, out| T::by_avx2(word, rows, out)) }
    }
    if !is_x86_feature_detected!("avx2") {
        return choose_one_by_one(words, rows);
    }
    // SAFETY: the processor has it.
    unsafe { chosen(words, rows) }
}

/// By compression, where the processor has AVX-512.
pub fn choose_by_avx512<T: Moved>(words: &[u64], rows: &[T]) -> Vec<T> {
    #[target_feature(enable = "avx512f,avx512vl,avx2,bmi1,bmi2,popcnt")]
    unsafe fn chosen<T: Moved>(words: &[u64], rows: &[T]) -> Vec<T> {
        // SAFETY: this is what is asked there.
        unsafe { put_words(words, rows, |word, rows, out| T::by_avx512(word, rows, out)) }
    }
    if !is_x86_feature_detected!("avx512vl") {
        return choose_one_by_one(words, rows);
    }
    // SAFETY: the processor has it.
    unsafe { chosen(words, rows) }
}

/// One after another, with no branch but that of the loop.
pub fn choose_one_by_one<T: Moved>(words: &[u64], rows: &[T]) -> Vec<T> {
    let mut out = Vec::with_capacity(count(words));
    for (word, rows) in words.iter().zip(rows.chunks(64)) {
        let mut left = *word;
        while left != 0 {
            out.push(rows[left.trailing_zeros() as usize]);
            left &= left - 1;
        }
    }
    out
}

/// Puts the rows of each whole word together, but for those of sparse words and of full ones, and the last ones one by one.
///
/// # Safety
/// `put` writes as many rows as a word has bits, and at most 16 behind them.
#[inline(always)]
unsafe fn put_words<T: Moved>(
    words: &[u64],
    rows: &[T],
    put: impl Fn(u64, *const T, *mut T),
) -> Vec<T> {
    let count = count(words);
    let mut out: Vec<T> = Vec::with_capacity(count + 16);
    let mut filled = 0;
    for (word, rows) in words.iter().zip(rows.chunks(64)) {
        let ones = word.count_ones() as usize;
        // SAFETY: there is room for all that are counted, and for sixteen more.
        unsafe {
            let to = out.as_mut_ptr().add(filled);
            if *word == !0 {
                copy_nonoverlapping(rows.as_ptr(), to, 64);
            } else if rows.len() == 64 && ones > 8 {
                put(*word, rows.as_ptr(), to);
            } else {
                let mut left = *word;
                for at in 0..ones {
                    *to.add(at) = rows[left.trailing_zeros() as usize];
                    left &= left - 1;
                }
            }
        }
        filled += ones;
    }
    // SAFETY: so many are written.
    unsafe { out.set_len(count) };
    out
}
