//! Rows moved to the front by tables: four of 8 bytes, or eight of 4 bytes, at once.

use std::arch::x86_64::{
    __m256i, _mm256_loadu_si256, _mm256_permutevar8x32_epi32, _mm256_storeu_si256,
};

/// For each byte, the places of its set bits.
pub static EIGHT: [[u32; 8]; 256] = places::<256>();

/// For each four bits, the halves of the numbers at its set bits.
static FOUR: [[u32; 8]; 16] = halves();

const fn places<const N: usize>() -> [[u32; 8]; N] {
    let mut all = [[0; 8]; N];
    let mut bits = 0;
    while bits < N {
        let (mut bit, mut at) = (0, 0);
        while bit < 8 {
            if bits >> bit & 1 == 1 {
                all[bits][at] = bit;
                at += 1;
            }
            bit += 1;
        }
        bits += 1;
    }
    all
}

const fn halves() -> [[u32; 8]; 16] {
    let (places, mut all) = (places::<16>(), [[0; 8]; 16]);
    let mut bits = 0;
    while bits < 16 {
        let mut at = 0;
        while at < 4 {
            all[bits][2 * at] = 2 * places[bits][at];
            all[bits][2 * at + 1] = 2 * places[bits][at] + 1;
            at += 1;
        }
        bits += 1;
    }
    all
}

/// Writes the rows at the set bits of `word` behind the first `at` of `out`, and answers how many are there then.
///
/// # Safety
/// There are 64 rows, and room for 8 more than there are in the end.
#[target_feature(enable = "avx2,bmi1,bmi2,popcnt")]
#[inline]
pub unsafe fn put_of_4(word: u64, rows: *const u32, out: *mut u32, mut at: usize) -> usize {
    for part in 0..8 {
        let bits = word >> (8 * part) & 0xFF;
        // SAFETY: eight rows are read, and eight are written, for which there is room.
        unsafe {
            let eight = _mm256_loadu_si256(rows.add(8 * part).cast::<__m256i>());
            let order = _mm256_loadu_si256(EIGHT[bits as usize].as_ptr().cast());
            _mm256_storeu_si256(out.add(at).cast(), _mm256_permutevar8x32_epi32(eight, order));
        }
        at += bits.count_ones() as usize;
    }
    at
}

/// The same of rows of 8 bytes.
///
/// # Safety
/// There are 64 rows, and room for 4 more than there are in the end.
#[target_feature(enable = "avx2,bmi1,bmi2,popcnt")]
#[inline]
pub unsafe fn put_of_8(word: u64, rows: *const i64, out: *mut i64, mut at: usize) -> usize {
    for part in 0..16 {
        let bits = word >> (4 * part) & 0xF;
        // SAFETY: four rows are read, and four are written, for which there is room.
        unsafe {
            let four = _mm256_loadu_si256(rows.add(4 * part).cast::<__m256i>());
            let order = _mm256_loadu_si256(FOUR[bits as usize].as_ptr().cast());
            _mm256_storeu_si256(out.add(at).cast(), _mm256_permutevar8x32_epi32(four, order));
        }
        at += bits.count_ones() as usize;
    }
    at
}

/// The same of few bits, and of the last rows: one after another.
///
/// # Safety
/// There is a row for each set bit, and room for it.
#[inline]
pub unsafe fn put_each<T: Copy>(
    mut word: u64,
    rows: *const T,
    out: *mut T,
    mut at: usize,
) -> usize {
    while word != 0 {
        // SAFETY: there is such a row, and room for it.
        unsafe { *out.add(at) = *rows.add(word.trailing_zeros() as usize) };
        at += 1;
        word &= word - 1;
    }
    at
}
