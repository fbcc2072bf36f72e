//! Bits of what a predicate answers.

use std::arch::x86_64::{
    __m128i, __m256i, _mm_cmpgt_epi32, _mm_loadu_si128, _mm_movemask_epi8, _mm_packs_epi16,
    _mm_packs_epi32, _mm_set1_epi32, _mm256_castsi256_ps, _mm256_cmpgt_epi32, _mm256_loadu_si256,
    _mm256_movemask_ps, _mm256_set1_epi32, _mm512_cmplt_epu32_mask, _mm512_loadu_si512,
    _mm512_set1_epi32,
};

/// Eight rows in a comparison, and its bits, where the processor has AVX2. Rows are below 2^31.
pub fn packed_by_avx2(column: &[u32], share: u32) -> Vec<u64> {
    if !is_x86_feature_detected!("avx2") {
        return packed_by_lanes(column, share);
    }
    #[target_feature(enable = "avx2")]
    fn compared(column: &[u32], share: u32) -> Vec<u64> {
        let shares = _mm256_set1_epi32(share.cast_signed());
        let bits = |part: &[u32; 8]| {
            // SAFETY: eight rows are read.
            let rows = unsafe { _mm256_loadu_si256(part.as_ptr().cast::<__m256i>()) };
            let below = _mm256_castsi256_ps(_mm256_cmpgt_epi32(shares, rows));
            u64::from(_mm256_movemask_ps(below).cast_unsigned())
        };
        let (whole, last) = column.as_chunks::<64>();
        let mut out = Vec::with_capacity(column.len().div_ceil(64));
        for part in whole {
            let (parts, _) = part.as_chunks::<8>();
            out.push(parts.iter().rev().fold(0, |word, part| word << 8 | bits(part)));
        }
        if !last.is_empty() {
            out.push(last.iter().rev().fold(0, |word, it| word << 1 | u64::from(*it < share)));
        }
        out
    }
    // SAFETY: the processor has it.
    unsafe { compared(column, share) }
}

/// Sixteen rows in a comparison that gives their bits, where the processor has AVX-512.
pub fn packed_by_avx512(column: &[u32], share: u32) -> Vec<u64> {
    if !is_x86_feature_detected!("avx512f") {
        return packed_by_avx2(column, share);
    }
    #[target_feature(enable = "avx512f")]
    fn compared(column: &[u32], share: u32) -> Vec<u64> {
        let shares = _mm512_set1_epi32(share.cast_signed());
        let bits = |part: &[u32; 16]| {
            // SAFETY: sixteen rows are read.
            let rows = unsafe { _mm512_loadu_si512(part.as_ptr().cast()) };
            u64::from(_mm512_cmplt_epu32_mask(rows, shares))
        };
        let (whole, last) = column.as_chunks::<64>();
        let mut out = Vec::with_capacity(column.len().div_ceil(64));
        for part in whole {
            let (parts, _) = part.as_chunks::<16>();
            out.push(parts.iter().rev().fold(0, |word, part| word << 16 | bits(part)));
        }
        if !last.is_empty() {
            out.push(last.iter().rev().fold(0, |word, it| word << 1 | u64::from(*it < share)));
        }
        out
    }
    // SAFETY: the processor has it.
    unsafe { compared(column, share) }
}

/// Four rows in a comparison, and sixteen in a mask of bits. Rows are below 2^31.
pub fn packed_by_lanes(column: &[u32], share: u32) -> Vec<u64> {
    let bits = |part: &[u32; 16]| {
        // SAFETY: each processor of x86-64 has SSE2, and four times four rows are read.
        unsafe {
            let shares = _mm_set1_epi32(share.cast_signed());
            let below = |k: usize| {
                let rows = _mm_loadu_si128(part.as_ptr().add(4 * k).cast::<__m128i>());
                _mm_cmpgt_epi32(shares, rows)
            };
            let (low, high) =
                (_mm_packs_epi32(below(0), below(1)), _mm_packs_epi32(below(2), below(3)));
            u64::from(_mm_movemask_epi8(_mm_packs_epi16(low, high)).cast_unsigned())
        }
    };
    let (whole, last) = column.as_chunks::<64>();
    let mut out = Vec::with_capacity(column.len().div_ceil(64));
    for part in whole {
        let (parts, _) = part.as_chunks::<16>();
        out.push(parts.iter().rev().fold(0, |word, part| word << 16 | bits(part)));
    }
    if !last.is_empty() {
        out.push(last.iter().rev().fold(0, |word, it| word << 1 | u64::from(*it < share)));
    }
    out
}

#[inline]
pub fn packed(column: &[u32], is_true: impl Fn(u32) -> bool) -> Vec<u64> {
    let word = |part: &[u32]| {
        part.iter().enumerate().fold(0, |word, (bit, it)| word | u64::from(is_true(*it)) << bit)
    };
    let (whole, last) = column.as_chunks::<64>();
    let mut out = Vec::with_capacity(column.len().div_ceil(64));
    out.extend(whole.iter().map(|part| word(part)));
    if !last.is_empty() {
        out.push(word(last));
    }
    out
}

#[inline]
pub fn packed_by_shifts(column: &[u32], is_true: impl Fn(u32) -> bool) -> Vec<u64> {
    let word =
        |part: &[u32]| part.iter().rev().fold(0, |word, it| word << 1 | u64::from(is_true(*it)));
    column.chunks(64).map(word).collect()
}

/// Eight values at a time, which one product brings together in a byte.
#[inline]
pub fn packed_by_eights(column: &[u32], is_true: impl Fn(u32) -> bool) -> Vec<u64> {
    let byte = |part: &[u32; 8]| {
        let spread = u64::from_le_bytes(part.map(|it| u8::from(is_true(it))));
        spread.wrapping_mul(0x0102_0408_1020_4080) >> 56
    };
    let (whole, last) = column.as_chunks::<64>();
    let mut out = Vec::with_capacity(column.len().div_ceil(64));
    for part in whole {
        let (eights, _) = part.as_chunks::<8>();
        out.push(eights.iter().rev().fold(0, |word, part| word << 8 | byte(part)));
    }
    if !last.is_empty() {
        out.push(last.iter().rev().fold(0, |word, it| word << 1 | u64::from(is_true(*it))));
    }
    out
}
