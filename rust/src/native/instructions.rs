//! What the instructions give, by the manual of the processor. Nothing here runs unless `has_quick_bits` returns true; for
//! `fours_at`, `moves_fours`, for `sixteen_fours_at` and `eights_at`, `compresses`, and for `sixteen_bytes_at` and
//! `sixteen_twos_at`, `has_vbmi2`.
#![allow(clippy::inline_always, reason = "each is a few instructions of its caller")]

use core::arch::x86_64::{
    _mm_cvtsi64_si128, _mm_loadu_si128, _mm_maskz_compress_epi8, _mm_storeu_si128,
    _mm256_cvtepu8_epi32, _mm256_loadu_si256, _mm256_maskz_compress_epi16,
    _mm256_permutevar8x32_epi32, _mm256_storeu_si256, _mm512_loadu_si512,
    _mm512_maskz_compress_epi32, _mm512_maskz_compress_epi64, _mm512_storeu_si512, _pdep_u64,
    _pext_u64,
};
use core::mem::MaybeUninit;

/// The bits of a source at the set places of a mask, the lowest first, by PDEP.
#[inline(always)]
pub(super) fn deposit(source: u64, mask: u64) -> u64 {
    // SAFETY: the processor has it, as is asked before a function that calls this.
    unsafe { _pdep_u64(source, mask) }
}

/// The bits at set places, put behind one another, by PEXT.
#[inline(always)]
pub(super) fn extract(source: u64, mask: u64) -> u64 {
    // SAFETY: as above.
    unsafe { _pext_u64(source, mask) }
}

/// The rows of one byte at the set bits of a byte, and zeros behind them: PEXT takes the bytes of one number at the
/// bytes that are set in another, which PDEP and a product make of the bits.
#[inline(always)]
pub(super) fn bytes_at(rows: &[u8], byte: u8) -> [u8; 8] {
    const LOWEST: u64 = u64::from_le_bytes([1; 8]);
    let rows = u64::from_le_bytes(*rows.first_chunk().expect("eight rows"));
    let places = 0xFF * deposit(byte.into(), LOWEST);
    extract(rows, places).to_le_bytes()
}

/// The rows of four bytes at eight places, each of which is below eight, by VPERMD.
#[inline(always)]
pub(super) fn fours_at<T: Copy>(rows: &[T], places: [u8; 8]) -> [T; 8] {
    const { assert!(size_of::<T>() == 4) };
    let rows: &[T; 8] = rows.first_chunk().expect("eight rows");
    let places = u64::from_le_bytes(places);
    let mut moved = MaybeUninit::<[T; 8]>::uninit();
    // SAFETY: the processor has the instructions, as `moves_fours` found, and eight rows are as many bytes as a
    // register has. Each of those moved is one of them.
    unsafe {
        let rows = _mm256_loadu_si256(rows.as_ptr().cast());
        let places = _mm256_cvtepu8_epi32(_mm_cvtsi64_si128(places.cast_signed()));
        let rows = _mm256_permutevar8x32_epi32(rows, places);
        _mm256_storeu_si256(moved.as_mut_ptr().cast(), rows);
        moved.assume_init()
    }
}

/// The rows of four bytes at the set ones of sixteen bits, and zeros behind them, by VPCOMPRESSD.
#[inline(always)]
pub(super) fn sixteen_fours_at<T: Copy>(rows: &[T], bits: u16) -> [T; 16] {
    const { assert!(size_of::<T>() == 4) };
    let rows: &[T; 16] = rows.first_chunk().expect("sixteen rows");
    let mut moved = MaybeUninit::<[T; 16]>::uninit();
    // SAFETY: the processor has the instructions, as `compresses` found, and sixteen rows are as many bytes as a
    // register has. Each of those moved is one of them, or of zeros.
    unsafe {
        let rows = _mm512_maskz_compress_epi32(bits, _mm512_loadu_si512(rows.as_ptr().cast()));
        _mm512_storeu_si512(moved.as_mut_ptr().cast(), rows);
        moved.assume_init()
    }
}

/// The rows of eight bytes at the set bits of a byte, and zeros behind them, by VPCOMPRESSQ.
#[inline(always)]
pub(super) fn eights_at<T: Copy>(rows: &[T], byte: u8) -> [T; 8] {
    const { assert!(size_of::<T>() == 8) };
    let rows: &[T; 8] = rows.first_chunk().expect("eight rows");
    let mut moved = MaybeUninit::<[T; 8]>::uninit();
    // SAFETY: the processor has the instructions, as `compresses` found, and eight rows are as many bytes as a
    // register has. Each of those moved is one of them, or of zeros.
    unsafe {
        let rows = _mm512_maskz_compress_epi64(byte, _mm512_loadu_si512(rows.as_ptr().cast()));
        _mm512_storeu_si512(moved.as_mut_ptr().cast(), rows);
        moved.assume_init()
    }
}

/// The rows of one byte at the set ones of sixteen bits, and zeros behind them, by VPCOMPRESSB.
#[inline(always)]
pub(super) fn sixteen_bytes_at(rows: &[u8], bits: u16) -> [u8; 16] {
    let rows: &[u8; 16] = rows.first_chunk().expect("sixteen rows");
    let mut moved = [0; 16];
    // SAFETY: the processor has the instructions, as `has_vbmi2` found, and sixteen rows are as many bytes as a
    // register has.
    unsafe {
        let rows = _mm_maskz_compress_epi8(bits, _mm_loadu_si128(rows.as_ptr().cast()));
        _mm_storeu_si128(moved.as_mut_ptr().cast(), rows);
    }
    moved
}

/// The same of rows of two bytes, by VPCOMPRESSW.
#[inline(always)]
pub(super) fn sixteen_twos_at(rows: &[[u8; 2]], bits: u16) -> [[u8; 2]; 16] {
    let rows: &[[u8; 2]; 16] = rows.first_chunk().expect("sixteen rows");
    let mut moved = [[0; 2]; 16];
    // SAFETY: as above.
    unsafe {
        let rows = _mm256_maskz_compress_epi16(bits, _mm256_loadu_si256(rows.as_ptr().cast()));
        _mm256_storeu_si256(moved.as_mut_ptr().cast(), rows);
    }
    moved
}
