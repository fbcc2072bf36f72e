//! Whether several small rows are moved at once, and by what. What is `pub` here stands in place of the proved module
//! `mask_bits::processor`.
#![allow(clippy::inline_always, reason = "each is compiled for what the function around it has")]

use super::has_quick_bits;
#[cfg(target_arch = "x86_64")]
use super::{has_v3, has_v4, instructions};
#[cfg(target_arch = "x86_64")]
use crate::proved::mask_bits::byte_places::places_of;
use crate::proved::mask_bits::choose::small_rows::{ByTable, MoveRows};
use crate::proved::mask_bits::output::Room;

/// Whether a program is compiled for an instruction that moves the bytes of a register to places that another one has.
const MOVES_BY_TABLE: bool = cfg!(all(
    any(target_feature = "ssse3", all(target_feature = "neon", target_endian = "little")),
    not(row_mask_arrays)
));

/// Whether several rows of one byte are moved at once: by that instruction, or by PEXT.
#[inline(always)]
pub fn moves_bytes() -> bool {
    MOVES_BY_TABLE || cfg!(target_arch = "x86_64") && has_quick_bits()
}

/// Whether several rows of four bytes are, and of two: by an instruction of x86-64-v3.
#[cfg(target_arch = "x86_64")]
#[inline(always)]
pub(crate) fn moves_fours() -> bool {
    cfg!(target_feature = "avx2") || has_v3()
}

/// Whether several rows of two, four or eight bytes are by an instruction of AVX-512.
#[cfg(target_arch = "x86_64")]
#[inline(always)]
pub(crate) fn compresses() -> bool {
    cfg!(target_feature = "avx512f") || has_v4()
}

/// What moves them, where the answer is yes: rows of one byte, of two, and of four.
pub struct Moved;

/// What moves them by AVX-512.
#[cfg(target_arch = "x86_64")]
pub(crate) struct Compressed;

/// What moves those of one byte and of two by VBMI2.
#[cfg(target_arch = "x86_64")]
pub(crate) struct CompressedNarrow;

impl MoveRows<u8> for Moved {
    #[inline(always)]
    fn push_sixteen<R: Room<u8>>(out: &mut R, rows: &[u8], bits: u16) {
        #[cfg(target_arch = "x86_64")]
        if !MOVES_BY_TABLE {
            return push_halves(out, rows, bits, instructions::bytes_at);
        }
        ByTable::push_sixteen(out, rows, bits);
    }
}

#[cfg(target_arch = "x86_64")]
impl MoveRows<[u8; 4]> for Moved {
    #[inline(always)]
    fn push_sixteen<R: Room<[u8; 4]>>(out: &mut R, rows: &[[u8; 4]], bits: u16) {
        push_halves(out, rows, bits, |rows, byte| {
            instructions::fours_at(rows, places_of(byte).to_array())
        });
    }
}

#[cfg(target_arch = "x86_64")]
impl MoveRows<[u8; 4]> for Compressed {
    #[inline(always)]
    fn push_sixteen<R: Room<[u8; 4]>>(out: &mut R, rows: &[[u8; 4]], bits: u16) {
        push_first(out, instructions::sixteen_fours_at(rows, bits), bits.count_ones());
    }
}

/// As numbers of four bytes.
#[cfg(target_arch = "x86_64")]
impl MoveRows<[u8; 2]> for Moved {
    #[inline(always)]
    fn push_sixteen<R: Room<[u8; 2]>>(out: &mut R, rows: &[[u8; 2]], bits: u16) {
        push_halves(out, rows, bits, |rows, byte| {
            narrow(instructions::fours_at(&widen::<8>(rows), places_of(byte).to_array()))
        });
    }
}

#[cfg(target_arch = "x86_64")]
impl MoveRows<[u8; 2]> for Compressed {
    #[inline(always)]
    fn push_sixteen<R: Room<[u8; 2]>>(out: &mut R, rows: &[[u8; 2]], bits: u16) {
        let moved = narrow(instructions::sixteen_fours_at(&widen::<16>(rows), bits));
        push_first(out, moved, bits.count_ones());
    }
}

#[cfg(target_arch = "x86_64")]
impl MoveRows<[u8; 8]> for Compressed {
    #[inline(always)]
    fn push_sixteen<R: Room<[u8; 8]>>(out: &mut R, rows: &[[u8; 8]], bits: u16) {
        push_halves(out, rows, bits, instructions::eights_at);
    }
}

#[cfg(target_arch = "x86_64")]
impl MoveRows<u8> for CompressedNarrow {
    #[inline(always)]
    fn push_sixteen<R: Room<u8>>(out: &mut R, rows: &[u8], bits: u16) {
        push_first(out, instructions::sixteen_bytes_at(rows, bits), bits.count_ones());
    }
}

#[cfg(target_arch = "x86_64")]
impl MoveRows<[u8; 2]> for CompressedNarrow {
    #[inline(always)]
    fn push_sixteen<R: Room<[u8; 2]>>(out: &mut R, rows: &[[u8; 2]], bits: u16) {
        push_first(out, instructions::sixteen_twos_at(rows, bits), bits.count_ones());
    }
}

/// The first rows of two bytes as numbers of four.
#[cfg(target_arch = "x86_64")]
#[inline(always)]
fn widen<const N: usize>(rows: &[[u8; 2]]) -> [u32; N] {
    let rows: &[[u8; 2]; N] = rows.first_chunk().expect("so many rows");
    rows.map(|row| u16::from_ne_bytes(row).into())
}

/// The numbers as rows of two bytes, of which they were made.
#[cfg(target_arch = "x86_64")]
#[inline(always)]
fn narrow<const N: usize>(numbers: [u32; N]) -> [[u8; 2]; N] {
    #[allow(clippy::cast_possible_truncation, reason = "no other byte is set")]
    numbers.map(|number| (number as u16).to_ne_bytes())
}

/// Puts the rows of sixteen bits, of which `moved` gives those of a byte, and others behind them.
#[cfg(target_arch = "x86_64")]
#[inline(always)]
fn push_halves<T: Copy, R: Room<T>>(
    out: &mut R,
    rows: &[T],
    bits: u16,
    moved: impl Fn(&[T], u8) -> [T; 8],
) {
    let [low, high] = bits.to_le_bytes();
    push_first(out, moved(&rows[..8], low), low.count_ones());
    push_first(out, moved(&rows[8..], high), high.count_ones());
}

/// Puts the first ones of some rows, so many as are counted.
#[cfg(target_arch = "x86_64")]
#[inline(always)]
fn push_first<T: Copy, R: Room<T>, const N: usize>(out: &mut R, rows: [T; N], count: u32) {
    let end = out.count() + count as usize;
    for row in rows {
        out.put(row);
    }
    out.truncate(end);
}
