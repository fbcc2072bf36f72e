//! Extractions by an instruction, PEXT or BEXT: what a copy of `put_chosen` has in place of the proved functions of these
//! names.
#![allow(clippy::inline_always, reason = "each is compiled for what the function around it has")]

use super::instructions;
use crate::proved::mask_bits::BitChunks;
use crate::proved::mask_bits::choose::bits::LastChosen;
use core::hint::{black_box, select_unpredictable};

/// The bits at set places, by the instruction.
#[inline(always)]
pub(crate) fn extract(source: u64, mask: u64) -> u64 {
    instructions::extract(source, mask)
}

/// The bits of all pairs of whole words, put one after another: as the proved loop of this name, but with no branch
/// that would be guessed wrong.
#[inline(always)]
pub(crate) fn put_pairs(
    masks: &BitChunks<'_>,
    values: &BitChunks<'_>,
    out: &mut [u8],
) -> LastChosen {
    // (where the compiler sees that nobody reads a write, it has a branch around it)
    let mut nowhere = [0; 8];
    let nowhere = black_box(&raw mut nowhere);
    let out = out.as_mut_ptr().cast::<[u8; 8]>();
    let (mut words, mut low, mut begun) = (0, 0, 0);
    for i in 0..masks.len() / 2 * 2 {
        let mask = masks.word_proved(i);
        let word = extract(values.word_proved(i), mask);
        let (end, joined) = (low + mask.count_ones(), begun | word << low);
        let is_whole = end >= 64;
        // SAFETY: the contract of the proved loop: there is room for all bits, so `words` is at most its end.
        unsafe {
            let place = select_unpredictable(is_whole, out.add(words), nowhere);
            place.write(joined.to_le_bytes());
        }
        // (two shifts, since one by 64 would be none)
        begun = select_unpredictable(is_whole, word >> 1 >> (63 - low), joined);
        words += usize::from(is_whole);
        low = end % 64;
    }
    LastChosen { count: 64 * words + low as usize, word: begun }
}
