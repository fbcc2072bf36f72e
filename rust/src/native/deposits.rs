//! Deposits and selections by an instruction, PDEP or BDEP, in place of the sources' own where it is quick.

#[cfg(any(target_arch = "x86_64", target_arch = "aarch64"))]
use super::instructions::deposit;
use crate::proved::vortex_mask::MaskValues;
#[cfg(any(target_arch = "x86_64", target_arch = "aarch64"))]
use crate::proved::vortex_mask::intersect_by_rank::{DepositBits, SelectBit};
use crate::proved::vortex_mask::intersect_by_rank::{RankPath, deposits_by_loop, rank_path};

/// The first of two calls where the processor is quick at deposits by an instruction, which it takes, and else the second.
macro_rules! quickest {
    ($by_instruction:expr, $as_it_is:expr) => {{
        #[cfg(any(target_arch = "x86_64", target_arch = "aarch64"))]
        let result = if crate::native::has_quick_bits() { $by_instruction } else { $as_it_is };
        #[cfg(not(any(target_arch = "x86_64", target_arch = "aarch64")))]
        let result = $as_it_is;
        result
    }};
}
pub(crate) use quickest;

/// Whether deposits go by a loop over set places: only where no instruction is quick at them.
#[inline]
pub(crate) fn by_loop(len: usize, true_count: usize) -> bool {
    !super::has_quick_bits() && deposits_by_loop(len, true_count)
}

/// The path of two mixed masks: that of `rank_path`, but by the bits instead of a list of ranks where an instruction is quick
/// at deposits. Then to make bits of ranks takes longer than all else. Both paths take the same steps, and cache nothing.
#[inline]
pub(crate) fn quickest_path(values: &MaskValues, ranks: &MaskValues) -> RankPath {
    match rank_path(values, ranks) {
        RankPath::RankIndices if super::has_quick_bits() => RankPath::BitBuffers,
        path => path,
    }
}

/// Deposits and selections by an instruction.
#[cfg(any(target_arch = "x86_64", target_arch = "aarch64"))]
pub(crate) struct ByInstruction;

// SAFETY: the instruction puts bit number k of the source at set place number k of the mask, and zeros elsewhere.
#[cfg(any(target_arch = "x86_64", target_arch = "aarch64"))]
unsafe impl DepositBits for ByInstruction {
    #[allow(clippy::inline_always, reason = "it is one instruction")]
    #[inline(always)]
    fn deposit_bits_proved(source: u64, mask: u64, _mask_count: usize) -> u64 {
        deposit(source, mask)
    }
}

// SAFETY: of a word with bit number `rank` alone, the instruction makes one with the place of that set bit alone.
#[cfg(any(target_arch = "x86_64", target_arch = "aarch64"))]
unsafe impl SelectBit for ByInstruction {
    #[allow(clippy::inline_always, reason = "it is two instructions")]
    #[inline(always)]
    fn select_bit_position_proved(word: u64, rank: usize) -> usize {
        deposit(1 << rank, word).trailing_zeros() as usize
    }
}
