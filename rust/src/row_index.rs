//! Row numbers, as lists of indices have them.

use crate::Error;
use crate::bitmap::read::INDICES_OF_A_BLOCK;
use crate::bitmap::room::as_items;
use crate::proved::mask_bits::row_index;
use core::mem::MaybeUninit;

/// A row number: a `usize`, or a `u32`, as engines keep them in half the memory.
#[expect(private_bounds, reason = "no other type is one")]
pub trait RowIndex: Copy + PartialOrd + TryFrom<usize> + row_index::RowIndex + InBlocks {}

impl RowIndex for usize {}
impl RowIndex for u32 {}

/// How the loops that take `usize` alone get a list of indices.
pub(crate) trait InBlocks: Sized {
    /// Calls a function with the indices, part after part of the list.
    fn in_blocks(indices: &[Self], of: impl FnMut(&[usize]));
}

impl InBlocks for usize {
    #[inline]
    fn in_blocks(indices: &[usize], mut of: impl FnMut(&[usize])) {
        of(indices);
    }
}

impl InBlocks for u32 {
    #[inline]
    fn in_blocks(indices: &[u32], mut of: impl FnMut(&[usize])) {
        let mut block = [MaybeUninit::uninit(); INDICES_OF_A_BLOCK];
        // SAFETY: none is read that wasn't written.
        let block = unsafe { as_items(&mut block) };
        for short in indices.chunks(block.len()) {
            block.iter_mut().zip(short).for_each(|(long, short)| *long = *short as usize);
            of(&block[..short.len()]);
        }
    }
}

/// Tests that each index is below a length. It refuses the first that isn't.
pub(crate) fn are_within<I: RowIndex>(indices: &[I], len: usize) -> Result<(), Error> {
    let Ok(end) = I::try_from(len) else {
        // (no index is so great)
        return Ok(());
    };
    // (a way out of the loop would stop each step)
    if indices.iter().map(|index| *index < end).fold(true, |all, inside| all & inside) {
        return Ok(());
    }
    let index = indices.iter().map(|index| index.get()).find(|index| *index >= len);
    index.map_or(Ok(()), |index| Err(Error::IndexOutOfBounds { index, len }))
}
