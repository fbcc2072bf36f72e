//! Counts, indices and runs of a bitmap, and its words.

use super::range_within;
use super::room::{are_fit, as_items, first_of, list_of};
use crate::memory::granted;
use crate::proved::mask_c;
use crate::{Bitmap, Error, Indices, PaddedWords, Runs, Values};
use alloc::vec::Vec;
use core::mem::MaybeUninit;
use core::ops::{Range, RangeBounds};

pub(crate) const INDICES_OF_A_BLOCK: usize = 256;

// So few values are counted in less time word by word than several words at once, where they begin at a whole byte and a
// program is compiled for POPCNT.
const FEW: usize = 4_096;

impl<'a> Bitmap<'a> {
    /// How many values are true. Of a mask it is called `true_count`.
    #[doc(alias("true_count", "count_set_bits", "count_ones"))]
    #[must_use]
    #[inline]
    pub fn count(self) -> usize {
        match self.len {
            // (to ask what the processor has takes longer than to count so few)
            0..64 => self.chunks().remainder_bits().count_ones() as usize,
            64..=128 => {
                let word = |from| self.part(from..from + 64).chunks().word_proved(0);
                // (of the last word those values that the first one doesn't have)
                let last = u128::from(word(self.len - 64)) >> (128 - self.len);
                (word(0).count_ones() + last.count_ones()) as usize
            }
            129..=FEW if cfg!(target_feature = "popcnt") && self.offset().is_multiple_of(8) => {
                let chunks = self.chunks();
                let last = chunks.remainder_bits().count_ones() as usize;
                (0..chunks.len())
                    .fold(last, |sum, i| sum + chunks.word_proved(i).count_ones() as usize)
            }
            _ => mask_c::row_mask_count(self.bytes(), self.offset(), self.len()),
        }
    }

    /// Whether some value is true.
    #[doc(alias("none", "not_any", "all_false"))]
    #[must_use]
    #[inline]
    pub fn any(self) -> bool {
        self.next_index(0).is_some()
    }

    /// Whether no value is false.
    #[doc(alias = "all_true")]
    #[must_use]
    #[inline]
    pub fn all(self) -> bool {
        self.is_empty() || self.next_run(0) == Some(0..self.len)
    }

    /// The index of true value number `n`, counted from 0.
    #[must_use]
    #[inline]
    pub fn select(self, n: usize) -> Option<usize> {
        self.inside(mask_c::row_mask_select(self.bytes(), self.offset(), self.len(), n))
    }

    /// The first index from `from` on whose value is true.
    #[must_use]
    #[inline]
    pub fn next_index(self, from: usize) -> Option<usize> {
        self.inside(mask_c::row_mask_next_index(self.bytes(), self.offset(), self.len(), from))
    }

    /// The index of the last true value.
    #[must_use]
    #[inline]
    pub fn last_index(self) -> Option<usize> {
        self.inside(mask_c::row_mask_last_index(self.bytes(), self.offset(), self.len()))
    }

    /// The first run of true values from `from` on. A run that `from` is inside begins there.
    #[must_use]
    #[inline]
    pub fn next_run(self, from: usize) -> Option<Range<usize>> {
        let run = mask_c::row_mask_next_run(self.bytes(), self.offset(), self.len(), from);
        (run.start < self.len).then_some(run.start..run.end)
    }

    /// The values, in their order.
    #[must_use]
    #[inline]
    pub fn iter(self) -> Values<'a> {
        Values::new(self)
    }

    /// The indices of the true values, ascending. Of a mask, which lends a list of them by `indices`, this iterator is called
    /// `set_indices`.
    #[doc(alias("set_indices", "iter_ones"))]
    #[must_use]
    #[inline]
    pub fn indices(self) -> Indices<'a> {
        Indices::new(self)
    }

    /// The maximal ranges of true values, ascending. Of a mask they are called `slices`, and this iterator `set_slices`.
    #[doc(alias("slices", "set_slices"))]
    #[must_use]
    #[inline]
    pub fn runs(self) -> Runs<'a> {
        Runs::new(self)
    }

    /// The indices of the true values, ascending, in room for just as many.
    #[must_use]
    #[inline]
    pub fn to_indices(self) -> Vec<usize> {
        let count = self.count();
        // SAFETY: each place is written, since so many values are true.
        let indices = unsafe { list_of(count, |out| _ = self.next_indices(0, as_items(out))) };
        granted(indices, count.saturating_mul(64))
    }

    /// As [`to_indices`](Bitmap::to_indices), of 4 bytes each: half the memory.
    ///
    /// ```
    /// let rows = row_mask::Bitmap::new(&[0b0_1101], 0, 5)?;
    /// assert_eq!(rows.to_indices_u32()?, [0_u32, 2, 3]);
    /// # Ok::<(), row_mask::Error>(())
    /// ```
    ///
    /// # Errors
    /// [`Error::IndicesTooNarrow`] where there are more than 2³² values, and [`Error::OutOfMemory`].
    pub fn to_indices_u32(self) -> Result<Vec<u32>, Error> {
        self.has_narrow_indices()?;
        // SAFETY: each place is written, since so many values are true.
        unsafe { list_of(self.count(), |out| _ = self.narrow_indices(0, as_items(out))) }
    }

    /// The words of 64 values, read as they are asked for: bit `b` of word `w` is value `64 * w + b`. Bits past the last
    /// value are clear.
    ///
    /// ```
    /// let rows = row_mask::Bitmap::new(&[0b1101_1110], 1, 5)?;
    /// assert!(rows.words().eq([0b0_1111]));
    /// # Ok::<(), row_mask::Error>(())
    /// ```
    #[must_use]
    #[inline]
    pub fn words(self) -> PaddedWords<'a> {
        self.chunks().iter_padded()
    }

    /// All words of 64 values, as [`next_words`](Bitmap::next_words) has them.
    #[must_use]
    #[inline]
    pub fn to_words(self) -> Vec<u64> {
        let count = self.len.div_ceil(64);
        // SAFETY: each place is written, since there are so many words.
        let words = unsafe { list_of(count, |out| _ = self.next_words(0, as_items(out))) };
        granted(words, self.len)
    }

    // An index, where a call answers the length for none.
    fn inside(self, index: usize) -> Option<usize> {
        (index < self.len).then_some(index)
    }

    /// How many of the values of a range are true.
    ///
    /// # Errors
    /// [`Error::BadRange`] where it is no range of the values.
    pub fn count_range(self, range: impl RangeBounds<usize>) -> Result<usize, Error> {
        let Range { start, end } = range_within(&range, self.len)?;
        Ok(mask_c::row_mask_count_range(self.bytes(), self.offset(), self.len(), start, end))
    }

    /// For each index how many of the values below it are true, all in one pass. Of a mask it is called
    /// `valid_counts_for_indices`.
    ///
    /// ```
    /// let rows = row_mask::Bitmap::new(&[0b0_1101], 0, 5)?;
    /// assert_eq!(rows.counts_below(&[0, 1, 3, 5])?, [0, 1, 2, 3]);
    /// # Ok::<(), row_mask::Error>(())
    /// ```
    ///
    /// # Errors
    /// [`Error::UnsortedIndices`] where an index is below the one before it, [`Error::IndexOutOfBounds`] where one is
    /// above the length, and [`Error::OutOfMemory`].
    #[doc(alias("valid_counts_for_indices", "rank"))]
    pub fn counts_below(self, indices: &[usize]) -> Result<Vec<usize>, Error> {
        self.are_ends(indices)?;
        // SAFETY: each place is written.
        unsafe {
            list_of(indices.len(), |out| {
                let out = as_items(out);
                mask_c::row_mask_counts_below(
                    self.bytes(),
                    self.offset(),
                    self.len(),
                    indices,
                    out,
                );
            })
        }
    }

    /// As [`counts_below`](Bitmap::counts_below), to the front of `out`.
    ///
    /// # Errors
    /// [`Error::UnsortedIndices`] and [`Error::IndexOutOfBounds`] as there, and [`Error::RoomTooSmall`] where `out` has
    /// fewer items than there are indices.
    pub fn counts_below_into(self, indices: &[usize], out: &mut [usize]) -> Result<(), Error> {
        self.are_ends(indices)?;
        let out = first_of(out, indices.len())?;
        mask_c::row_mask_counts_below(self.bytes(), self.offset(), self.len(), indices, out);
        Ok(())
    }

    // Tests that indices ascend and are at most the length.
    fn are_ends(self, indices: &[usize]) -> Result<(), Error> {
        are_fit(indices, PartialOrd::le).map_err(|at| Error::UnsortedIndices { at })?;
        let index = indices.last().copied().unwrap_or(0);
        Error::IndexOutOfBounds { index, len: self.len }.unless(index <= self.len)
    }

    /// Writes the indices of the true values from `from` on to the front of `out`, as many as there are or as it takes,
    /// and returns how many these are. After them `out` may have other numbers than before.
    pub fn next_indices(self, from: usize, out: &mut [usize]) -> usize {
        mask_c::row_mask_next_indices(self.bytes(), self.offset(), self.len(), from, out)
    }

    /// As [`next_indices`](Bitmap::next_indices), of 4 bytes each.
    ///
    /// # Errors
    /// [`Error::IndicesTooNarrow`] where there are more than 2³² values.
    pub fn next_indices_u32(self, from: usize, out: &mut [u32]) -> Result<usize, Error> {
        self.has_narrow_indices()?;
        Ok(self.narrow_indices(from, out))
    }

    // Tests that indices of 4 bytes number the values.
    fn has_narrow_indices(self) -> Result<(), Error> {
        Error::IndicesTooNarrow { len: self.len }.unless(self.len <= 1 << u32::BITS)
    }

    // Writes them, of as many values.
    pub(crate) fn narrow_indices(self, from: usize, out: &mut [u32]) -> usize {
        mask_c::row_mask_next_indices_4(self.bytes(), self.offset(), self.len(), from, out)
    }

    // Calls a function with the indices of the true values, block after block of them, in the nearest memory.
    pub(crate) fn by_blocks(self, mut of: impl FnMut(&[usize])) {
        let (mut block, mut from) = ([MaybeUninit::uninit(); INDICES_OF_A_BLOCK], 0);
        // SAFETY: none is read that wasn't found.
        let block = unsafe { as_items(&mut block) };
        loop {
            let found = self.next_indices(from, block);
            of(&block[..found]);
            if found < block.len() {
                return;
            }
            from = block[found - 1] + 1;
        }
    }

    /// Writes the words of 64 values from word `from` on to the front of `out`, as many as there are or as it takes,
    /// and returns how many these are. Bit `b` of word `w` is value `64 * w + b`. Bits past the last value are clear.
    ///
    /// ```
    /// let (rows, mut words) = (row_mask::Bitmap::new(&[0b1101_1110], 1, 5)?, [0; 2]);
    /// assert_eq!(rows.next_words(0, &mut words), 1);
    /// assert_eq!(words, [0b0_1111, 0]);
    /// # Ok::<(), row_mask::Error>(())
    /// ```
    pub fn next_words(self, from: usize, out: &mut [u64]) -> usize {
        mask_c::row_mask_words(self.bytes(), self.offset(), self.len(), from, out)
    }
}
