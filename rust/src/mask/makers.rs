//! Makers of masks under their plain names. Each panics where the one whose name begins with `try_` returns an error, but
//! that it ends the process where memory is refused.

use crate::buffer::as_fn;
use crate::memory::{accepted, granted};
use crate::proved::mask_bits::{BitBuffer, NullableBitBuffer};
use crate::proved::vortex_mask::Mask;
use alloc::vec::Vec;

impl Mask {
    /// The values of a buffer. An empty one gives `AllFalse(0)`.
    ///
    /// ```
    /// use row_mask::{BitBuffer, Mask};
    ///
    /// let mask = Mask::from_buffer(BitBuffer::from_iter([true, false, true]));
    /// assert_eq!(mask.true_count(), 2);
    /// ```
    #[inline]
    #[must_use]
    pub fn from_buffer(buffer: BitBuffer) -> Mask {
        let len = buffer.len();
        granted(Mask::try_from_buffer(buffer), len)
    }

    /// The values that are true, which are those that a filter keeps: no null is one. None at all give `AllFalse(0)`.
    ///
    /// ```
    /// use row_mask::{Mask, NullableBitBuffer};
    ///
    /// let above = NullableBitBuffer::from_rows(&[Some(7), Some(3), None], |a| a.map(|a| a > 5));
    /// assert_eq!(Mask::from_nullable(&above).to_string(), "100");
    /// assert_eq!(Mask::from_nullable(&!above).to_string(), "010"); // a null is chosen by neither
    /// ```
    #[inline]
    #[must_use]
    pub fn from_nullable(answers: &NullableBitBuffer) -> Mask {
        granted(Mask::try_from_nullable(answers), answers.len())
    }

    /// The values of a buffer whose true ones are all in these ranges, and no others. Those that touch are made one. The mask
    /// caches them.
    ///
    /// ```
    /// use row_mask::{AllOr, BitBuffer, Mask};
    ///
    /// let buffer = BitBuffer::from_iter([true, true, false, true]);
    /// let mask = Mask::from_buffer_with_slices(buffer, vec![(0, 2), (3, 4)]);
    /// assert_eq!(mask.slices(), AllOr::Some(&[(0, 2), (3, 4)][..]));
    /// ```
    ///
    /// # Panics
    /// Where the ranges aren't sorted, overlap, or hold other values than the true ones of the buffer.
    #[inline]
    #[must_use]
    #[track_caller]
    pub fn from_buffer_with_slices(buffer: BitBuffer, slices: Vec<(usize, usize)>) -> Mask {
        let len = buffer.len();
        granted(Mask::try_from_buffer_with_slices(buffer, slices), len)
    }

    /// A mask of `len` values, of which those at these indices are true. It caches the list.
    ///
    /// ```
    /// use row_mask::Mask;
    ///
    /// assert_eq!(Mask::from_indices(5, [1, 3]).to_string(), "01010");
    /// ```
    ///
    /// # Panics
    /// Where the indices aren't sorted, one repeats, or one is past the end.
    #[inline]
    #[must_use]
    #[track_caller]
    pub fn from_indices(len: usize, indices: impl IntoIterator<Item = usize>) -> Mask {
        accepted("from_indices", Mask::try_from_indices(len, indices), len)
    }

    /// A mask of `len` values, of which those at these indices are true. They may come in any order, and again. It caches no
    /// list.
    ///
    /// ```
    /// use row_mask::Mask;
    ///
    /// assert_eq!(Mask::from_unsorted_indices(5, [3, 1, 3]).to_string(), "01010");
    /// ```
    ///
    /// # Panics
    /// Where an index is past the end.
    #[inline]
    #[must_use]
    #[track_caller]
    pub fn from_unsorted_indices(len: usize, indices: impl IntoIterator<Item = usize>) -> Mask {
        accepted("from_unsorted_indices", Mask::try_from_unsorted_indices(len, indices), len)
    }

    /// A mask of `len` values, of which those at these indices are false. They may come in any order, and again.
    ///
    /// ```
    /// use row_mask::Mask;
    ///
    /// assert_eq!(Mask::from_excluded_indices(5, [3, 1, 3]).to_string(), "10101");
    /// ```
    ///
    /// # Panics
    /// Where an index is past the end.
    #[inline]
    #[must_use]
    #[track_caller]
    pub fn from_excluded_indices(len: usize, indices: impl IntoIterator<Item = usize>) -> Mask {
        accepted("from_excluded_indices", Mask::try_from_excluded_indices(len, indices), len)
    }

    /// A mask of `len` values, of which those in these ranges are true. Each is its first index and the index past its last.
    /// Those that touch are made one. The mask caches them.
    ///
    /// ```
    /// use row_mask::Mask;
    ///
    /// assert_eq!(Mask::from_slices(6, vec![(0, 2), (3, 5)]).to_string(), "110110");
    /// ```
    ///
    /// # Panics
    /// Where a range is empty or passes the length, the ranges aren't sorted, or two overlap.
    #[inline]
    #[must_use]
    #[track_caller]
    pub fn from_slices(len: usize, slices: Vec<(usize, usize)>) -> Mask {
        accepted("from_slices", Mask::try_from_slices(len, slices), len)
    }

    /// A mask of `len` values, of which those are true whose index is in both lists.
    ///
    /// ```
    /// use row_mask::Mask;
    ///
    /// let mask = Mask::from_intersection_indices(5, [0, 1, 3].into_iter(), [1, 2, 3].into_iter());
    /// assert_eq!(mask.to_string(), "01010");
    /// ```
    ///
    /// # Panics
    /// Where one of the lists isn't sorted or has an index twice, or an index of both is past the end.
    #[inline]
    #[must_use]
    #[track_caller]
    pub fn from_intersection_indices(
        len: usize,
        lhs: impl IntoIterator<Item = usize>,
        rhs: impl IntoIterator<Item = usize>,
    ) -> Mask {
        let made = Mask::try_from_intersection_indices(len, lhs, rhs);
        accepted("from_intersection_indices", made, len)
    }

    /// The values. None give `AllFalse(0)`. It is `collect` by a name of its own.
    ///
    /// ```
    /// use row_mask::Mask;
    ///
    /// assert_eq!(Mask::from_bools([true, false, true]), Mask::from_indices(3, [0, 2]));
    /// ```
    #[inline]
    #[must_use]
    pub fn from_bools(bools: impl IntoIterator<Item = bool>) -> Mask {
        granted(Mask::try_from_bools(bools), 0)
    }

    /// What a test says of each row, in their order: value `i` is of row `i`. No rows give `AllFalse(0)`.
    ///
    /// ```
    /// use row_mask::Mask;
    ///
    /// assert_eq!(Mask::from_rows(&[3, 8, 5], |price| *price > 4).to_string(), "011");
    /// ```
    #[inline]
    #[must_use]
    pub fn from_rows<T>(rows: &[T], test: impl FnMut(&T) -> bool) -> Mask {
        // SAFETY: the test is asked of one row after another.
        granted(Mask::try_from_rows(rows, unsafe { as_fn(test) }), rows.len())
    }

    /// The values that are true here and of whose rows a test says so too: the next one of several tests. It is a plain
    /// function of a row: where few of 64 values are true it is asked of their rows alone, and else of all 64 together.
    ///
    /// ```
    /// use row_mask::Mask;
    ///
    /// let prices = [3, 8, 5, 9];
    /// let above = Mask::from_rows(&prices, |price| *price > 4);
    /// assert_eq!(above.and_rows(&prices, |price| *price < 9).to_string(), "0110");
    /// ```
    ///
    /// # Panics
    /// Where there are more or fewer rows than values.
    #[inline]
    #[must_use]
    #[track_caller]
    pub fn and_rows<T>(&self, rows: &[T], test: impl Fn(&T) -> bool) -> Mask {
        granted(self.try_and_rows(rows, test), rows.len())
    }

    /// The values of masks, one mask after another. No values give `AllTrue(0)`. It is `collect` by a name of its own.
    ///
    /// ```
    /// use row_mask::Mask;
    ///
    /// assert_eq!(Mask::from_masks([Mask::new_true(2), Mask::new_false(1)]).to_string(), "110");
    /// ```
    ///
    /// # Panics
    /// Where the sum of their lengths doesn't fit.
    #[inline]
    #[must_use]
    #[track_caller]
    pub fn from_masks(masks: impl IntoIterator<Item = Mask>) -> Mask {
        accepted("from_masks", Mask::try_from_masks(masks), 0)
    }
}
