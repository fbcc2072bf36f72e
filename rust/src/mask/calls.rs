//! Calls of masks under their plain names. Each panics where a condition is broken, as the one does whose name begins with
//! `try_`, and ends the process where memory is refused.

use crate::bitmap::ends_of;
use crate::intersect_by_rank::Steps;
use crate::memory::granted;
use crate::proved::mask_bits::BitBuffer;
use crate::proved::vortex_mask::{AllOr, Mask};
use alloc::vec::Vec;
use core::ops::RangeBounds;

impl Mask {
    /// The values in a range.
    ///
    /// ```
    /// use row_mask::Mask;
    ///
    /// let mask = Mask::from_indices(6, [0, 2, 3]);
    /// assert_eq!(mask.slice(1..5).to_string(), "0110");
    /// assert_eq!(mask.slice(..), mask);
    /// ```
    ///
    /// # Panics
    /// Where the range ends before it starts, or passes the end.
    #[inline]
    #[must_use]
    #[track_caller]
    pub fn slice(&self, range: impl RangeBounds<usize>) -> Mask {
        let (start, end) = ends_of(&range, self.len());
        granted(self.try_slice(start, end), self.len())
    }

    /// The first `limit` true values of the mask, and no other: it stays as long as it is.
    ///
    /// ```
    /// use row_mask::Mask;
    ///
    /// assert_eq!(Mask::new_true(4).limit(2).to_string(), "1100");
    /// ```
    #[inline]
    #[must_use]
    pub fn limit(self, limit: usize) -> Mask {
        let len = self.len();
        granted(self.try_limit(limit), len)
    }

    /// As [`limit`](Mask::limit), of a mask that is only borrowed.
    ///
    /// ```
    /// use row_mask::Mask;
    ///
    /// let mask = Mask::from_indices(6, [0, 2, 3]);
    /// assert_eq!(mask.to_limited(2), Mask::from_indices(6, [0, 2]));
    /// ```
    #[inline]
    #[must_use]
    pub fn to_limited(&self, limit: usize) -> Mask {
        granted(self.try_to_limited(limit), self.len())
    }

    /// All true values of the mask but the first `count`, which are false then: SQL's `OFFSET`, before
    /// [`limit`](Mask::limit). It stays as long as it is.
    ///
    /// ```
    /// use row_mask::Mask;
    ///
    /// let mask = Mask::from_indices(6, [0, 2, 3, 5]);
    /// assert_eq!(mask.without_first(1).limit(2).to_string(), "001100");
    /// ```
    #[doc(alias("offset", "skip"))]
    #[inline]
    #[must_use]
    pub fn without_first(&self, count: usize) -> Mask {
        granted(self.try_without_first(count), self.len())
    }

    /// The values that are true here and false in the other: the rows of this one without those of that.
    ///
    /// ```
    /// use row_mask::Mask;
    ///
    /// let deleted = Mask::from_indices(4, [1]);
    /// assert_eq!(Mask::from_indices(4, [1, 3]).bitand_not(&deleted).to_string(), "0001");
    /// ```
    ///
    /// # Panics
    /// Where the lengths differ.
    #[inline]
    #[must_use]
    #[track_caller]
    pub fn bitand_not(self, other: &Mask) -> Mask {
        let len = self.len();
        granted(self.try_bitand_not(other), len)
    }

    /// As [`bitand_not`](Mask::bitand_not), of a mask that is only borrowed.
    ///
    /// ```
    /// use row_mask::Mask;
    ///
    /// let (mask, other) = (Mask::from_indices(6, [0, 2, 3]), Mask::from_indices(6, [2, 5]));
    /// assert_eq!(mask.to_bitand_not(&other), Mask::from_indices(6, [0, 3]));
    /// ```
    ///
    /// # Panics
    /// Where the lengths differ.
    #[inline]
    #[must_use]
    #[track_caller]
    pub fn to_bitand_not(&self, other: &Mask) -> Mask {
        granted(self.try_to_bitand_not(other), self.len())
    }

    /// The true values of this mask that `mask`, which has one value for each of them, chooses: all others become false.
    ///
    /// ```
    /// use row_mask::Mask;
    ///
    /// let first = Mask::from_indices(8, [0, 3, 4, 5, 7]);
    /// let second = Mask::from_indices(5, [2, 4]); // over the five rows that the first one chooses
    /// assert_eq!(first.intersect_by_rank(&second), Mask::from_indices(8, [4, 7]));
    /// ```
    ///
    /// # Panics
    /// Where `mask` isn't as long as this mask's count of true values.
    #[inline]
    #[must_use]
    #[track_caller]
    pub fn intersect_by_rank(&self, mask: &Mask) -> Mask {
        // (a side of one value asks for no loop: these are the proved call's answers, without its many registers)
        if mask.len() == self.true_count() {
            match (self, mask) {
                (_, Mask::AllTrue(_)) => return Clone::clone(self),
                (_, Mask::AllFalse(_)) | (Mask::AllFalse(_), _) => {
                    return Mask::new_false(self.len());
                }
                (Mask::AllTrue(_), Mask::Values(_)) => return Clone::clone(mask),
                (Mask::Values(_), Mask::Values(_)) => {}
            }
        }
        granted(self.try_intersect_by_rank(mask), self.len())
    }

    /// As [`intersect_by_rank`](Mask::intersect_by_rank), with the steps that its kernel took.
    ///
    /// ```
    /// use row_mask::Mask;
    ///
    /// let first = Mask::from_rows(&[3, 8, 5, 9], |price| *price > 4);
    /// let (both, steps) = first.intersect_by_rank_counted(&Mask::from_indices(3, [0, 2]));
    /// assert_eq!((both.to_string().as_str(), steps.deposits()), ("0101", 1));
    /// ```
    ///
    /// # Panics
    /// Where `mask` isn't as long as this mask's count of true values.
    #[inline]
    #[must_use]
    #[track_caller]
    pub fn intersect_by_rank_counted(&self, mask: &Mask) -> (Mask, Steps) {
        granted(self.try_intersect_by_rank_counted(mask), self.len())
    }

    /// This mask, narrowed by one mask after another, each over the rows that those before it leave.
    ///
    /// ```
    /// use row_mask::Mask;
    ///
    /// let rows = Mask::new_true(8);
    /// let stack = [Mask::from_indices(8, [0, 3, 4, 7]), Mask::from_indices(4, [1, 3])];
    /// assert_eq!(rows.intersect_all_by_rank(&stack), Mask::from_indices(8, [3, 7]));
    /// ```
    ///
    /// # Panics
    /// Where a mask isn't as long as the count of true values of the one before it.
    #[inline]
    #[must_use]
    #[track_caller]
    pub fn intersect_all_by_rank(&self, masks: &[Mask]) -> Mask {
        granted(self.try_intersect_all_by_rank(masks), self.len())
    }

    /// For each of the indices, which don't descend, how many values before it are true.
    ///
    /// ```
    /// use row_mask::Mask;
    ///
    /// let valid = Mask::from_indices(5, [0, 2, 3]);
    /// assert_eq!(valid.valid_counts_for_indices(&[0, 1, 3, 5]), [0, 1, 2, 3]);
    /// ```
    ///
    /// # Panics
    /// Where an index is below the one before it, or above the length.
    #[inline]
    #[must_use]
    #[track_caller]
    pub fn valid_counts_for_indices(&self, indices: &[usize]) -> Vec<usize> {
        granted(self.try_valid_counts_for_indices(indices), usize::BITS as usize * indices.len())
    }

    /// The values as a buffer. That of a mixed mask is shared, and others are made.
    ///
    /// ```
    /// use row_mask::Mask;
    ///
    /// assert_eq!(Mask::from_indices(5, [1, 3]).to_bit_buffer().true_count(), 2);
    /// ```
    #[inline]
    #[must_use]
    pub fn to_bit_buffer(&self) -> BitBuffer {
        granted(self.try_to_bit_buffer(), self.len())
    }

    /// The values as a buffer. That of a mixed mask is taken out, and others are made.
    ///
    /// ```
    /// use row_mask::{BitBuffer, Mask};
    ///
    /// assert_eq!(Mask::new_true(3).into_bit_buffer(), BitBuffer::new_set(3));
    /// ```
    #[inline]
    #[must_use]
    pub fn into_bit_buffer(self) -> BitBuffer {
        let len = self.len();
        granted(self.try_into_bit_buffer(), len)
    }

    /// The rows at the true values.
    ///
    /// ```
    /// use row_mask::Mask;
    ///
    /// assert_eq!(Mask::from_indices(4, [1, 3]).choose(&["a", "b", "c", "d"]), ["b", "d"]);
    /// ```
    ///
    /// # Panics
    /// Where there isn't a row for each value.
    #[inline]
    #[must_use]
    #[track_caller]
    pub fn choose<T: Copy>(&self, rows: &[T]) -> Vec<T> {
        granted(self.try_choose(rows), 8 * size_of_val(rows))
    }

    /// The values of another mask at the true values of this one.
    ///
    /// ```
    /// use row_mask::Mask;
    ///
    /// let valid = Mask::from_indices(4, [0, 1]);
    /// assert_eq!(Mask::from_indices(4, [1, 3]).choose_values(&valid).to_string(), "10");
    /// ```
    ///
    /// # Panics
    /// Where the lengths differ.
    #[inline]
    #[must_use]
    #[track_caller]
    pub fn choose_values(&self, of: &Mask) -> Mask {
        granted(self.try_choose_values(of), self.len())
    }

    /// The mask in groups of `size` values: the last one may be shorter.
    ///
    /// ```
    /// use row_mask::Mask;
    ///
    /// let groups = Mask::from_indices(5, [0, 1, 4]).groups(2);
    /// assert_eq!(groups, [Mask::new_true(2), Mask::new_false(2), Mask::new_true(1)]);
    /// ```
    ///
    /// # Panics
    /// Where `size` is 0.
    #[inline]
    #[must_use]
    #[track_caller]
    pub fn groups(&self, size: usize) -> Vec<Mask> {
        granted(self.try_groups(size), self.len())
    }
}

impl<T: Clone> AllOr<&T> {
    /// The same, with a clone of the value.
    ///
    /// ```
    /// use row_mask::AllOr;
    ///
    /// assert_eq!(AllOr::Some(&3).cloned(), AllOr::Some(3));
    /// ```
    #[inline]
    #[must_use]
    pub fn cloned(self) -> AllOr<T> {
        match self {
            AllOr::All => AllOr::All,
            AllOr::None => AllOr::None,
            AllOr::Some(value) => AllOr::Some(value.clone()),
        }
    }
}
