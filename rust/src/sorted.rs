//! The indices that two ascending lists have in common, and those of a list at which a bitmap is true.

use crate::bitmap::room::{as_items, first_of, list_of, reserve};
use crate::proved::mask_bits::common_indices::{put_common, put_true};
use crate::row_index::are_within;
use crate::{Bitmap, BitmapBuf, Error, RowIndex};
use alloc::vec::Vec;

/// The indices that two lists have in common, ascending: the rows that two filters name, or two terms of an index. In each
/// list every index is above the one before it.
///
/// Where one list has 16 times the indices of the other or more, those of the short one are looked up, and few of the long
/// one are read. Other lists are merged. No list is tested for its order, which would take as long as a merge: of lists that
/// don't ascend nothing is said but how many indices come at most.
///
/// ```
/// assert_eq!(row_mask::intersect_sorted(&[1_u32, 4, 7, 9], &[4, 5, 9])?, [4, 9]);
/// # Ok::<(), row_mask::Error>(())
/// ```
///
/// # Errors
/// [`Error::OutOfMemory`].
pub fn intersect_sorted<I: RowIndex>(left: &[I], right: &[I]) -> Result<Vec<I>, Error> {
    let mut found = 0;
    // SAFETY: the loop writes each place, and reads none before.
    let mut list = unsafe {
        list_of(left.len().min(right.len()), |out| {
            found = put_common(left, right, as_items(out));
        })?
    };
    list.truncate(found);
    Ok(list)
}

/// As [`intersect_sorted`], to the front of `out`. It returns how many these are. After them `out` may have other indices
/// than before, as far as the shorter list would reach.
///
/// # Errors
/// [`Error::RoomTooSmall`] where `out` has fewer items than the shorter list.
pub fn intersect_sorted_into<I: RowIndex>(
    left: &[I],
    right: &[I],
    out: &mut [I],
) -> Result<usize, Error> {
    let out = first_of(out, left.len().min(right.len()))?;
    Ok(put_common(left, right, out))
}

impl Bitmap<'_> {
    /// Those of a list of indices whose values are true, in the order of the list: what a filter leaves of the rows that an
    /// index names. Indices may come in any order and more than once.
    ///
    /// ```
    /// let rows = row_mask::Bitmap::new(&[0b0_1101], 0, 5)?;
    /// assert_eq!(rows.true_among(&[3_u32, 1, 0, 4])?, [3, 0]);
    /// # Ok::<(), row_mask::Error>(())
    /// ```
    ///
    /// # Errors
    /// [`Error::IndexOutOfBounds`] with the first index that no value has, and [`Error::OutOfMemory`].
    pub fn true_among<I: RowIndex>(self, indices: &[I]) -> Result<Vec<I>, Error> {
        are_within(indices, self.len())?;
        let mut list = Vec::new();
        reserve(&mut list, indices.len())?;
        // SAFETY: the loop reads no place, and writes the first of them, as many as it answers.
        unsafe {
            let room = &mut list.spare_capacity_mut()[..indices.len()];
            let found = self.put_true_among(indices, as_items(room));
            list.set_len(found);
        }
        Ok(list)
    }

    /// As [`true_among`](Self::true_among), to the front of `out`. It returns how many these are. After them `out` may have
    /// other indices than before, as far as the list would reach.
    ///
    /// # Errors
    /// [`Error::IndexOutOfBounds`] as there, and [`Error::RoomTooSmall`] where `out` has fewer items than there are indices.
    pub fn true_among_into<I: RowIndex>(
        self,
        indices: &[I],
        out: &mut [I],
    ) -> Result<usize, Error> {
        are_within(indices, self.len())?;
        Ok(self.put_true_among(indices, first_of(out, indices.len())?))
    }

    // Each index is below the length, and there is a place for each.
    fn put_true_among<I: RowIndex>(self, indices: &[I], out: &mut [I]) -> usize {
        put_true(self.bytes(), self.offset(), self.len(), indices, out)
    }
}

impl BitmapBuf {
    /// Those of a list of indices whose values are true: [`Bitmap::true_among`].
    ///
    /// # Errors
    /// [`Error::IndexOutOfBounds`], and [`Error::OutOfMemory`].
    #[inline]
    pub fn true_among<I: RowIndex>(&self, indices: &[I]) -> Result<Vec<I>, Error> {
        self.as_bitmap().true_among(indices)
    }

    /// The same, to the front of `out`: [`Bitmap::true_among_into`].
    ///
    /// # Errors
    /// [`Error::IndexOutOfBounds`], and [`Error::RoomTooSmall`].
    #[inline]
    pub fn true_among_into<I: RowIndex>(
        &self,
        indices: &[I],
        out: &mut [I],
    ) -> Result<usize, Error> {
        self.as_bitmap().true_among_into(indices, out)
    }
}
