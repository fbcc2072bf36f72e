//! Rows and values chosen at the true values.

use super::room::{append_rows, as_places, first_of, made, rows_of};
use crate::native::choose_rows_by_size;
use crate::proved::mask_c;
use crate::{Bitmap, BitmapBuf, Error, Room, Row};
use alloc::vec::Vec;
use core::mem::MaybeUninit;

impl Bitmap<'_> {
    /// The values of another bitmap at the true values, in their order: the validity of a column that is filtered,
    /// or a predicate of all rows as one of those that are left, which
    /// [`intersect_by_rank`](Bitmap::intersect_by_rank) takes as ranks. Of a mask it is called `choose_values`.
    ///
    /// # Errors
    /// [`Error::RowsDiffer`] where the other bitmap has not one value for each value, and [`Error::OutOfMemory`].
    #[doc(alias("choose_values", "filter"))]
    pub fn choose_bits<'b>(self, bits: impl Into<Bitmap<'b>>) -> Result<BitmapBuf, Error> {
        let bits = bits.into();
        made(|out| self.choose_bits_into(bits, out))
    }

    /// As [`choose_bits`](Self::choose_bits), written into `out`, and returns how many values these are.
    ///
    /// # Errors
    /// [`Error::RowsDiffer`] where the other bitmap has not one value for each value, and the refusals of [`Room`].
    pub fn choose_bits_into<'b>(
        self,
        bits: impl Into<Bitmap<'b>>,
        out: &mut (impl Room + ?Sized),
    ) -> Result<usize, Error> {
        let bits = bits.into();
        self.has_one_for_each(bits.len)?;
        let count = self.count();
        // SAFETY: the loop writes each byte, and reads none before.
        unsafe {
            out.write(count, |out| {
                mask_c::row_mask_choose_bits(
                    self.bytes(),
                    self.offset(),
                    self.len(),
                    bits.bytes(),
                    bits.offset(),
                    out,
                );
            })?;
        }
        Ok(count)
    }

    /// The rows at the true values, in their order.
    ///
    /// # Errors
    /// [`Error::RowsDiffer`] where there is not one row for each value, and [`Error::OutOfMemory`].
    #[doc(alias = "filter")]
    pub fn choose<T: Row>(self, rows: &[T]) -> Result<Vec<T>, Error> {
        self.has_one_for_each(rows.len())?;
        // SAFETY: there is a row for each value, and a place for each true one, which is written.
        unsafe { rows_of(self.count(), |out, count| self.choose_to(rows, out, count)) }
    }

    /// As [`choose`](Self::choose), after the items of a list.
    ///
    /// # Errors
    /// As there. Then the list is as it was.
    pub fn choose_append<T: Row>(self, rows: &[T], list: &mut Vec<T>) -> Result<(), Error> {
        self.has_one_for_each(rows.len())?;
        // SAFETY: there is a row for each value, and a place for each true one, which is written.
        unsafe { append_rows(list, self.count(), |out, count| self.choose_to(rows, out, count)) }
    }

    /// As [`choose`](Self::choose), to the front of `out`, and returns how many rows these are.
    ///
    /// # Errors
    /// [`Error::RowsDiffer`] where there is not one row for each value, and [`Error::RoomTooSmall`] where `out` has
    /// fewer items than rows are chosen.
    pub fn choose_into<T: Row>(self, rows: &[T], out: &mut [T]) -> Result<usize, Error> {
        self.has_one_for_each(rows.len())?;
        let count = self.count();
        let out = first_of(out, count)?;
        // SAFETY: just rows are written, one to each place.
        unsafe { self.choose_to(rows, as_places(out), count) };
        Ok(count)
    }

    // Tests that there is a row for each value.
    pub(crate) fn has_one_for_each(self, rows: usize) -> Result<(), Error> {
        Error::RowsDiffer { rows, len: self.len }.unless(rows == self.len)
    }

    // Writes the first `count` places. There is a row for each value, and just so many are true.
    fn choose_to<T: Row>(self, rows: &[T], out: &mut [MaybeUninit<T>], count: usize) {
        // SAFETY: this is what is asked there too. A row is plain bytes.
        unsafe { choose_rows_by_size(rows, self.chunks(), out, count) }
    }
}
