//! The first true values, and those behind them.

use super::room::made;
use crate::memory::granted;
use crate::proved::mask_c;
use crate::{Bitmap, BitmapBuf, Error, Room};

impl Bitmap<'_> {
    /// The first `k` true values, and false ones in the places of the others: SQL's `LIMIT`. It has as many values as
    /// before.
    ///
    /// ```
    /// let rows = row_mask::Bitmap::new(&[0b10_1101], 0, 6)?;
    /// assert_eq!(rows.limit(3).to_string(), "101100");
    /// assert_eq!(rows.without_first(1).limit(2).to_string(), "001100");
    /// # Ok::<(), row_mask::Error>(())
    /// ```
    #[must_use]
    pub fn limit(self, k: usize) -> BitmapBuf {
        granted(made(|out| self.limit_into(k, out)), self.len)
    }

    /// As [`limit`](Self::limit), written into `out`.
    ///
    /// # Errors
    /// The refusals of [`Room`].
    pub fn limit_into(self, k: usize, out: &mut (impl Room + ?Sized)) -> Result<(), Error> {
        let end = self.select(k).unwrap_or(self.len);
        // SAFETY: each byte is copied, and none is read before.
        unsafe {
            out.write(self.len, |out| {
                self.copy_to(out);
                mask_c::row_mask_fill_range(out, end, self.len, false);
            })
        }
    }

    /// All true values but the first `k`, and false ones in the places of these: SQL's `OFFSET`, before
    /// [`limit`](Self::limit). It has as many values as before.
    #[doc(alias = "skip")]
    #[must_use]
    pub fn without_first(self, k: usize) -> BitmapBuf {
        granted(made(|out| self.without_first_into(k, out)), self.len)
    }

    /// As [`without_first`](Self::without_first), written into `out`.
    ///
    /// # Errors
    /// The refusals of [`Room`].
    pub fn without_first_into(self, k: usize, out: &mut (impl Room + ?Sized)) -> Result<(), Error> {
        let end = self.end_of_first(k);
        // SAFETY: each byte is copied, and none is read before.
        unsafe {
            out.write(self.len, |out| {
                self.copy_to(out);
                mask_c::row_mask_fill_range(out, 0, end, false);
            })
        }
    }

    // The place behind the first `k` true values: behind all values where there are no more.
    pub(crate) fn end_of_first(self, k: usize) -> usize {
        k.checked_sub(1).map_or(0, |last| self.select(last).map_or(self.len, |last| last + 1))
    }
}

impl BitmapBuf {
    /// The first `k` true values: [`Bitmap::limit`]. [`keep_first`](Self::keep_first) does it in place.
    #[must_use]
    #[inline]
    pub fn limit(&self, k: usize) -> BitmapBuf {
        self.as_bitmap().limit(k)
    }

    /// The same, written into `out`: [`Bitmap::limit_into`].
    ///
    /// # Errors
    /// The refusals of [`Room`].
    #[inline]
    pub fn limit_into(&self, k: usize, out: &mut (impl Room + ?Sized)) -> Result<(), Error> {
        self.as_bitmap().limit_into(k, out)
    }

    /// All true values but the first `k`: [`Bitmap::without_first`]. [`drop_first`](Self::drop_first) does it in place.
    #[doc(alias("offset", "skip"))]
    #[must_use]
    #[inline]
    pub fn without_first(&self, k: usize) -> BitmapBuf {
        self.as_bitmap().without_first(k)
    }

    /// The same, written into `out`: [`Bitmap::without_first_into`].
    ///
    /// # Errors
    /// The refusals of [`Room`].
    #[inline]
    pub fn without_first_into(
        &self,
        k: usize,
        out: &mut (impl Room + ?Sized),
    ) -> Result<(), Error> {
        self.as_bitmap().without_first_into(k, out)
    }
}
