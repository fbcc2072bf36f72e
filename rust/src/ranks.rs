//! Indices by rank and ranks by index, in any order, by counts that are made once.

use crate::memory::granted;
use crate::proved::mask_bits::{BitBuffer, Ranks};
use crate::{Bitmap, BitmapBuf};
use core::fmt;

impl Ranks {
    /// Counts the true values, and keeps them. A [`BitBuffer`] and a [`Mask`](crate::Mask) share their bytes with it, a
    /// [`BitmapBuf`] gives its own, and of a [`Bitmap`] it takes a copy.
    ///
    /// ```
    /// use row_mask::{BitmapBuf, Ranks};
    ///
    /// // the rows of a file that are not deleted: the third and the first of them
    /// let kept = Ranks::new(BitmapBuf::from_iter([true, false, true, false, true]));
    /// assert_eq!([2, 0].map(|rank| kept.select(rank)), [Some(4), Some(0)]);
    /// // how many of them stand before row 3 of the file
    /// assert_eq!(kept.count_below(3), 2);
    /// ```
    #[must_use]
    pub fn new(rows: impl Into<BitBuffer>) -> Ranks {
        let buffer = rows.into();
        let len = buffer.len();
        // (a count of 64 bits for 512 values, and one more)
        granted(Ranks::try_from_buffer(buffer), len.div_ceil(8).saturating_add(64))
    }

    /// The values, as a bitmap in the bytes that are kept.
    #[must_use]
    #[inline]
    pub fn as_bitmap(&self) -> Bitmap<'_> {
        self.buffer().as_bitmap()
    }
}

impl Bitmap<'_> {
    /// The true values, counted, so that [`select`](Ranks::select) and [`count_below`](Ranks::count_below) take a few words' time
    /// each, in any order. It keeps a copy of the bitmap. For one index [`count_range`](Bitmap::count_range) takes less, and
    /// for ascending ones [`counts_below`](Bitmap::counts_below).
    #[must_use]
    pub fn ranks(self) -> Ranks {
        Ranks::new(self)
    }
}

impl BitmapBuf {
    /// The true values, counted, beside a copy of the bitmap: [`Bitmap::ranks`]. `Ranks::new(bitmap)` takes no copy.
    #[must_use]
    pub fn ranks(&self) -> Ranks {
        self.as_bitmap().ranks()
    }
}

/// The bitmap that was counted, as far as that is printed.
impl fmt::Debug for Ranks {
    fn fmt(&self, f: &mut fmt::Formatter<'_>) -> fmt::Result {
        f.debug_struct("Ranks").field("bitmap", &self.as_bitmap()).finish_non_exhaustive()
    }
}
