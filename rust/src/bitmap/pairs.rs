//! Two bitmaps: combined value by value, beside each other, and one narrowed by another over its true values.

use super::room::{are_fit, made};
use crate::memory::granted;
use crate::proved::mask_c;
use crate::{Bitmap, BitmapBuf, Error, Room};

impl Bitmap<'_> {
    /// The values that are true in both.
    ///
    /// # Errors
    /// [`Error::LengthsDiffer`], and [`Error::OutOfMemory`].
    #[doc(alias("bitand", "&"))]
    pub fn and<'b>(self, other: impl Into<Bitmap<'b>>) -> Result<BitmapBuf, Error> {
        let other = other.into();
        made(|out| self.and_into(other, out))
    }

    /// As [`and`](Self::and), written into `out`.
    ///
    /// # Errors
    /// [`Error::LengthsDiffer`], and the refusals of [`Room`].
    pub fn and_into<'b>(
        self,
        other: impl Into<Bitmap<'b>>,
        out: &mut (impl Room + ?Sized),
    ) -> Result<(), Error> {
        let other = other.into();
        self.of_length_of(other)?;
        // SAFETY: the loop writes each byte, and reads none before.
        unsafe {
            out.write(self.len, |out| {
                mask_c::row_mask_and(
                    self.bytes(),
                    self.offset(),
                    other.bytes(),
                    other.offset(),
                    self.len(),
                    out,
                );
            })
        }
    }

    /// The values that are true in one or in both.
    ///
    /// # Errors
    /// [`Error::LengthsDiffer`], and [`Error::OutOfMemory`].
    #[doc(alias("bitor", "|"))]
    pub fn or<'b>(self, other: impl Into<Bitmap<'b>>) -> Result<BitmapBuf, Error> {
        let other = other.into();
        made(|out| self.or_into(other, out))
    }

    /// As [`or`](Self::or), written into `out`.
    ///
    /// # Errors
    /// [`Error::LengthsDiffer`], and the refusals of [`Room`].
    pub fn or_into<'b>(
        self,
        other: impl Into<Bitmap<'b>>,
        out: &mut (impl Room + ?Sized),
    ) -> Result<(), Error> {
        let other = other.into();
        self.of_length_of(other)?;
        // SAFETY: the loop writes each byte, and reads none before.
        unsafe {
            out.write(self.len, |out| {
                mask_c::row_mask_or(
                    self.bytes(),
                    self.offset(),
                    other.bytes(),
                    other.offset(),
                    self.len(),
                    out,
                );
            })
        }
    }

    /// The values that are true here and not in `other`.
    ///
    /// # Errors
    /// [`Error::LengthsDiffer`], and [`Error::OutOfMemory`].
    #[doc(alias = "bitand_not")]
    pub fn and_not<'b>(self, other: impl Into<Bitmap<'b>>) -> Result<BitmapBuf, Error> {
        let other = other.into();
        made(|out| self.and_not_into(other, out))
    }

    /// As [`and_not`](Self::and_not), written into `out`.
    ///
    /// # Errors
    /// [`Error::LengthsDiffer`], and the refusals of [`Room`].
    pub fn and_not_into<'b>(
        self,
        other: impl Into<Bitmap<'b>>,
        out: &mut (impl Room + ?Sized),
    ) -> Result<(), Error> {
        let other = other.into();
        self.of_length_of(other)?;
        // SAFETY: the loop writes each byte, and reads none before.
        unsafe {
            out.write(self.len, |out| {
                mask_c::row_mask_and_not(
                    self.bytes(),
                    self.offset(),
                    other.bytes(),
                    other.offset(),
                    self.len(),
                    out,
                );
            })
        }
    }

    /// The values that are true here or false in `other`.
    ///
    /// # Errors
    /// [`Error::LengthsDiffer`], and [`Error::OutOfMemory`].
    pub fn or_not<'b>(self, other: impl Into<Bitmap<'b>>) -> Result<BitmapBuf, Error> {
        let other = other.into();
        made(|out| self.or_not_into(other, out))
    }

    /// As [`or_not`](Self::or_not), written into `out`.
    ///
    /// # Errors
    /// [`Error::LengthsDiffer`], and the refusals of [`Room`].
    pub fn or_not_into<'b>(
        self,
        other: impl Into<Bitmap<'b>>,
        out: &mut (impl Room + ?Sized),
    ) -> Result<(), Error> {
        let other = other.into();
        self.of_length_of(other)?;
        // SAFETY: the loop writes each byte, and reads none before.
        unsafe {
            out.write(self.len, |out| {
                mask_c::row_mask_or_not(
                    self.bytes(),
                    self.offset(),
                    other.bytes(),
                    other.offset(),
                    self.len(),
                    out,
                );
            })
        }
    }

    /// The values that are true in one and not in the other.
    ///
    /// # Errors
    /// [`Error::LengthsDiffer`], and [`Error::OutOfMemory`].
    #[doc(alias("bitxor", "^"))]
    pub fn xor<'b>(self, other: impl Into<Bitmap<'b>>) -> Result<BitmapBuf, Error> {
        let other = other.into();
        made(|out| self.xor_into(other, out))
    }

    /// As [`xor`](Self::xor), written into `out`.
    ///
    /// # Errors
    /// [`Error::LengthsDiffer`], and the refusals of [`Room`].
    pub fn xor_into<'b>(
        self,
        other: impl Into<Bitmap<'b>>,
        out: &mut (impl Room + ?Sized),
    ) -> Result<(), Error> {
        let other = other.into();
        self.of_length_of(other)?;
        // SAFETY: the loop writes each byte, and reads none before.
        unsafe {
            out.write(self.len, |out| {
                mask_c::row_mask_xor(
                    self.bytes(),
                    self.offset(),
                    other.bytes(),
                    other.offset(),
                    self.len(),
                    out,
                );
            })
        }
    }
}

impl BitmapBuf {
    /// Leaves those values true that are true in `other` too, in place.
    ///
    /// # Errors
    /// [`Error::LengthsDiffer`].
    #[doc(alias = "&=")]
    pub fn and_with<'b>(&mut self, other: impl Into<Bitmap<'b>>) -> Result<(), Error> {
        let other = other.into();
        self.as_bitmap().of_length_of(other)?;
        mask_c::row_mask_and_in_place(&mut self.bytes, other.bytes, other.offset, self.len);
        Ok(())
    }

    /// Makes those values true that are true in `other`, in place.
    ///
    /// # Errors
    /// [`Error::LengthsDiffer`].
    #[doc(alias = "|=")]
    pub fn or_with<'b>(&mut self, other: impl Into<Bitmap<'b>>) -> Result<(), Error> {
        let other = other.into();
        self.as_bitmap().of_length_of(other)?;
        mask_c::row_mask_or_in_place(&mut self.bytes, other.bytes, other.offset, self.len);
        Ok(())
    }

    /// Makes those values false that are true in `other`, in place.
    ///
    /// # Errors
    /// [`Error::LengthsDiffer`].
    pub fn and_not_with<'b>(&mut self, other: impl Into<Bitmap<'b>>) -> Result<(), Error> {
        let other = other.into();
        self.as_bitmap().of_length_of(other)?;
        mask_c::row_mask_and_not_in_place(&mut self.bytes, other.bytes, other.offset, self.len);
        Ok(())
    }

    /// Negates those values that are true in `other`, in place.
    ///
    /// # Errors
    /// [`Error::LengthsDiffer`].
    #[doc(alias = "^=")]
    pub fn xor_with<'b>(&mut self, other: impl Into<Bitmap<'b>>) -> Result<(), Error> {
        let other = other.into();
        self.as_bitmap().of_length_of(other)?;
        mask_c::row_mask_xor_in_place(&mut self.bytes, other.bytes, other.offset, self.len);
        Ok(())
    }
}

impl Bitmap<'_> {
    /// Each value negated, written into `out`.
    ///
    /// # Errors
    /// The refusals of [`Room`].
    pub fn not_into(self, out: &mut (impl Room + ?Sized)) -> Result<(), Error> {
        // SAFETY: the loop writes each byte, and reads none before.
        unsafe {
            out.write(self.len, |out| {
                mask_c::row_mask_not(self.bytes(), self.offset(), self.len(), out);
            })
        }
    }

    /// The same values, written into `out`.
    ///
    /// # Errors
    /// The refusals of [`Room`].
    pub fn copy_into(self, out: &mut (impl Room + ?Sized)) -> Result<(), Error> {
        // SAFETY: it writes each byte, and reads none before.
        unsafe { out.write(self.len, |out| self.copy_to(out)) }
    }

    // Writes each byte of the same values, to just the bytes that they take.
    pub(super) fn copy_to(self, out: &mut [u8]) {
        if !self.offset.is_multiple_of(8) {
            return mask_c::row_mask_copy(self.bytes(), self.offset(), self.len(), out);
        }
        out.copy_from_slice(&self.bytes[self.offset / 8..][..out.len()]);
        mask_c::clear_behind(out, self.len);
    }

    /// The same values in bytes of their own, from bit 0 on.
    #[must_use]
    #[inline]
    pub fn to_buf(self) -> BitmapBuf {
        granted(made(|out| self.copy_into(out)), self.len)
    }

    /// How many values are true in both.
    ///
    /// # Errors
    /// [`Error::LengthsDiffer`].
    pub fn and_count<'b>(self, other: impl Into<Bitmap<'b>>) -> Result<usize, Error> {
        let other = other.into();
        self.of_length_of(other)?;
        let (a, b) = (self, other);
        Ok(mask_c::row_mask_and_count(a.bytes(), a.offset(), b.bytes(), b.offset(), a.len()))
    }

    /// Whether some value is true in both.
    ///
    /// # Errors
    /// [`Error::LengthsDiffer`].
    pub fn intersects<'b>(self, other: impl Into<Bitmap<'b>>) -> Result<bool, Error> {
        let other = other.into();
        self.of_length_of(other)?;
        let (a, b) = (self, other);
        Ok(mask_c::row_mask_intersects(a.bytes(), a.offset(), b.bytes(), b.offset(), a.len()))
    }

    /// Whether each true value of this one is true in `other`.
    ///
    /// # Errors
    /// [`Error::LengthsDiffer`].
    pub fn is_subset<'b>(self, other: impl Into<Bitmap<'b>>) -> Result<bool, Error> {
        let other = other.into();
        self.of_length_of(other)?;
        let (a, b) = (self, other);
        Ok(mask_c::row_mask_is_subset(a.bytes(), a.offset(), b.bytes(), b.offset(), a.len()))
    }

    /// The bitmap narrowed by another over its true values: true value number `k` stays true exactly where value
    /// `k` of `ranks` is true.
    ///
    /// Where the processor has the instruction `pdep`, and in a few cycles, or on 64-bit ARM `bdep`, that deposits the words.
    ///
    /// # Errors
    /// [`Error::RanksDiffer`] where `ranks` has not one value for each true value, and [`Error::OutOfMemory`].
    pub fn intersect_by_rank<'b>(self, ranks: impl Into<Bitmap<'b>>) -> Result<BitmapBuf, Error> {
        let ranks = ranks.into();
        made(|out| self.intersect_by_rank_into(ranks, out))
    }

    /// As [`intersect_by_rank`](Self::intersect_by_rank), written into `out`.
    ///
    /// # Errors
    /// [`Error::RanksDiffer`] where `ranks` has not one value for each true value, and the refusals of [`Room`].
    pub fn intersect_by_rank_into<'b>(
        self,
        ranks: impl Into<Bitmap<'b>>,
        out: &mut (impl Room + ?Sized),
    ) -> Result<(), Error> {
        let ranks = ranks.into();
        let count = self.count();
        Error::RanksDiffer { ranks: ranks.len, count }.unless(ranks.len == count)?;
        // SAFETY: the loop writes each byte, and reads none before.
        unsafe {
            out.write(self.len, |out| {
                mask_c::row_mask_intersect_by_rank(
                    self.bytes(),
                    self.offset(),
                    self.len(),
                    ranks.bytes(),
                    ranks.offset(),
                    count,
                    out,
                );
            })
        }
    }

    /// The bitmap in which just those true values stay true whose numbers are `ranks`.
    ///
    /// # Errors
    /// [`Error::UnsortedRanks`] where a rank is not above the one before it, [`Error::RankOutOfBounds`] where one is not
    /// below the number of true values, and [`Error::OutOfMemory`].
    pub fn intersect_at_ranks(self, ranks: &[usize]) -> Result<BitmapBuf, Error> {
        made(|out| self.intersect_at_ranks_into(ranks, out))
    }

    /// As [`intersect_at_ranks`](Self::intersect_at_ranks), written into `out`.
    ///
    /// # Errors
    /// [`Error::UnsortedRanks`] where a rank is not above the one before it, [`Error::RankOutOfBounds`] where one is not
    /// below the number of true values, and the refusals of [`Room`].
    pub fn intersect_at_ranks_into(
        self,
        ranks: &[usize],
        out: &mut (impl Room + ?Sized),
    ) -> Result<(), Error> {
        are_fit(ranks, PartialOrd::lt).map_err(|at| Error::UnsortedRanks { at })?;
        if let Some(&rank) = ranks.last() {
            let count = self.count();
            Error::RankOutOfBounds { rank, count }.unless(rank < count)?;
        }
        // SAFETY: the loop writes each byte, and reads none before.
        unsafe {
            out.write(self.len, |out| {
                mask_c::row_mask_intersect_at_ranks(
                    self.bytes(),
                    self.offset(),
                    self.len(),
                    ranks,
                    out,
                );
            })
        }
    }

    // Tests that another bitmap has as many values.
    pub(crate) fn of_length_of(self, other: Bitmap<'_>) -> Result<(), Error> {
        Error::LengthsDiffer { left: self.len, right: other.len }.unless(self.len == other.len)
    }
}

/// Equal where the values are: bytes, offsets and the bits around the values don't count.
impl PartialEq<Bitmap<'_>> for Bitmap<'_> {
    fn eq(&self, other: &Bitmap<'_>) -> bool {
        let (a, b) = (self, other);
        if a.len != b.len || !(a.offset | b.offset).is_multiple_of(8) {
            return a.len == b.len
                && mask_c::row_mask_equal(a.bytes(), a.offset(), b.bytes(), b.offset(), a.len());
        }
        // (what lies alike is compared as bytes are, which the platform does in its best way)
        let (left, right) = (&self.bytes[self.offset / 8..], &other.bytes[other.offset / 8..]);
        let (whole, rest) = (self.len / 8, self.len % 8);
        (rest == 0 || (left[whole] ^ right[whole]) << (8 - rest) == 0)
            && left[..whole] == right[..whole]
    }
}

impl Eq for Bitmap<'_> {}
