//! What a bitmap answers, of its own bytes: each call is that of [`Bitmap`].

use crate::{Bitmap, BitmapBuf, Error, Indices, PaddedWords, Room, Row, Runs};
use alloc::vec::Vec;
use core::ops::{Range, RangeBounds};

/// The calls of a [`Bitmap`], which borrows these values.
impl BitmapBuf {
    /// Value `i`, and `None` past the end: [`Bitmap::get`].
    #[must_use]
    #[inline]
    pub fn get(&self, i: usize) -> Option<bool> {
        self.as_bitmap().get(i)
    }

    /// The values of a range, borrowed: [`Bitmap::slice`].
    ///
    /// # Errors
    /// [`Error::BadRange`].
    #[inline]
    pub fn slice(&self, range: impl RangeBounds<usize>) -> Result<Bitmap<'_>, Error> {
        self.as_bitmap().slice(range)
    }

    /// How many values are true: [`Bitmap::count`]. Of a mask it is called `true_count`.
    #[doc(alias("true_count", "count_set_bits", "count_ones"))]
    #[must_use]
    #[inline]
    pub fn count(&self) -> usize {
        self.as_bitmap().count()
    }

    /// How many values of a range are true: [`Bitmap::count_range`].
    ///
    /// # Errors
    /// [`Error::BadRange`].
    #[inline]
    pub fn count_range(&self, range: impl RangeBounds<usize>) -> Result<usize, Error> {
        self.as_bitmap().count_range(range)
    }

    /// Whether some value is true: [`Bitmap::any`].
    #[doc(alias("none", "not_any", "all_false"))]
    #[must_use]
    #[inline]
    pub fn any(&self) -> bool {
        self.as_bitmap().any()
    }

    /// Whether no value is false: [`Bitmap::all`].
    #[must_use]
    #[inline]
    pub fn all(&self) -> bool {
        self.as_bitmap().all()
    }

    /// The index of true value number `n`, counted from 0: [`Bitmap::select`].
    #[must_use]
    #[inline]
    pub fn select(&self, n: usize) -> Option<usize> {
        self.as_bitmap().select(n)
    }

    /// The first index from `from` on whose value is true: [`Bitmap::next_index`].
    #[must_use]
    #[inline]
    pub fn next_index(&self, from: usize) -> Option<usize> {
        self.as_bitmap().next_index(from)
    }

    /// The index of the last true value: [`Bitmap::last_index`].
    #[must_use]
    #[inline]
    pub fn last_index(&self) -> Option<usize> {
        self.as_bitmap().last_index()
    }

    /// The first run of true values from `from` on: [`Bitmap::next_run`].
    #[must_use]
    #[inline]
    pub fn next_run(&self, from: usize) -> Option<Range<usize>> {
        self.as_bitmap().next_run(from)
    }

    /// The indices of the true values, ascending: [`Bitmap::indices`]. Of a mask this iterator is called `set_indices`.
    #[doc(alias("set_indices", "iter_ones"))]
    #[must_use]
    #[inline]
    pub fn indices(&self) -> Indices<'_> {
        self.as_bitmap().indices()
    }

    /// The maximal ranges of true values, ascending: [`Bitmap::runs`]. Of a mask they are called `slices`.
    #[doc(alias("slices", "set_slices"))]
    #[must_use]
    #[inline]
    pub fn runs(&self) -> Runs<'_> {
        self.as_bitmap().runs()
    }

    /// A list of the indices of the true values: [`Bitmap::to_indices`].
    #[must_use]
    #[inline]
    pub fn to_indices(&self) -> Vec<usize> {
        self.as_bitmap().to_indices()
    }

    /// The same of 4 bytes each: [`Bitmap::to_indices_u32`].
    ///
    /// # Errors
    /// [`Error::IndicesTooNarrow`], and [`Error::OutOfMemory`].
    #[inline]
    pub fn to_indices_u32(&self) -> Result<Vec<u32>, Error> {
        self.as_bitmap().to_indices_u32()
    }

    /// The words of 64 values, read as they are asked for: [`Bitmap::words`].
    #[must_use]
    #[inline]
    pub fn words(&self) -> PaddedWords<'_> {
        self.as_bitmap().words()
    }

    /// A list of the words of 64 values: [`Bitmap::to_words`].
    #[must_use]
    #[inline]
    pub fn to_words(&self) -> Vec<u64> {
        self.as_bitmap().to_words()
    }

    /// Writes indices of true values to a slice: [`Bitmap::next_indices`].
    #[inline]
    pub fn next_indices(&self, from: usize, out: &mut [usize]) -> usize {
        self.as_bitmap().next_indices(from, out)
    }

    /// The same of 4 bytes each: [`Bitmap::next_indices_u32`].
    ///
    /// # Errors
    /// [`Error::IndicesTooNarrow`].
    #[inline]
    pub fn next_indices_u32(&self, from: usize, out: &mut [u32]) -> Result<usize, Error> {
        self.as_bitmap().next_indices_u32(from, out)
    }

    /// Writes words of 64 values to a slice: [`Bitmap::next_words`].
    #[inline]
    pub fn next_words(&self, from: usize, out: &mut [u64]) -> usize {
        self.as_bitmap().next_words(from, out)
    }

    /// For each index how many of the values below it are true: [`Bitmap::counts_below`]. Of a mask it is called
    /// `valid_counts_for_indices`.
    ///
    /// # Errors
    /// Those of [`Bitmap::counts_below`].
    #[doc(alias("valid_counts_for_indices", "rank"))]
    #[inline]
    pub fn counts_below(&self, indices: &[usize]) -> Result<Vec<usize>, Error> {
        self.as_bitmap().counts_below(indices)
    }

    /// The same, to the front of `out`: [`Bitmap::counts_below_into`].
    ///
    /// # Errors
    /// Those of [`Bitmap::counts_below_into`].
    #[inline]
    pub fn counts_below_into(&self, indices: &[usize], out: &mut [usize]) -> Result<(), Error> {
        self.as_bitmap().counts_below_into(indices, out)
    }

    /// The values that are true in both: [`Bitmap::and`].
    ///
    /// # Errors
    /// [`Error::LengthsDiffer`], and [`Error::OutOfMemory`].
    #[doc(alias("bitand", "&"))]
    #[inline]
    pub fn and<'b>(&self, other: impl Into<Bitmap<'b>>) -> Result<BitmapBuf, Error> {
        self.as_bitmap().and(other)
    }

    /// The same, written into `out`: [`Bitmap::and_into`].
    ///
    /// # Errors
    /// [`Error::LengthsDiffer`], and the refusals of [`Room`].
    #[inline]
    pub fn and_into<'b>(
        &self,
        other: impl Into<Bitmap<'b>>,
        out: &mut (impl Room + ?Sized),
    ) -> Result<(), Error> {
        self.as_bitmap().and_into(other, out)
    }

    /// The values that are true in one or in both: [`Bitmap::or`].
    ///
    /// # Errors
    /// [`Error::LengthsDiffer`], and [`Error::OutOfMemory`].
    #[doc(alias("bitor", "|"))]
    #[inline]
    pub fn or<'b>(&self, other: impl Into<Bitmap<'b>>) -> Result<BitmapBuf, Error> {
        self.as_bitmap().or(other)
    }

    /// The same, written into `out`: [`Bitmap::or_into`].
    ///
    /// # Errors
    /// [`Error::LengthsDiffer`], and the refusals of [`Room`].
    #[inline]
    pub fn or_into<'b>(
        &self,
        other: impl Into<Bitmap<'b>>,
        out: &mut (impl Room + ?Sized),
    ) -> Result<(), Error> {
        self.as_bitmap().or_into(other, out)
    }

    /// The values that are true here and not in `other`: [`Bitmap::and_not`].
    ///
    /// # Errors
    /// [`Error::LengthsDiffer`], and [`Error::OutOfMemory`].
    #[doc(alias = "bitand_not")]
    #[inline]
    pub fn and_not<'b>(&self, other: impl Into<Bitmap<'b>>) -> Result<BitmapBuf, Error> {
        self.as_bitmap().and_not(other)
    }

    /// The same, written into `out`: [`Bitmap::and_not_into`].
    ///
    /// # Errors
    /// [`Error::LengthsDiffer`], and the refusals of [`Room`].
    #[inline]
    pub fn and_not_into<'b>(
        &self,
        other: impl Into<Bitmap<'b>>,
        out: &mut (impl Room + ?Sized),
    ) -> Result<(), Error> {
        self.as_bitmap().and_not_into(other, out)
    }

    /// The values that are true in one and not in the other: [`Bitmap::xor`].
    ///
    /// # Errors
    /// [`Error::LengthsDiffer`], and [`Error::OutOfMemory`].
    #[doc(alias("bitxor", "^"))]
    #[inline]
    pub fn xor<'b>(&self, other: impl Into<Bitmap<'b>>) -> Result<BitmapBuf, Error> {
        self.as_bitmap().xor(other)
    }

    /// The same, written into `out`: [`Bitmap::xor_into`].
    ///
    /// # Errors
    /// [`Error::LengthsDiffer`], and the refusals of [`Room`].
    #[inline]
    pub fn xor_into<'b>(
        &self,
        other: impl Into<Bitmap<'b>>,
        out: &mut (impl Room + ?Sized),
    ) -> Result<(), Error> {
        self.as_bitmap().xor_into(other, out)
    }

    /// Each value negated, written into `out`: [`Bitmap::not_into`]. [`negate`](BitmapBuf::negate) does it in place.
    ///
    /// # Errors
    /// The refusals of [`Room`].
    #[inline]
    pub fn not_into(&self, out: &mut (impl Room + ?Sized)) -> Result<(), Error> {
        self.as_bitmap().not_into(out)
    }

    /// The same values, written into `out`: [`Bitmap::copy_into`].
    ///
    /// # Errors
    /// The refusals of [`Room`].
    #[inline]
    pub fn copy_into(&self, out: &mut (impl Room + ?Sized)) -> Result<(), Error> {
        self.as_bitmap().copy_into(out)
    }

    /// How many values are true in both: [`Bitmap::and_count`].
    ///
    /// # Errors
    /// [`Error::LengthsDiffer`].
    #[inline]
    pub fn and_count<'b>(&self, other: impl Into<Bitmap<'b>>) -> Result<usize, Error> {
        self.as_bitmap().and_count(other)
    }

    /// Whether some value is true in both: [`Bitmap::intersects`].
    ///
    /// # Errors
    /// [`Error::LengthsDiffer`].
    #[inline]
    pub fn intersects<'b>(&self, other: impl Into<Bitmap<'b>>) -> Result<bool, Error> {
        self.as_bitmap().intersects(other)
    }

    /// Whether each true value of this one is true in `other`: [`Bitmap::is_subset`].
    ///
    /// # Errors
    /// [`Error::LengthsDiffer`].
    #[inline]
    pub fn is_subset<'b>(&self, other: impl Into<Bitmap<'b>>) -> Result<bool, Error> {
        self.as_bitmap().is_subset(other)
    }

    /// The bitmap narrowed by another over its true values: [`Bitmap::intersect_by_rank`].
    ///
    /// # Errors
    /// [`Error::RanksDiffer`], and [`Error::OutOfMemory`].
    #[inline]
    pub fn intersect_by_rank<'b>(&self, ranks: impl Into<Bitmap<'b>>) -> Result<BitmapBuf, Error> {
        self.as_bitmap().intersect_by_rank(ranks)
    }

    /// The same, written into `out`: [`Bitmap::intersect_by_rank_into`].
    ///
    /// # Errors
    /// [`Error::RanksDiffer`], and the refusals of [`Room`].
    #[inline]
    pub fn intersect_by_rank_into<'b>(
        &self,
        ranks: impl Into<Bitmap<'b>>,
        out: &mut (impl Room + ?Sized),
    ) -> Result<(), Error> {
        self.as_bitmap().intersect_by_rank_into(ranks, out)
    }

    /// Just those true values whose numbers are `ranks`: [`Bitmap::intersect_at_ranks`].
    ///
    /// # Errors
    /// Those of [`Bitmap::intersect_at_ranks`].
    #[inline]
    pub fn intersect_at_ranks(&self, ranks: &[usize]) -> Result<BitmapBuf, Error> {
        self.as_bitmap().intersect_at_ranks(ranks)
    }

    /// The same, written into `out`: [`Bitmap::intersect_at_ranks_into`].
    ///
    /// # Errors
    /// Those of [`Bitmap::intersect_at_ranks_into`].
    #[inline]
    pub fn intersect_at_ranks_into(
        &self,
        ranks: &[usize],
        out: &mut (impl Room + ?Sized),
    ) -> Result<(), Error> {
        self.as_bitmap().intersect_at_ranks_into(ranks, out)
    }

    /// The rows at the true values: [`Bitmap::choose`].
    ///
    /// # Errors
    /// [`Error::RowsDiffer`], and [`Error::OutOfMemory`].
    #[doc(alias = "filter")]
    #[inline]
    pub fn choose<T: Row>(&self, rows: &[T]) -> Result<Vec<T>, Error> {
        self.as_bitmap().choose(rows)
    }

    /// The same, after the items of a list: [`Bitmap::choose_append`].
    ///
    /// # Errors
    /// [`Error::RowsDiffer`], and [`Error::OutOfMemory`].
    #[inline]
    pub fn choose_append<T: Row>(&self, rows: &[T], list: &mut Vec<T>) -> Result<(), Error> {
        self.as_bitmap().choose_append(rows, list)
    }

    /// The same, to the front of `out`: [`Bitmap::choose_into`].
    ///
    /// # Errors
    /// [`Error::RowsDiffer`], and [`Error::RoomTooSmall`].
    #[inline]
    pub fn choose_into<T: Row>(&self, rows: &[T], out: &mut [T]) -> Result<usize, Error> {
        self.as_bitmap().choose_into(rows, out)
    }

    /// The values of another bitmap at the true values: [`Bitmap::choose_bits`]. Of a mask it is called `choose_values`.
    ///
    /// # Errors
    /// [`Error::RowsDiffer`], and [`Error::OutOfMemory`].
    #[doc(alias("choose_values", "filter"))]
    #[inline]
    pub fn choose_bits<'b>(&self, bits: impl Into<Bitmap<'b>>) -> Result<BitmapBuf, Error> {
        self.as_bitmap().choose_bits(bits)
    }

    /// The same, written into `out`: [`Bitmap::choose_bits_into`].
    ///
    /// # Errors
    /// [`Error::RowsDiffer`], and the refusals of [`Room`].
    #[inline]
    pub fn choose_bits_into<'b>(
        &self,
        bits: impl Into<Bitmap<'b>>,
        out: &mut (impl Room + ?Sized),
    ) -> Result<usize, Error> {
        self.as_bitmap().choose_bits_into(bits, out)
    }
}
