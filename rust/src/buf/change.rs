//! Changes in place.

use crate::bitmap::range_within;
use crate::bitmap::room::reserve;
use crate::kit::unchecked::put_lowest;
use crate::memory::granted;
use crate::native::levelled;
use crate::proved::mask_bits::and_rows::and_rows_in_place;
use crate::proved::mask_bits::words::word_at;
use crate::proved::mask_c;
use crate::words::{for_each_bit, number_of};
use crate::{Bitmap, BitmapBuf, Error};
use core::ops::{Range, RangeBounds};

// So many values are one word with those of a byte that isn't full.
const FEW: usize = 56;

impl BitmapBuf {
    /// Negates each value, in place.
    pub fn negate(&mut self) {
        mask_c::row_mask_not_in_place(&mut self.bytes, self.len);
    }

    /// Makes all values of a range true, or all false.
    ///
    /// # Errors
    /// [`Error::BadRange`] where it is no range of the values.
    pub fn fill_range(&mut self, range: impl RangeBounds<usize>, value: bool) -> Result<(), Error> {
        let Range { start, end } = range_within(&range, self.len)?;
        mask_c::row_mask_fill_range(&mut self.bytes, start, end, value);
        Ok(())
    }

    /// Writes the values of a bitmap in the place of those from `start` on, as many as it has: a part that was changed by
    /// itself, such as that of a page, goes back to where it was.
    ///
    /// ```
    /// let mut rows = row_mask::BitmapBuf::all_true(6);
    /// rows.write_at(2, &row_mask::BitmapBuf::all_false(3))?;
    /// assert_eq!(rows.to_string(), "110001");
    /// # Ok::<(), row_mask::Error>(())
    /// ```
    ///
    /// # Errors
    /// [`Error::BadRange`] where they would pass the last value.
    #[doc(alias = "copy_from_bitslice")]
    pub fn write_at<'a>(
        &mut self,
        start: usize,
        values: impl Into<Bitmap<'a>>,
    ) -> Result<(), Error> {
        let values = values.into();
        range_within(&(start..start.saturating_add(values.len())), self.len)?;
        let (bytes, offset, len) = (values.bytes(), values.offset(), values.len());
        mask_c::row_mask_write_at(&mut self.bytes, start, bytes, offset, len);
        Ok(())
    }

    /// Leaves the first `k` true values true and no other, in place: [`Bitmap::limit`].
    #[doc(alias = "limit")]
    pub fn keep_first(&mut self, k: usize) {
        let end = self.select(k).unwrap_or(self.len);
        mask_c::row_mask_fill_range(&mut self.bytes, end, self.len, false);
    }

    /// Makes the first `k` true values false, in place: [`Bitmap::without_first`].
    #[doc(alias("offset", "skip"))]
    pub fn drop_first(&mut self, k: usize) {
        let end = self.as_bitmap().end_of_first(k);
        mask_c::row_mask_fill_range(&mut self.bytes, 0, end, false);
    }

    /// Makes value `i` true, or false.
    ///
    /// # Errors
    /// [`Error::IndexOutOfBounds`] where there is no such value.
    #[inline]
    pub fn set(&mut self, i: usize, value: bool) -> Result<(), Error> {
        Error::IndexOutOfBounds { index: i, len: self.len }.unless(i < self.len)?;
        let (byte, bit) = (&mut self.bytes[i / 8], 1 << (i % 8));
        *byte = if value { *byte | bit } else { *byte & !bit };
        Ok(())
    }

    /// Makes value `i` false where it is true, and true where it is false.
    ///
    /// # Errors
    /// [`Error::IndexOutOfBounds`] where there is no such value.
    #[doc(alias = "flip")]
    #[inline]
    pub fn toggle(&mut self, i: usize) -> Result<(), Error> {
        Error::IndexOutOfBounds { index: i, len: self.len }.unless(i < self.len)?;
        self.bytes[i / 8] ^= 1 << (i % 8);
        Ok(())
    }

    /// Leaves those true values true of whose indices `is_kept` says so, in place. It is asked of true values alone, in
    /// their order: a predicate over the rows that others left. [`retain_rows`](Self::retain_rows) takes less time where
    /// the rows are a slice, and many are left.
    ///
    /// ```
    /// let prices = [250, 700, 120, 90];
    /// let mut rows = row_mask::BitmapBuf::from(&[true, true, false, true][..]);
    /// rows.retain(|row| prices[row] < 400);
    /// assert_eq!(rows.to_string(), "1001");
    /// ```
    pub fn retain(&mut self, mut is_kept: impl FnMut(usize) -> bool) {
        retain(&mut self.bytes, &mut is_kept);
    }

    /// Leaves those values true of whose rows a test says so, in place: the next predicate over a column's rows. The test
    /// is a plain function of a row: where few of 64 rows are left it is asked of these alone, and where many are, of all
    /// 64 together, so that some are asked for nothing. Of a test that changes something, or that takes long of rows of
    /// fewer than 16 bytes, as a look-up does, [`retain`](Self::retain) asks true values alone. Of a quick test of wider
    /// rows, such as a string's length, [`from_rows`](Self::from_rows) and [`and_with`](Self::and_with) take less time where
    /// half are left.
    ///
    /// ```
    /// let prices = [250, 700, 120, 90];
    /// let mut rows = row_mask::BitmapBuf::from(&[true, true, false, true][..]);
    /// rows.retain_rows(&prices, |price| *price < 400)?;
    /// assert_eq!(rows.to_string(), "1001");
    /// # Ok::<(), row_mask::Error>(())
    /// ```
    ///
    /// # Errors
    /// [`Error::RowsDiffer`].
    pub fn retain_rows<T>(
        &mut self,
        rows: &[T],
        is_kept: impl Fn(&T) -> bool,
    ) -> Result<(), Error> {
        Error::RowsDiffer { rows: rows.len(), len: self.len }.unless(rows.len() == self.len)?;
        and_rows_in_place(&mut self.bytes, rows, &mut { is_kept });
        mask_c::clear_behind(&mut self.bytes, self.len);
        Ok(())
    }

    /// Forgets all values, and keeps the memory.
    pub fn clear(&mut self) {
        self.bytes.clear();
        self.len = 0;
    }

    /// Forgets the values from the first `len` on, if there are more, and keeps the memory.
    pub fn truncate(&mut self, len: usize) {
        if len < self.len {
            self.bytes.truncate(mask_c::row_mask_room(len));
            mask_c::clear_behind(&mut self.bytes, len);
            self.len = len;
        }
    }

    /// Has memory for so many values more, at least.
    pub fn reserve(&mut self, more: usize) {
        granted(self.try_reserve(more), self.len.saturating_add(more));
    }

    /// As [`reserve`](BitmapBuf::reserve), of a number that may be any.
    ///
    /// # Errors
    /// [`Error::OutOfMemory`].
    pub fn try_reserve(&mut self, more: usize) -> Result<(), Error> {
        let more = mask_c::row_mask_room(self.len.saturating_add(more)) - self.bytes.len();
        reserve(&mut self.bytes, more)
    }

    /// Adds a value after the last one.
    #[inline]
    pub fn push(&mut self, value: bool) {
        let bit = self.len % 8;
        match self.bytes.last_mut() {
            Some(last) if bit > 0 => *last |= u8::from(value) << bit,
            _ => self.bytes.push(u8::from(value)),
        }
        self.len += 1;
    }

    /// Adds a value `n` times after the last one.
    ///
    /// ```
    /// let mut rows = row_mask::BitmapBuf::all_false(2);
    /// rows.append_n(true, 3);
    /// assert_eq!(rows.to_string(), "00111");
    /// ```
    pub fn append_n(&mut self, value: bool, n: usize) {
        self.reserve(n);
        let (bit, end) = (self.len % 8, self.len.saturating_add(n));
        let byte = if value { 0xFF } else { 0 };
        match self.bytes.last_mut() {
            Some(last) if bit > 0 => *last |= byte << bit,
            _ => {}
        }
        self.bytes.resize(mask_c::row_mask_room(end), byte);
        self.len = end;
        mask_c::clear_behind(&mut self.bytes, end);
    }

    /// Has `len` values: it forgets those from there on, or adds values that are all `value` after the last one.
    ///
    /// ```
    /// let mut rows = row_mask::BitmapBuf::all_false(2);
    /// rows.resize(4, true);
    /// assert_eq!(rows.to_string(), "0011");
    /// rows.resize(3, true);
    /// assert_eq!(rows.to_string(), "001");
    /// ```
    pub fn resize(&mut self, len: usize, value: bool) {
        self.truncate(len);
        self.append_n(value, len - self.len);
    }

    /// Adds the values of a bitmap after the last value.
    #[inline]
    pub fn append<'a>(&mut self, more: impl Into<Bitmap<'a>>) {
        let more = more.into();
        if more.len() <= FEW && self.bytes.capacity() - self.bytes.len() >= size_of::<u64>() {
            return self.append_few(more);
        }
        self.append_more(more);
    }

    // Adds few values, where there is memory for a word more: with those of the byte that isn't full they are one.
    #[inline]
    fn append_few(&mut self, more: Bitmap<'_>) {
        let (whole, bit) = (self.len / 8, self.len % 8);
        let begun = self.bytes.get(whole).map_or(0, |byte| u64::from(*byte));
        let word = word_at(more.bytes(), more.offset()) & !(u64::MAX << more.len());
        self.len += more.len();
        self.bytes.truncate(whole);
        self.bytes.extend_from_slice(&(begun | word << bit).to_le_bytes());
        self.bytes.truncate(mask_c::row_mask_room(self.len));
    }

    fn append_more(&mut self, more: Bitmap<'_>) {
        let len = self.len.saturating_add(more.len());
        self.bytes.resize(mask_c::row_mask_room(len), 0);
        mask_c::row_mask_append(&mut self.bytes, self.len, more.bytes(), more.offset(), more.len());
        self.len = len;
    }
}

levelled! {
    fn retain(bytes: &mut [u8], is_kept: &mut impl FnMut(usize) -> bool) {
        let (whole, last) = bytes.as_chunks_mut();
        let end = 64 * whole.len();
        for (first, bytes) in (0..).step_by(64).zip(whole) {
            *bytes = kept_of(first, u64::from_le_bytes(*bytes), is_kept).to_le_bytes();
        }
        put_lowest(kept_of(end, number_of(last), is_kept), last);
    }
}

// Those true values of a word of whose indices `is_kept` says so, where this is the index of its first value.
#[expect(clippy::inline_always, reason = "it is compiled for what the function around it has")]
#[inline(always)]
fn kept_of(first: usize, word: u64, is_kept: &mut impl FnMut(usize) -> bool) -> u64 {
    let mut kept = 0;
    for_each_bit(word, |bit| kept |= u64::from(is_kept(first + bit as usize)) << bit);
    kept
}
