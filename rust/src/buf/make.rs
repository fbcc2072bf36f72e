//! What a bitmap of its own bytes is made of.

use super::pack::{AHEAD, pack_first, pack_fn, pack_rows};
use crate::bitmap::range_within;
use crate::bitmap::room::{append_to, as_items, made};
use crate::kit::zeros;
use crate::memory::granted;
use crate::proved::mask_c;
use crate::row_index::are_within;
use crate::{Bitmap, BitmapBuf, Error, Room};
use alloc::vec::Vec;
use core::ops::Range;

impl BitmapBuf {
    /// No value, with memory for so many.
    #[must_use]
    pub fn with_capacity(len: usize) -> BitmapBuf {
        granted(BitmapBuf::try_with_capacity(len), len)
    }

    /// As [`with_capacity`](Self::with_capacity), of a length that may be any.
    ///
    /// # Errors
    /// [`Error::OutOfMemory`].
    pub fn try_with_capacity(len: usize) -> Result<BitmapBuf, Error> {
        let mut made = BitmapBuf::default();
        made.try_reserve(len)?;
        Ok(made)
    }

    /// So many values, all false.
    #[must_use]
    pub fn all_false(len: usize) -> BitmapBuf {
        granted(BitmapBuf::try_all_false(len), len)
    }

    /// As [`all_false`](Self::all_false), of a length that may be any.
    ///
    /// # Errors
    /// [`Error::OutOfMemory`].
    pub fn try_all_false(len: usize) -> Result<BitmapBuf, Error> {
        let bytes = mask_c::row_mask_room(len);
        Ok(BitmapBuf { bytes: zeros(bytes).map_err(|_| Error::OutOfMemory { bytes })?, len })
    }

    /// So many values, all true.
    #[must_use]
    pub fn all_true(len: usize) -> BitmapBuf {
        granted(BitmapBuf::try_all_true(len), len)
    }

    /// As [`all_true`](Self::all_true), of a length that may be any.
    ///
    /// # Errors
    /// [`Error::OutOfMemory`].
    pub fn try_all_true(len: usize) -> Result<BitmapBuf, Error> {
        made(|out| BitmapBuf::all_into(len, true, out))
    }

    /// So many values, all of them `value`, written into `out`.
    ///
    /// # Errors
    /// The refusals of [`Room`].
    pub fn all_into(len: usize, value: bool, out: &mut (impl Room + ?Sized)) -> Result<(), Error> {
        // SAFETY: each byte is filled, and none is read before.
        unsafe {
            out.write(len, |out| {
                out.fill(if value { 0xFF } else { 0 });
                mask_c::clear_behind(out, len);
            })
        }
    }

    /// `value(0)`, `value(1)` and so on. Where there is no memory, no value is asked for.
    #[must_use]
    pub fn from_fn(len: usize, value: impl FnMut(usize) -> bool) -> BitmapBuf {
        granted(BitmapBuf::try_from_fn(len, value), len)
    }

    /// As [`from_fn`](Self::from_fn), of a length that may be any.
    ///
    /// # Errors
    /// [`Error::OutOfMemory`].
    pub fn try_from_fn(len: usize, value: impl FnMut(usize) -> bool) -> Result<BitmapBuf, Error> {
        made(|out| BitmapBuf::from_fn_into(len, value, out))
    }

    /// As [`from_fn`](Self::from_fn), written into `out`.
    ///
    /// # Errors
    /// The refusals of [`Room`].
    pub fn from_fn_into(
        len: usize,
        value: impl FnMut(usize) -> bool,
        out: &mut (impl Room + ?Sized),
    ) -> Result<(), Error> {
        // SAFETY: it writes each byte, and reads none before.
        unsafe { out.write(len, |out| pack_fn(len, value, out)) }
    }

    /// A list of truth values, written into `out`. `BitmapBuf::from` makes a bitmap of one.
    ///
    /// # Errors
    /// The refusals of [`Room`].
    pub fn from_bools_into(values: &[bool], out: &mut (impl Room + ?Sized)) -> Result<(), Error> {
        // SAFETY: the loop writes each byte, and reads none before.
        unsafe { out.write(values.len(), |out| mask_c::row_mask_from_bools(values, out)) }
    }

    /// For each row whether it is one that is asked for: a predicate over a column. It takes less time than the same by
    /// [`collect`](Iterator::collect) or [`from_fn`](Self::from_fn), which are for rows that are in no slice.
    ///
    /// ```
    /// let rows = row_mask::BitmapBuf::from_rows(&[250, 700, 120], |price| *price < 400);
    /// assert_eq!(rows.to_string(), "101");
    /// ```
    #[must_use]
    pub fn from_rows<T>(rows: &[T], is_true: impl FnMut(&T) -> bool) -> BitmapBuf {
        granted(made(|out| BitmapBuf::from_rows_into(rows, is_true, out)), rows.len())
    }

    /// As [`from_rows`](Self::from_rows), written into `out`.
    ///
    /// # Errors
    /// The refusals of [`Room`].
    pub fn from_rows_into<T>(
        rows: &[T],
        is_true: impl FnMut(&T) -> bool,
        out: &mut (impl Room + ?Sized),
    ) -> Result<(), Error> {
        // SAFETY: it writes each byte, and reads none before.
        unsafe { out.write(rows.len(), |out| pack_rows(rows, is_true, out)) }
    }

    /// As [`collect`](Iterator::collect) makes a bitmap, written into `out`. `values` have to know how many they are;
    /// of others [`extend`](Extend::extend) fills a bitmap that was cleared, in the memory that it has. Of values that
    /// turn out more, the first are taken; where they turn out fewer, a [`BitmapBuf`] has just these, and bytes of the
    /// caller have false ones for the others.
    ///
    /// ```
    /// let (column, mut bytes) = ([7, 2, 9], [0; 1]);
    /// row_mask::BitmapBuf::collect_into(column.iter().map(|it| *it > 5), &mut bytes[..])?;
    /// assert_eq!(bytes, [0b101]);
    /// # Ok::<(), row_mask::Error>(())
    /// ```
    ///
    /// # Errors
    /// The refusals of [`Room`].
    pub fn collect_into(
        values: impl IntoIterator<Item = bool, IntoIter: ExactSizeIterator>,
        out: &mut (impl Room + ?Sized),
    ) -> Result<(), Error> {
        let (values, mut count) = (values.into_iter(), 0);
        let len = values.len();
        // SAFETY: it writes each byte, and reads none before.
        unsafe { out.write(len, |out| count = pack_first(len, values, out))? };
        out.keep(count);
        Ok(())
    }

    /// `len` values, of which just those at `indices` are true. These may come in any order and more than once. What an
    /// iterator gives is collected to a `Vec<usize>` first, or each is [`set`](Self::set).
    ///
    /// # Errors
    /// [`Error::IndexOutOfBounds`] with the first that is not below the length, and [`Error::OutOfMemory`].
    pub fn from_indices(len: usize, indices: &[usize]) -> Result<BitmapBuf, Error> {
        made(|out| BitmapBuf::from_indices_into(len, indices, out))
    }

    /// As [`from_indices`](Self::from_indices), written into `out`.
    ///
    /// # Errors
    /// [`Error::IndexOutOfBounds`] with the first that is not below the length, and the refusals of [`Room`].
    pub fn from_indices_into(
        len: usize,
        indices: &[usize],
        out: &mut (impl Room + ?Sized),
    ) -> Result<(), Error> {
        are_within(indices, len)?;
        // SAFETY: the loop writes each byte, and reads none before.
        unsafe { out.write(len, |out| mask_c::row_mask_from_indices(indices, len, out)) }
    }

    /// As [`from_indices`](Self::from_indices), of indices of 4 bytes.
    ///
    /// ```
    /// let rows = row_mask::BitmapBuf::from_indices_u32(5, &[3, 0, 3])?;
    /// assert_eq!(rows.to_string(), "10010");
    /// # Ok::<(), row_mask::Error>(())
    /// ```
    ///
    /// # Errors
    /// As there.
    pub fn from_indices_u32(len: usize, indices: &[u32]) -> Result<BitmapBuf, Error> {
        made(|out| BitmapBuf::from_indices_u32_into(len, indices, out))
    }

    /// As [`from_indices_into`](Self::from_indices_into), of indices of 4 bytes.
    ///
    /// # Errors
    /// As there.
    pub fn from_indices_u32_into(
        len: usize,
        indices: &[u32],
        out: &mut (impl Room + ?Sized),
    ) -> Result<(), Error> {
        are_within(indices, len)?;
        // SAFETY: the loop writes each byte, and reads none before.
        unsafe { out.write(len, |out| mask_c::row_mask_from_indices_4(indices, len, out)) }
    }

    /// `len` values, of which just those within the ranges are true. These may come in any order, and overlap. Each is
    /// tested when it comes, and memory for more than 2²³ values is asked for when one reaches past these, or all were
    /// tested.
    ///
    /// Ranges in the order of their starts take the time of their union, even if they overlap. In another order each may
    /// be filled anew: at worst the time grows with the sum of their lengths. Sort untrusted ranges first.
    ///
    /// # Errors
    /// [`Error::BadRange`] with the first that is no range of the values, and [`Error::OutOfMemory`].
    pub fn from_ranges(
        len: usize,
        ranges: impl IntoIterator<Item = Range<usize>>,
    ) -> Result<BitmapBuf, Error> {
        let (mut made, near, mut run) = (BitmapBuf::default(), len.min(8 * AHEAD), 0..0);
        for range in ranges {
            let range = range_within(&range, len)?;
            if range.end > made.len {
                made.lengthen(if range.end > near { len } else { near })?;
            }
            fill(&mut made.bytes, &mut run, range);
        }
        made.lengthen(len)?;
        Ok(made)
    }

    /// As [`from_ranges`](Self::from_ranges) of a list, written into `out`.
    ///
    /// # Errors
    /// [`Error::BadRange`] as there. The refusals of [`Room`].
    pub fn from_ranges_into(
        len: usize,
        ranges: &[Range<usize>],
        out: &mut (impl Room + ?Sized),
    ) -> Result<(), Error> {
        ranges.iter().try_for_each(|range| range_within(range, len).map(|_| ()))?;
        // SAFETY: each byte is filled, and none is read before.
        unsafe {
            out.write(len, |out| {
                out.fill(0);
                let mut run = 0..0;
                for range in ranges {
                    fill(out, &mut run, range.clone());
                }
            })
        }
    }

    /// The `len` values from bit `offset` on of bytes that are given away. From bit 0 on they are kept in place, and
    /// else they are copied.
    ///
    /// ```
    /// let rows = row_mask::BitmapBuf::from_vec(vec![0b1110_1101, 7], 0, 5)?;
    /// assert_eq!(rows.into_bytes(), [0b0_1101]);
    /// # Ok::<(), row_mask::Error>(())
    /// ```
    ///
    /// # Errors
    /// [`Error::OutOfBytes`] where they are not within the bytes, and [`Error::OutOfMemory`] where they are copied.
    pub fn from_vec(bytes: Vec<u8>, offset: usize, len: usize) -> Result<BitmapBuf, Error> {
        let bitmap = Bitmap::new(&bytes, offset, len)?;
        if offset > 0 {
            return made(|out| bitmap.copy_into(out));
        }
        Ok(BitmapBuf::of_bytes(bytes, len))
    }

    // The first `len` values of bytes that have as many.
    pub(crate) fn of_bytes(bytes: Vec<u8>, len: usize) -> BitmapBuf {
        let mut made = BitmapBuf { len: bytes.len().saturating_mul(8), bytes };
        made.truncate(len);
        made
    }

    /// The values of bitmaps, one after another.
    #[must_use]
    pub fn concat<'a>(bitmaps: impl IntoIterator<Item: Into<Bitmap<'a>>>) -> BitmapBuf {
        let mut made = BitmapBuf::default();
        bitmaps.into_iter().for_each(|bitmap| made.append(bitmap));
        made
    }

    /// As [`concat`](Self::concat) of a list, written into `out`.
    ///
    /// # Errors
    /// The refusals of [`Room`].
    pub fn concat_into<'a>(
        bitmaps: &[impl Into<Bitmap<'a>> + Copy],
        out: &mut (impl Room + ?Sized),
    ) -> Result<(), Error> {
        let bitmaps = || bitmaps.iter().map(|it| (*it).into());
        let len = bitmaps().fold(0, |len: usize, it| len.saturating_add(it.len()));
        // SAFETY: each byte is filled, and none is read before.
        unsafe {
            out.write(len, |out| {
                out.fill(0);
                bitmaps().fold(0, |len, it| {
                    mask_c::row_mask_append(out, len, it.bytes(), it.offset(), it.len());
                    len + it.len()
                });
            })
        }
    }

    // Adds the `len` values that `fill` writes into room for them, if there is memory.
    // SAFETY of a call: it writes each byte that it gets, and reads none before; the last byte has eight values.
    pub(crate) unsafe fn add(
        &mut self,
        len: usize,
        fill: impl FnOnce(&mut [u8]),
    ) -> Result<(), Error> {
        let bytes = mask_c::row_mask_room(len);
        // SAFETY: this is what is asked here too.
        unsafe { append_to(&mut self.bytes, bytes, |out| fill(as_items(out)))? };
        self.len += len;
        Ok(())
    }

    // Adds false values up to `len`, where there are not as many, if there is memory.
    fn lengthen(&mut self, len: usize) -> Result<(), Error> {
        if len > self.len {
            let mut longer = BitmapBuf::try_all_false(len)?;
            longer.bytes[..self.bytes.len()].copy_from_slice(&self.bytes);
            *self = longer;
        }
        Ok(())
    }
}

// Has the values of a range be true. Those of a run are so already, and a range that begins in it, or at its end, makes it
// longer. Another range is the next run.
#[inline]
fn fill(bytes: &mut [u8], run: &mut Range<usize>, Range { start, end }: Range<usize>) {
    if start < run.start || run.end < start {
        *run = start..start;
    }
    if run.end < end {
        mask_c::row_mask_fill_range(bytes, run.end, end, true);
        run.end = end;
    }
}
