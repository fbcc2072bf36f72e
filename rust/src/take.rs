//! Rows, values and strings at a list of indices.

use crate::bitmap::room::{append_to, as_cells, as_items, as_places, first_of, list_of, made};
use crate::proved::mask_c::{bits_at, put_ends, put_strings, rows_at, take_offsets};
use crate::row_index::are_within;
use crate::{Bitmap, BitmapBuf, Error, Offset, Room, RowIndex, Strings};
use alloc::vec::Vec;

/// The rows at a list of indices, one for each, in the order of the list. Indices may come in any order and more than
/// once. [`Bitmap::take`] takes values, and [`Strings::take`] strings.
///
/// ```
/// let rows = ["a", "b", "c", "d"];
/// assert_eq!(row_mask::take(&[3_u32, 0, 3], &rows)?, ["d", "a", "d"]);
/// # Ok::<(), row_mask::Error>(())
/// ```
///
/// # Errors
/// [`Error::IndexOutOfBounds`] with the first index that no row has, and [`Error::OutOfMemory`].
#[doc(alias = "gather")]
pub fn take<T: Copy, I: RowIndex>(indices: &[I], rows: &[T]) -> Result<Vec<T>, Error> {
    are_within(indices, rows.len())?;
    // SAFETY: there is a place for each index, which is written.
    unsafe { list_of(indices.len(), |out| rows_at(indices, as_cells(rows), out)) }
}

/// As [`take`], after the items of a list.
///
/// # Errors
/// As there. Then the list is as it was.
pub fn take_append<T: Copy, I: RowIndex>(
    indices: &[I],
    rows: &[T],
    list: &mut Vec<T>,
) -> Result<(), Error> {
    are_within(indices, rows.len())?;
    // SAFETY: there is a place for each index, which is written.
    unsafe { append_to(list, indices.len(), |out| rows_at(indices, as_cells(rows), out)) }
}

/// As [`take`], to the front of `out`.
///
/// # Errors
/// [`Error::IndexOutOfBounds`] as there, and [`Error::RoomTooSmall`] where `out` has fewer items than there are indices.
pub fn take_into<T: Copy, I: RowIndex>(
    indices: &[I],
    rows: &[T],
    out: &mut [T],
) -> Result<(), Error> {
    are_within(indices, rows.len())?;
    let out = first_of(out, indices.len())?;
    // SAFETY: just rows are written, one to each place.
    rows_at(indices, as_cells(rows), unsafe { as_places(out) });
    Ok(())
}

impl Bitmap<'_> {
    /// The values at a list of indices, one for each, in the order of the list: the validity of a column whose rows
    /// [`take`] takes. Indices may come in any order and more than once.
    ///
    /// ```
    /// let valid = row_mask::Bitmap::new(&[0b0_1101], 0, 5)?;
    /// assert_eq!(valid.take(&[4_u32, 0, 3, 0])?.to_string(), "0111");
    /// # Ok::<(), row_mask::Error>(())
    /// ```
    ///
    /// # Errors
    /// [`Error::IndexOutOfBounds`] with the first index that no value has, and [`Error::OutOfMemory`].
    #[doc(alias = "gather")]
    pub fn take(self, indices: &[impl RowIndex]) -> Result<BitmapBuf, Error> {
        made(|out| self.take_into(indices, out))
    }

    /// As [`take`](Self::take), written into `out`.
    ///
    /// # Errors
    /// [`Error::IndexOutOfBounds`] as there, and the refusals of [`Room`].
    pub fn take_into(
        self,
        indices: &[impl RowIndex],
        out: &mut (impl Room + ?Sized),
    ) -> Result<(), Error> {
        are_within(indices, self.len)?;
        // SAFETY: the loop writes each byte, and reads none before.
        unsafe {
            out.write(indices.len(), |out| {
                bits_at(self.bytes(), self.offset(), self.len(), indices, out);
            })
        }
    }
}

impl BitmapBuf {
    /// The values at a list of indices: [`Bitmap::take`].
    ///
    /// # Errors
    /// [`Error::IndexOutOfBounds`], and [`Error::OutOfMemory`].
    #[doc(alias = "gather")]
    #[inline]
    pub fn take(&self, indices: &[impl RowIndex]) -> Result<BitmapBuf, Error> {
        self.as_bitmap().take(indices)
    }

    /// The same, written into `out`: [`Bitmap::take_into`].
    ///
    /// # Errors
    /// [`Error::IndexOutOfBounds`], and the refusals of [`Room`].
    #[inline]
    pub fn take_into(
        &self,
        indices: &[impl RowIndex],
        out: &mut (impl Room + ?Sized),
    ) -> Result<(), Error> {
        self.as_bitmap().take_into(indices, out)
    }
}

impl<O: Offset> Strings<'_, O> {
    /// The values at a list of indices, one for each, in the order of the list, as offsets and bytes of their own.
    /// Indices may come in any order and more than once.
    ///
    /// ```
    /// let names = row_mask::Strings::new(&[0_i32, 3, 6, 11], b"onetwothree")?;
    /// let (offsets, bytes) = names.take(&[2_u32, 0])?;
    /// assert_eq!((&offsets[..], &bytes[..]), (&[0, 5, 8][..], &b"threeone"[..]));
    /// # Ok::<(), row_mask::Error>(())
    /// ```
    ///
    /// # Errors
    /// [`Error::IndexOutOfBounds`] with the first index that no value has, [`Error::OffsetTooGreat`] where the values have
    /// more bytes than an offset counts, and [`Error::OutOfMemory`].
    #[doc(alias = "gather")]
    pub fn take(self, indices: &[impl RowIndex]) -> Result<(Vec<O>, Vec<u8>), Error> {
        let size = self.size_at(indices)?;
        // SAFETY: each place is written.
        unsafe {
            let offsets = list_of(indices.len() + 1, |out| self.ends_to(indices, as_items(out)))?;
            Ok((offsets, list_of(size, |out| self.taken_to(indices, as_items(out)))?))
        }
    }

    /// Writes where the values at a list of indices begin and end to the front of `out`, from 0 on, and returns how many
    /// bytes they have.
    ///
    /// # Errors
    /// [`Error::IndexOutOfBounds`] and [`Error::OffsetTooGreat`] as of [`take`](Self::take), and [`Error::RoomTooSmall`]
    /// where `out` has not one item more than there are indices.
    pub fn take_offsets(self, indices: &[impl RowIndex], out: &mut [O]) -> Result<usize, Error> {
        let size = self.size_at(indices)?;
        self.ends_to(indices, first_of(out, indices.len() + 1)?);
        Ok(size)
    }

    /// Writes the bytes of the values at a list of indices to the front of `out`, and returns how many these are.
    ///
    /// # Errors
    /// [`Error::IndexOutOfBounds`] and [`Error::OffsetTooGreat`] as of [`take`](Self::take), and [`Error::RoomTooSmall`]
    /// where `out` has fewer bytes.
    pub fn take_bytes(self, indices: &[impl RowIndex], out: &mut [u8]) -> Result<usize, Error> {
        let size = self.size_at(indices)?;
        self.taken_to(indices, first_of(out, size)?);
        Ok(size)
    }

    // How many bytes the values at these indices have, where an offset counts so many.
    fn size_at<I: RowIndex>(self, indices: &[I]) -> Result<usize, Error> {
        are_within(indices, self.len())?;
        let offsets = self.offsets();
        let size = indices.iter().fold(0_usize, |size, index| {
            let (start, end) = (offsets[index.get()].get(), offsets[index.get() + 1].get());
            size.saturating_add(end - start)
        });
        Error::OffsetTooGreat { offset: size }.unless(O::try_from(size).is_ok())?;
        Ok(size)
    }

    // Writes each place. Each index is that of a value, an offset counts the bytes of all, and there is one place more than
    // there are indices.
    fn ends_to<I: RowIndex>(self, indices: &[I], out: &mut [O]) {
        let (mut end, mut at) = (take_offsets(&[], self.offsets(), out), 1);
        I::in_blocks(indices, |block| {
            end = put_ends(block, self.offsets(), end, out, at);
            at += block.len();
        });
    }

    // Writes each place. Each index is that of a value, and there is a place for each byte of these.
    fn taken_to<I: RowIndex>(self, indices: &[I], out: &mut [u8]) {
        let mut at = 0;
        I::in_blocks(indices, |block| {
            at = put_strings(block, self.offsets(), self.bytes(), out, at);
        });
    }
}
