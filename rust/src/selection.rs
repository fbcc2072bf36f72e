//! The true values of a bitmap, read once for many columns.

use crate::bitmap::room::{
    append_rows, as_cells, as_items, as_places, first_of, list_of, made, reserve, rows_of,
};
use crate::native::{OF_A_RUN, choose_several, copy_runs};
use crate::proved::mask_bits::SetSlices;
use crate::proved::mask_bits::choose::rows_of_word::push_rows_one_by_one;
use crate::proved::mask_bits::output::Lent;
use crate::proved::mask_c;
use crate::row_index::InBlocks;
use crate::{Bitmap, BitmapBuf, Error, Room, Row};
use alloc::vec::Vec;
use core::fmt;
use core::mem::MaybeUninit;

mod strings;

/// The true values of a [`Bitmap`], read once, to choose the rows, bits and strings of many columns. It keeps the
/// bitmap, and beside it the indices of the true values, or their runs where these are long.
///
/// Indices take 4 bytes a true value, so up to 32 times the bytes of the bitmap. Runs take 16 bytes each, and are kept
/// where they have more than 24 values on the average. Above 2^32 - 1 values any runs are kept, which may take 64 times
/// the bytes.
///
/// ```
/// use row_mask::{Bitmap, Selection};
///
/// let chosen = Selection::new(Bitmap::new(&[0b0_1101], 0, 5)?);
/// assert_eq!(chosen.choose(&[10, 11, 12, 13, 14])?, [10, 12, 13]);
/// assert_eq!(chosen.choose_bits(Bitmap::new(&[0b1_0110], 0, 5)?)?.to_string(), "010");
/// # Ok::<(), row_mask::Error>(())
/// ```
#[derive(Clone)]
pub struct Selection {
    bitmap: BitmapBuf,
    count: usize,
    kept: Kept,
}

// What is kept beside the bitmap. (No proved loop takes runs.)
#[derive(Clone)]
enum Kept {
    // of at most 64 values, where few are true
    Word(u64),
    Indices(Vec<u32>),
    // each by its first index and the one past its last; also where an index may have more than 4 bytes
    Runs(Vec<(usize, usize)>),
}

// Of so few values, their indices take the least time.
const FEW_VALUES: usize = 128;

impl Kept {
    // Of a bitmap that begins at bit 0, and has so many true values.
    fn of(bitmap: Bitmap<'_>, count: usize) -> Result<Kept, Error> {
        let (bytes, len, mut runs) = (bitmap.bytes(), bitmap.len(), count);
        if count >= OF_A_RUN {
            // (a run begins where no true value is just before)
            runs -= mask_c::row_mask_and_count(bytes, 1, bytes, 0, len - 1);
        }
        if OF_A_RUN * runs < count || u32::try_from(len).is_err() {
            let mut list = Vec::new();
            reserve(&mut list, runs)?;
            list.extend(SetSlices::new(bitmap.chunks()));
            return Ok(Kept::Runs(list));
        }
        if len <= 64 && count < OF_A_RUN {
            return Ok(Kept::Word(bitmap.chunks().iter_padded().next().unwrap_or(0)));
        }
        // SAFETY: each place is written, since so many values are true.
        let indices = unsafe { list_of(count, |out| _ = bitmap.narrow_indices(0, as_items(out)))? };
        Ok(Kept::Indices(indices))
    }
}

impl Selection {
    /// Reads a [`Bitmap`], or behind a reference a [`BitmapBuf`], a [`BitBuffer`](crate::BitBuffer) or a
    /// [`Mask`](crate::Mask).
    ///
    /// ```
    /// use row_mask::{Mask, Selection};
    ///
    /// let mask = Mask::from_indices(4, [1, 3]);
    /// assert_eq!(Selection::new(&mask).choose(&[10, 11, 12, 13])?, [11, 13]);
    /// # Ok::<(), row_mask::Error>(())
    /// ```
    #[must_use]
    pub fn new(rows: impl Into<Selection>) -> Selection {
        rows.into()
    }

    /// As [`new`](Self::new), of a bitmap that may have any length. It takes no memory but what a [`Selection`] keeps. Of a
    /// mask, pass `&mask.try_to_bit_buffer()?`.
    ///
    /// # Errors
    /// [`Error::OutOfMemory`].
    pub fn try_new<'a>(bitmap: impl Into<Bitmap<'a>>) -> Result<Selection, Error> {
        Selection::of(made(|out| bitmap.into().copy_into(out))?)
    }

    // Reads a bitmap, and keeps it.
    pub(crate) fn of(bitmap: BitmapBuf) -> Result<Selection, Error> {
        let count = bitmap.count();
        let kept = Kept::of(bitmap.as_bitmap(), count)?;
        Ok(Selection { bitmap, count, kept })
    }

    /// How many rows a column has.
    #[must_use]
    #[inline]
    pub fn len(&self) -> usize {
        self.bitmap.len
    }

    /// Whether a column has no rows.
    #[must_use]
    #[inline]
    pub fn is_empty(&self) -> bool {
        self.bitmap.is_empty()
    }

    /// How many rows are chosen. Of a mask it is called `true_count`.
    #[doc(alias = "true_count")]
    #[must_use]
    #[inline]
    pub fn count(&self) -> usize {
        self.count
    }

    /// The bitmap that was read.
    #[must_use]
    #[inline]
    pub fn as_bitmap(&self) -> Bitmap<'_> {
        self.bitmap.as_bitmap()
    }

    /// The chosen values of a bitmap, such as the validity of a column. Of a mask it is called `choose_values`.
    ///
    /// # Errors
    /// [`Error::RowsDiffer`] where the bitmap has not [`len`](Self::len) values, and [`Error::OutOfMemory`].
    #[doc(alias("choose_values", "filter"))]
    pub fn choose_bits<'b>(&self, bits: impl Into<Bitmap<'b>>) -> Result<BitmapBuf, Error> {
        let bits = bits.into();
        made(|out| self.choose_bits_into(bits, out))
    }

    /// As [`choose_bits`](Self::choose_bits), written into `out`.
    ///
    /// # Errors
    /// [`Error::RowsDiffer`] where the bitmap has not [`len`](Self::len) values, and the refusals of [`Room`].
    pub fn choose_bits_into<'b>(
        &self,
        bits: impl Into<Bitmap<'b>>,
        out: &mut (impl Room + ?Sized),
    ) -> Result<(), Error> {
        let bits = bits.into();
        self.has_one_for_each(bits.len())?;
        let bitmap = self.as_bitmap();
        // SAFETY: the loop writes each byte, and reads none before.
        unsafe {
            out.write(self.count, |out| {
                mask_c::row_mask_choose_bits(
                    bitmap.bytes(),
                    bitmap.offset(),
                    bitmap.len(),
                    bits.bytes(),
                    bits.offset(),
                    out,
                );
            })
        }
    }

    /// The chosen rows of a column, in their order.
    ///
    /// # Errors
    /// [`Error::RowsDiffer`] where the column has not [`len`](Self::len) rows, and [`Error::OutOfMemory`].
    #[doc(alias = "filter")]
    pub fn choose<T: Row>(&self, rows: &[T]) -> Result<Vec<T>, Error> {
        self.has_one_for_each(rows.len())?;
        // SAFETY: there is a row for each value, and a place for each true one, which is written.
        unsafe { rows_of(self.count, |out, _| self.choose_to(rows, out)) }
    }

    /// As [`choose`](Self::choose), after the items of a list.
    ///
    /// # Errors
    /// As there. Then the list is as it was.
    pub fn choose_append<T: Row>(&self, rows: &[T], list: &mut Vec<T>) -> Result<(), Error> {
        self.has_one_for_each(rows.len())?;
        // SAFETY: there is a row for each value, and a place for each true one, which is written.
        unsafe { append_rows(list, self.count, |out, _| self.choose_to(rows, out)) }
    }

    /// As [`choose`](Self::choose), to the front of `out`.
    ///
    /// # Errors
    /// [`Error::RowsDiffer`] where the column has not [`len`](Self::len) rows, and [`Error::RoomTooSmall`] where `out` has
    /// fewer items than rows are chosen.
    pub fn choose_into<T: Row>(&self, rows: &[T], out: &mut [T]) -> Result<(), Error> {
        self.has_one_for_each(rows.len())?;
        let out = first_of(out, self.count)?;
        // SAFETY: just rows are written, one to each place.
        unsafe { self.choose_to(rows, as_places(out)) };
        Ok(())
    }

    fn has_one_for_each(&self, rows: usize) -> Result<(), Error> {
        self.as_bitmap().has_one_for_each(rows)
    }

    // Writes a place for each true value, and maybe others behind these. There is a row for each value.
    fn choose_to<T: Row>(&self, rows: &[T], out: &mut [MaybeUninit<T>]) {
        let chunks = self.as_bitmap().chunks();
        // SAFETY: this is what is asked there too. A row is plain bytes.
        if self.is_dense() && unsafe { choose_several(rows, &chunks, out, self.count) } {
            return;
        }
        let cells = as_cells(rows);
        match &self.kept {
            Kept::Word(word) => push_rows_one_by_one(&mut Lent { out, at: 0 }, cells, *word),
            Kept::Runs(runs) => copy_runs(cells, runs.iter().map(|run| run.0..run.1), out),
            // (each is the index of a true value, and there is a row for each value)
            Kept::Indices(indices) => mask_c::rows_at(indices, cells, &mut out[..self.count]),
        }
    }

    // Whether the words of the bitmap take less time than its indices, where several rows are moved at once.
    fn is_dense(&self) -> bool {
        let is_of_indices = matches!(self.kept, Kept::Indices(_));
        is_of_indices && self.len() > FEW_VALUES && self.count / 3 >= self.len() / 8
    }

    // Calls a function with the indices, block after block of them, as the proved loops take them.
    #[inline]
    fn by_blocks(&self, of: impl FnMut(&[usize])) {
        match &self.kept {
            Kept::Indices(indices) => u32::in_blocks(indices, of),
            Kept::Word(_) | Kept::Runs(_) => self.as_bitmap().by_blocks(of),
        }
    }
}

/// The bitmap that was read, as far as that is printed.
impl fmt::Debug for Selection {
    fn fmt(&self, f: &mut fmt::Formatter<'_>) -> fmt::Result {
        f.debug_struct("Selection").field("bitmap", &self.bitmap).finish_non_exhaustive()
    }
}
