//! Values of any length, as strings: their bytes one after another, and where each begins.

use crate::Error;
use crate::bitmap::{range_within, room::are_fit};
use crate::proved::mask_c;
use core::fmt;
use core::ops::{Range, RangeBounds};

/// Where a value begins in the bytes of a column: 4 or 8 bytes, as Arrow has them.
#[expect(private_bounds, reason = "no other type is one")]
pub trait Offset:
    Copy + Default + PartialOrd + TryFrom<usize> + TryInto<usize> + mask_c::Offset
{
}

impl Offset for i32 {}
impl Offset for i64 {}
impl Offset for u32 {}
impl Offset for u64 {}

#[allow(clippy::pedantic, reason = "none is negative, or more than the last one of a column")]
impl mask_c::Offset for i32 {
    fn get(self) -> usize {
        self as usize
    }

    fn of(n: usize) -> i32 {
        n as i32
    }
}

#[allow(clippy::pedantic, reason = "none is negative, or more than the last one of a column")]
impl mask_c::Offset for i64 {
    fn get(self) -> usize {
        self as usize
    }

    fn of(n: usize) -> i64 {
        n as i64
    }
}

/// A column of strings that lies in borrowed memory: value `i` has the bytes from `offsets[i]` to `offsets[i + 1]`.
/// That these lie in order within the bytes is tested once.
///
/// ```
/// use row_mask::{Bitmap, Selection, Strings};
///
/// let names = Strings::new(&[0_i32, 3, 6, 11], b"onetwothree")?;
/// assert_eq!(names.get(1), Some(&b"two"[..]));
/// let chosen = Selection::new(Bitmap::new(&[0b101], 0, 3)?);
/// let (offsets, bytes) = names.choose(&chosen)?;
/// assert_eq!((&offsets[..], &bytes[..]), (&[0, 3, 8][..], &b"onethree"[..]));
/// # Ok::<(), row_mask::Error>(())
/// ```
#[derive(Clone, Copy)]
pub struct Strings<'a, O> {
    // one more than there are values, in order, none negative, and the last within the bytes
    offsets: &'a [O],
    bytes: &'a [u8],
}

impl<'a, O: Offset> Strings<'a, O> {
    /// The strings that begin at these offsets, of which the last is where the last string ends. The first offset may
    /// be any, so a part of a column's offsets goes with all of its bytes.
    ///
    /// # Errors
    /// [`Error::OffsetsDiffer`] where there is no offset, [`Error::UnsortedOffsets`] where one is negative or
    /// below the one before it, and [`Error::OffsetOutOfBounds`] where the last is past the end of the bytes.
    pub fn new(offsets: &'a [O], bytes: &'a [u8]) -> Result<Strings<'a, O>, Error> {
        are_sorted(offsets)?;
        let last = offsets.last().ok_or(Error::OffsetsDiffer { offsets: 0, len: 0 })?;
        let (offset, size) = (last.get(), bytes.len());
        Error::OffsetOutOfBounds { offset, size }.unless(offset <= size)?;
        Ok(Strings { offsets, bytes })
    }

    /// How many values there are.
    #[must_use]
    #[inline]
    pub fn len(self) -> usize {
        self.offsets.len() - 1
    }

    /// Whether there is no value.
    #[must_use]
    #[inline]
    pub fn is_empty(self) -> bool {
        self.len() == 0
    }

    /// Where the values begin in the bytes, and where the last one ends.
    #[must_use]
    #[inline]
    pub fn offsets(self) -> &'a [O] {
        self.offsets
    }

    /// The bytes that the values lie in.
    #[must_use]
    #[inline]
    pub fn bytes(self) -> &'a [u8] {
        self.bytes
    }

    /// Value `i`, and `None` past the end.
    #[must_use]
    #[inline]
    pub fn get(self, i: usize) -> Option<&'a [u8]> {
        let (start, end) = (self.offsets.get(i)?, self.offsets.get(i.wrapping_add(1))?);
        self.bytes.get(start.get()..end.get())
    }

    /// The values of a range, in the same bytes.
    ///
    /// # Errors
    /// [`Error::BadRange`] where it is no range of the values.
    pub fn slice(self, range: impl RangeBounds<usize>) -> Result<Strings<'a, O>, Error> {
        let Range { start, end } = range_within(&range, self.len())?;
        Ok(Strings { offsets: &self.offsets[start..=end], bytes: self.bytes })
    }
}

/// How many values there are.
impl<O> fmt::Debug for Strings<'_, O> {
    fn fmt(&self, f: &mut fmt::Formatter<'_>) -> fmt::Result {
        f.debug_struct("Strings").field("len", &(self.offsets.len() - 1)).finish_non_exhaustive()
    }
}

/// Tests that none is negative or below the one before it.
pub(crate) fn are_sorted<O: Offset>(offsets: &[O]) -> Result<(), Error> {
    let is_negative = offsets.first().is_some_and(|first| *first < O::default());
    let sorted = if is_negative { Err(0) } else { are_fit(offsets, PartialOrd::le) };
    sorted.map_err(|at| Error::UnsortedOffsets { at })
}
