//! Bitmaps in bytes of their own.

use crate::{Bitmap, Values};
use alloc::vec::Vec;

mod change;
mod make;
mod pack;
mod read;

/// A list of truth values in bytes of its own, from bit 0 on: what a call on a [`Bitmap`] makes. It answers what a
/// [`Bitmap`] answers, and `&rows` stands wherever a call takes one.
///
/// ```
/// use row_mask::BitmapBuf;
///
/// let mut rows: BitmapBuf = [true, false, true].into_iter().collect();
/// assert_eq!(rows.select(1), Some(2));
/// rows.or_with(&BitmapBuf::from_indices(3, &[1, 0])?)?;
/// rows.fill_range(2.., false)?;
/// assert_eq!(rows, BitmapBuf::from_ranges(3, [0..2])?);
/// # Ok::<(), row_mask::Error>(())
/// ```
#[derive(Clone, Default, PartialEq, Eq, Hash)]
pub struct BitmapBuf {
    // just those that the values take, with the bits after the last value clear: equal lists have equal bytes
    pub(crate) bytes: Vec<u8>,
    pub(crate) len: usize,
}

impl BitmapBuf {
    /// The values, borrowed.
    #[must_use]
    #[inline]
    pub fn as_bitmap(&self) -> Bitmap<'_> {
        Bitmap { bytes: &self.bytes, offset: 0, len: self.len }
    }

    /// How many values there are.
    #[must_use]
    #[inline]
    pub fn len(&self) -> usize {
        self.len
    }

    /// Whether there is no value.
    #[must_use]
    #[inline]
    pub fn is_empty(&self) -> bool {
        self.len == 0
    }

    /// The values, in their order.
    #[must_use]
    #[inline]
    pub fn iter(&self) -> Values<'_> {
        self.as_bitmap().iter()
    }

    /// The bytes that have the values. The bits after the last value are clear, so equal lists have equal bytes.
    #[must_use]
    #[inline]
    pub fn as_bytes(&self) -> &[u8] {
        &self.bytes
    }

    /// The same bytes, in place of the list.
    #[must_use]
    #[inline]
    pub fn into_bytes(self) -> Vec<u8> {
        self.bytes
    }
}
