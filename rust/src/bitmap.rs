//! Bitmaps in borrowed bytes.
//!
//! Their calls run proved loops (`mask_c`), each of which takes a bitmap as its bytes, its offset and its length. What a
//! loop asks isn't tested again there. That the bits are within the bytes holds of each bitmap: `new` tests it, `slice`
//! takes a part of them, and the bytes of a `BitmapBuf` are room for its values. What a loop asks beside that is tested or
//! made so just above its call. A closure that calls one reads the three by methods: so it borrows the bitmap, and not each
//! field by itself.

use crate::Error;
use crate::proved::mask_bits::BitChunks;
use crate::proved::mask_c;
use core::ops::{Bound, Range, RangeBounds};
#[cfg(target_endian = "little")]
use core::slice;

pub(crate) mod alike;
mod choose;
mod fold;
mod limit;
mod pairs;
pub(crate) mod read;
pub(crate) mod room;

/// A list of truth values, packed eight to a byte, that lies in borrowed bytes: value `i` is the bit at position
/// `p = offset + i`, which is bit `p % 8`, counted from the lowest, of byte `p / 8`.
///
/// A call that takes a bitmap also takes `&` of a [`BitmapBuf`](crate::BitmapBuf), a [`BitBuffer`](crate::BitBuffer),
/// [`MaskValues`](crate::MaskValues) or a [`Selection`](crate::Selection). Of a [`Mask`](crate::Mask), pass
/// `&mask.to_bit_buffer()`: one whose values are all the same has no bits to borrow, and a call that made them would take
/// memory where none is expected.
///
/// ```
/// use row_mask::Bitmap;
///
/// let rows = Bitmap::new(&[0b1011_1001], 0, 8)?;
/// assert_eq!(rows.to_string(), "10011101");
/// assert_eq!(rows.slice(2..)?.to_string(), "011101");
/// assert_eq!(rows.count(), 5);
/// assert!(rows.runs().eq([0..1, 3..6, 7..8]));
/// let ranks = Bitmap::new(&[0b1_0100], 0, 5)?;
/// assert_eq!(rows.intersect_by_rank(ranks)?.to_string(), "00001001");
/// assert_eq!(rows.intersect_at_ranks(&[2, 4])?.to_string(), "00001001");
/// # Ok::<(), row_mask::Error>(())
/// ```
#[derive(Clone, Copy)]
pub struct Bitmap<'a> {
    // the bits lie within the bytes
    pub(crate) bytes: &'a [u8],
    pub(crate) offset: usize,
    pub(crate) len: usize,
}

impl<'a> Bitmap<'a> {
    /// The `len` bits of `bytes` from bit `offset` on.
    ///
    /// # Errors
    /// [`Error::OutOfBytes`] where they are not within the bytes.
    pub fn new(bytes: &'a [u8], offset: usize, len: usize) -> Result<Bitmap<'a>, Error> {
        let refusal = Error::OutOfBytes { bytes: bytes.len(), offset, len };
        refusal.unless(mask_c::row_mask_is_within(bytes, offset, len))?;
        Ok(Bitmap { bytes, offset, len })
    }

    /// The first `len` bits of words of 64, each from its lowest on, where they lie: nothing is copied.
    /// [`Bitmap::to_words`] is the way back.
    ///
    /// ```
    /// let rows = row_mask::Bitmap::from_words(&[1, 1], 65)?;
    /// assert!(rows.indices().eq([0, 64]));
    /// # Ok::<(), row_mask::Error>(())
    /// ```
    ///
    /// # Errors
    /// [`Error::OutOfBytes`] where they are not within the words.
    #[cfg(target_endian = "little")]
    pub fn from_words(words: &'a [u64], len: usize) -> Result<Bitmap<'a>, Error> {
        // SAFETY: it is the same memory, all of which is written, and any place is fit for bytes.
        let bytes = unsafe { slice::from_raw_parts(words.as_ptr().cast(), size_of_val(words)) };
        Bitmap::new(bytes, 0, len)
    }

    /// How many values there are.
    #[must_use]
    #[inline]
    pub fn len(self) -> usize {
        self.len
    }

    /// Whether there is no value.
    #[must_use]
    #[inline]
    pub fn is_empty(self) -> bool {
        self.len == 0
    }

    /// The bytes that the values lie in.
    #[must_use]
    #[inline]
    pub fn bytes(self) -> &'a [u8] {
        self.bytes
    }

    /// The position of value 0 in the bytes, in bits.
    #[must_use]
    #[inline]
    pub fn offset(self) -> usize {
        self.offset
    }

    /// Value `i`, and `None` past the end.
    #[must_use]
    #[inline]
    pub fn get(self, i: usize) -> Option<bool> {
        (i < self.len).then(|| mask_c::row_mask_value(self.bytes(), self.offset(), self.len(), i))
    }

    /// The values of a range, in the same bytes.
    ///
    /// # Errors
    /// [`Error::BadRange`] where it is no range of the values.
    pub fn slice(self, range: impl RangeBounds<usize>) -> Result<Bitmap<'a>, Error> {
        Ok(self.part(range_within(&range, self.len)?))
    }

    // The words of 64 values.
    #[inline]
    pub(crate) fn chunks(self) -> BitChunks<'a> {
        BitChunks::new_proved(self.bytes, self.offset, self.len)
    }

    // The values of a range that lies within them.
    pub(crate) fn part(self, Range { start, end }: Range<usize>) -> Bitmap<'a> {
        debug_assert!(start <= end && end <= self.len);
        Bitmap { bytes: self.bytes, offset: self.offset + start, len: end - start }
    }
}

/// A range of the indices below a length.
// Where a range of so many values starts, and the place past its end. (A bound that is past the last number can't be told
// from that number, and neither is within.)
#[inline]
pub(crate) fn ends_of(range: &impl RangeBounds<usize>, len: usize) -> (usize, usize) {
    let start = match range.start_bound() {
        Bound::Included(start) => *start,
        Bound::Excluded(before) => before.saturating_add(1),
        Bound::Unbounded => 0,
    };
    let end = match range.end_bound() {
        Bound::Included(last) => last.saturating_add(1),
        Bound::Excluded(end) => *end,
        Bound::Unbounded => len,
    };
    (start, end)
}

pub(crate) fn range_within(
    range: &impl RangeBounds<usize>,
    len: usize,
) -> Result<Range<usize>, Error> {
    let (start, end) = ends_of(range, len);
    Error::BadRange { start, end, len }.unless(start <= end && end <= len)?;
    Ok(start..end)
}
