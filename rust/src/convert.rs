//! One kind of values made of another: masks, buffers, bitmaps and selections.

use crate::bitmap::room::reserve;
use crate::kit::room_to_share;
use crate::memory::granted;
use crate::proved::mask_bits::BitBuffer;
use crate::proved::mask_c::row_mask_room;
use crate::proved::vortex_mask::{AllOr, Mask, MaskValues};
use crate::{Bitmap, BitmapBuf, Error, Selection};

impl BitBuffer {
    /// The values as a [`Bitmap`], in the same bytes. A call that takes a bitmap takes `&buffer` too.
    #[must_use]
    #[inline]
    pub fn as_bitmap(&self) -> Bitmap<'_> {
        Bitmap { bytes: self.bits(), offset: self.offset(), len: self.len() }
    }
}

impl MaskValues {
    /// The values as a [`Bitmap`], in the same bytes. A call that takes a bitmap takes a reference to these values too.
    #[must_use]
    #[inline]
    pub fn as_bitmap(&self) -> Bitmap<'_> {
        self.bit_buffer().as_bitmap()
    }
}

impl Mask {
    /// `All`, `None`, or the values as a [`Bitmap`], in the same bytes: a mask whose values are all the same has no bits.
    ///
    /// Where a call takes a bitmap, pass `&mask.to_bit_buffer()`. It shares the bits of a mask that has some, and makes
    /// those of another one.
    ///
    /// ```
    /// use row_mask::{AllOr, Bitmap, Mask};
    ///
    /// let mask = Mask::from_indices(5, [0, 3]);
    /// let rows = Bitmap::new(&[0b0_1101], 0, 5)?;
    /// assert_eq!(rows.and_not(&mask.to_bit_buffer())?.to_string(), "00100");
    /// assert_eq!(mask.as_bitmap(), AllOr::Some(Bitmap::new(&[0b0_1001], 0, 5)?));
    /// assert_eq!(Mask::new_true(5).as_bitmap(), AllOr::All);
    /// # Ok::<(), row_mask::Error>(())
    /// ```
    #[must_use]
    #[inline]
    pub fn as_bitmap(&self) -> AllOr<Bitmap<'_>> {
        match self {
            Mask::AllTrue(_) => AllOr::All,
            Mask::AllFalse(_) => AllOr::None,
            Mask::Values(values) => AllOr::Some(values.as_bitmap()),
        }
    }
}

impl<'a> From<&Bitmap<'a>> for Bitmap<'a> {
    #[inline]
    fn from(bitmap: &Bitmap<'a>) -> Bitmap<'a> {
        *bitmap
    }
}

impl<'a> From<&'a BitmapBuf> for Bitmap<'a> {
    #[inline]
    fn from(bitmap: &'a BitmapBuf) -> Bitmap<'a> {
        bitmap.as_bitmap()
    }
}

impl<'a> From<&'a BitBuffer> for Bitmap<'a> {
    #[inline]
    fn from(buffer: &'a BitBuffer) -> Bitmap<'a> {
        buffer.as_bitmap()
    }
}

impl<'a> From<&'a MaskValues> for Bitmap<'a> {
    #[inline]
    fn from(values: &'a MaskValues) -> Bitmap<'a> {
        values.as_bitmap()
    }
}

impl<'a> From<&'a Selection> for Bitmap<'a> {
    #[inline]
    fn from(selection: &'a Selection) -> Bitmap<'a> {
        selection.as_bitmap()
    }
}

/// A copy.
impl From<Bitmap<'_>> for BitmapBuf {
    fn from(bitmap: Bitmap<'_>) -> BitmapBuf {
        bitmap.to_buf()
    }
}

/// The same bytes, where nobody else holds them, value 0 is their first bit, and they are more than 16. Else it is a copy.
///
/// ```
/// use row_mask::{BitBuffer, BitmapBuf};
///
/// let mut rows = BitmapBuf::from(BitBuffer::from_iter([true, false, true]));
/// rows.set(1, true)?; // a buffer never changes
/// assert_eq!(BitBuffer::from(rows).true_count(), 3);
/// # Ok::<(), row_mask::Error>(())
/// ```
impl From<BitBuffer> for BitmapBuf {
    fn from(buffer: BitBuffer) -> BitmapBuf {
        let len = buffer.len();
        if buffer.offset() > 0 {
            return buffer.as_bitmap().to_buf();
        }
        match buffer.into_room() {
            Ok(room) => BitmapBuf::of_bytes(room.into_list().into_vec(), len),
            Err(shared) => shared.as_bitmap().to_buf(),
        }
    }
}

/// The bits of the mask, as of a [`BitBuffer`]: where nobody else holds them, and they are more than 128, they aren't copied.
/// Those of a mask whose values are all the same are made.
///
/// ```
/// use row_mask::{BitmapBuf, Mask};
///
/// let mut rows = BitmapBuf::from(Mask::from_indices(4, [1, 2]));
/// rows.set(0, true)?; // a mask never changes
/// assert_eq!(Mask::from(rows).to_string(), "1110");
/// # Ok::<(), row_mask::Error>(())
/// ```
impl From<Mask> for BitmapBuf {
    fn from(mask: Mask) -> BitmapBuf {
        match mask {
            Mask::AllTrue(len) => BitmapBuf::all_true(len),
            Mask::AllFalse(len) => BitmapBuf::all_false(len),
            Mask::Values(_) => mask.into_bit_buffer().into(),
        }
    }
}

/// The same bytes, where they are more than 16, and else a copy.
impl From<BitmapBuf> for BitBuffer {
    #[inline]
    fn from(bitmap: BitmapBuf) -> BitBuffer {
        BitBuffer::from_vec(bitmap.bytes, bitmap.len)
    }
}

/// The bits of the mask, which are shared where it has some, and else made.
impl From<Mask> for BitBuffer {
    #[inline]
    fn from(mask: Mask) -> BitBuffer {
        mask.into_bit_buffer()
    }
}

/// A copy.
impl From<Bitmap<'_>> for BitBuffer {
    fn from(bitmap: Bitmap<'_>) -> BitBuffer {
        let made = to_share(bitmap.len, |out| bitmap.copy_into(out));
        granted(made, bitmap.len).into()
    }
}

/// The same bytes, where they are more than 16, but of values that are all the same no bits are kept. No values give
/// `AllFalse(0)`.
impl From<BitmapBuf> for Mask {
    #[inline]
    fn from(bitmap: BitmapBuf) -> Mask {
        Mask::from_buffer(bitmap.into())
    }
}

/// A copy, but of values that are all the same no bits are kept. No values give `AllFalse(0)`.
impl From<Bitmap<'_>> for Mask {
    fn from(bitmap: Bitmap<'_>) -> Mask {
        let (count, len) = (bitmap.count(), bitmap.len);
        if count == 0 || count == len {
            return Mask::new(len, count > 0);
        }
        granted(Mask::from_counted_buffer(bitmap.into(), count, None), len)
    }
}

impl From<Bitmap<'_>> for Selection {
    fn from(bitmap: Bitmap<'_>) -> Selection {
        read(Selection::try_new(bitmap))
    }
}

impl From<&BitmapBuf> for Selection {
    fn from(bitmap: &BitmapBuf) -> Selection {
        bitmap.as_bitmap().into()
    }
}

/// The bitmap is kept, and not copied.
impl From<BitmapBuf> for Selection {
    fn from(bitmap: BitmapBuf) -> Selection {
        read(Selection::of(bitmap))
    }
}

impl From<&BitBuffer> for Selection {
    fn from(buffer: &BitBuffer) -> Selection {
        buffer.as_bitmap().into()
    }
}

impl From<&Mask> for Selection {
    fn from(mask: &Mask) -> Selection {
        match mask {
            Mask::AllTrue(len) => BitmapBuf::all_true(*len).into(),
            Mask::AllFalse(len) => BitmapBuf::all_false(*len).into(),
            Mask::Values(values) => values.as_bitmap().into(),
        }
    }
}

// A selection that is refused nothing but memory.
fn read(made: Result<Selection, Error>) -> Selection {
    let bytes = if let Err(Error::OutOfMemory { bytes }) = made { bytes } else { 0 };
    granted(made, bytes.saturating_mul(8))
}

/// What a call writes that writes so many values, in bytes with room for the number of those who will share them.
pub(crate) fn to_share(
    len: usize,
    write: impl FnOnce(&mut BitmapBuf) -> Result<(), Error>,
) -> Result<BitmapBuf, Error> {
    let mut made = BitmapBuf::default();
    reserve(&mut made.bytes, room_to_share(row_mask_room(len)))?;
    write(&mut made)?;
    Ok(made)
}

impl PartialEq<BitmapBuf> for Bitmap<'_> {
    fn eq(&self, other: &BitmapBuf) -> bool {
        *self == other.as_bitmap()
    }
}

impl PartialEq<Bitmap<'_>> for BitmapBuf {
    fn eq(&self, other: &Bitmap<'_>) -> bool {
        self.as_bitmap() == *other
    }
}

// (Masks and buffers on the left are compared with their own type alone, so that what `collect` makes on the right is known.)

/// Equal where the values are.
impl PartialEq<BitBuffer> for Bitmap<'_> {
    fn eq(&self, other: &BitBuffer) -> bool {
        *self == other.as_bitmap()
    }
}

/// Equal where the values are.
impl PartialEq<BitBuffer> for BitmapBuf {
    fn eq(&self, other: &BitBuffer) -> bool {
        self.as_bitmap() == other.as_bitmap()
    }
}

/// Equal where the values are.
impl PartialEq<Mask> for Bitmap<'_> {
    fn eq(&self, other: &Mask) -> bool {
        match other {
            Mask::AllTrue(len) => *len == self.len && self.all(),
            Mask::AllFalse(len) => *len == self.len && !self.any(),
            Mask::Values(values) => *self == values.as_bitmap(),
        }
    }
}

/// Equal where the values are.
impl PartialEq<Mask> for BitmapBuf {
    fn eq(&self, other: &Mask) -> bool {
        self.as_bitmap() == *other
    }
}
