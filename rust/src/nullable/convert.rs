//! Lists with nulls made of one another, and of lists without.

use super::{NullableBitmap, NullableBitmapBuf};
use crate::proved::mask_bits::NullableBitBuffer;
use crate::{Bitmap, BitmapBuf};

impl<'a> From<&NullableBitmap<'a>> for NullableBitmap<'a> {
    #[inline]
    fn from(list: &NullableBitmap<'a>) -> NullableBitmap<'a> {
        *list
    }
}

/// Values without a null.
impl<'a> From<Bitmap<'a>> for NullableBitmap<'a> {
    #[inline]
    fn from(values: Bitmap<'a>) -> NullableBitmap<'a> {
        NullableBitmap { values, validity: None }
    }
}

/// Values without a null.
impl<'a> From<&'a BitmapBuf> for NullableBitmap<'a> {
    #[inline]
    fn from(values: &'a BitmapBuf) -> NullableBitmap<'a> {
        values.as_bitmap().into()
    }
}

impl<'a> From<&'a NullableBitmapBuf> for NullableBitmap<'a> {
    #[inline]
    fn from(list: &'a NullableBitmapBuf) -> NullableBitmap<'a> {
        list.as_bitmap()
    }
}

/// The same bytes.
impl<'a> From<&'a NullableBitBuffer> for NullableBitmap<'a> {
    #[inline]
    fn from(buffer: &'a NullableBitBuffer) -> NullableBitmap<'a> {
        NullableBitmap {
            values: buffer.values().as_bitmap(),
            validity: buffer.validity().map(|it| it.as_bitmap()),
        }
    }
}

/// A copy.
impl From<NullableBitmap<'_>> for NullableBitmapBuf {
    fn from(list: NullableBitmap<'_>) -> NullableBitmapBuf {
        NullableBitmapBuf {
            values: list.values.to_buf(),
            validity: list.validity.map(Bitmap::to_buf),
        }
    }
}

/// Values without a null, which aren't copied.
impl From<BitmapBuf> for NullableBitmapBuf {
    #[inline]
    fn from(values: BitmapBuf) -> NullableBitmapBuf {
        NullableBitmapBuf { values, validity: None }
    }
}

/// The same bytes, where each of the two would keep its own as a [`BitmapBuf`] of that buffer does, and else copies.
impl From<NullableBitBuffer> for NullableBitmapBuf {
    fn from(buffer: NullableBitBuffer) -> NullableBitmapBuf {
        let (values, validity) = (buffer.values, buffer.validity);
        NullableBitmapBuf { values: values.into(), validity: validity.map(BitmapBuf::from) }
    }
}

/// The same bytes, where they are more than 16, and else a copy, of the values and of the validity.
impl From<NullableBitmapBuf> for NullableBitBuffer {
    fn from(list: NullableBitmapBuf) -> NullableBitBuffer {
        NullableBitBuffer::new_proved(list.values.into(), list.validity.map(Into::into))
    }
}

impl FromIterator<Option<bool>> for NullableBitmapBuf {
    fn from_iter<I: IntoIterator<Item = Option<bool>>>(items: I) -> NullableBitmapBuf {
        NullableBitBuffer::from_iter(items).into()
    }
}
