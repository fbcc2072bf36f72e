//! What bitmaps have alike, whether they lend their bytes or own them.

use super::room::made;
use crate::memory::granted;
use crate::{Bitmap, BitmapBuf, Values};
use alloc::string::String;
use core::fmt;
use core::ops::Not;

// As many values, indices or runs are printed of what may have millions.
pub(crate) const PRINTED: usize = 64;

/// `1` for each true value and `0` for each false one, in their order. They are a text first, which takes a
/// byte for each value: where there is no memory for that, the process ends.
impl fmt::Display for Bitmap<'_> {
    fn fmt(&self, f: &mut fmt::Formatter<'_>) -> fmt::Result {
        let text: String = self.iter().map(|value| if value { '1' } else { '0' }).collect();
        f.pad(&text)
    }
}

/// `1` for each true value and `0` for each false one, in their order. They are a text first, which takes a
/// byte for each value: where there is no memory for that, the process ends.
impl fmt::Display for BitmapBuf {
    fn fmt(&self, f: &mut fmt::Formatter<'_>) -> fmt::Result {
        self.as_bitmap().fmt(f)
    }
}

/// The length, how many values are true, and the first values.
impl fmt::Debug for Bitmap<'_> {
    fn fmt(&self, f: &mut fmt::Formatter<'_>) -> fmt::Result {
        describe("Bitmap", *self, f)
    }
}

/// The length, how many values are true, and the first values.
impl fmt::Debug for BitmapBuf {
    fn fmt(&self, f: &mut fmt::Formatter<'_>) -> fmt::Result {
        describe("BitmapBuf", self.as_bitmap(), f)
    }
}

fn describe(name: &str, bitmap: Bitmap<'_>, f: &mut fmt::Formatter<'_>) -> fmt::Result {
    let first = bitmap.part(0..bitmap.len.min(PRINTED));
    let more = if bitmap.len > PRINTED { ".." } else { "" };
    f.debug_struct(name)
        .field("len", &bitmap.len)
        .field("count", &bitmap.count())
        .field("values", &format_args!("{first}{more}"))
        .finish()
}

impl<'a> IntoIterator for Bitmap<'a> {
    type Item = bool;
    type IntoIter = Values<'a>;

    fn into_iter(self) -> Values<'a> {
        self.iter()
    }
}

impl<'a> IntoIterator for &'a BitmapBuf {
    type Item = bool;
    type IntoIter = Values<'a>;

    fn into_iter(self) -> Values<'a> {
        self.iter()
    }
}

/// Each value negated, in bytes of their own.
impl Not for Bitmap<'_> {
    type Output = BitmapBuf;

    fn not(self) -> BitmapBuf {
        granted(made(|out| self.not_into(out)), self.len)
    }
}

/// Each value negated.
impl Not for &BitmapBuf {
    type Output = BitmapBuf;

    fn not(self) -> BitmapBuf {
        !self.as_bitmap()
    }
}

/// Each value negated, in place.
impl Not for BitmapBuf {
    type Output = BitmapBuf;

    fn not(mut self) -> BitmapBuf {
        self.negate();
        self
    }
}

impl From<&[bool]> for BitmapBuf {
    fn from(it: &[bool]) -> BitmapBuf {
        granted(made(|out| BitmapBuf::from_bools_into(it, out)), it.len())
    }
}
