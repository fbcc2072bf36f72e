//! Truth values with nulls in bytes of their own.

use super::NullableBitmap;
use crate::{BitmapBuf, Error};
use core::ops::Not;

/// A list of truth values of which some are null, in bytes of its own: what a call on a [`NullableBitmap`] makes.
///
/// ```
/// use row_mask::{BitmapBuf, NullableBitBuffer, NullableBitmapBuf};
///
/// let tests: NullableBitmapBuf = [Some(true), None, Some(false)].into_iter().collect();
/// assert_eq!(tests.or_kleene(&!&tests)?.to_string(), "1?1");
/// let (values, validity) = tests.into_parts();
/// assert_eq!(validity, Some(BitmapBuf::from_indices(3, &[0, 2])?));
/// let buffer = NullableBitBuffer::from(NullableBitmapBuf::new(values, validity)?);
/// assert_eq!(buffer.is_null().true_count(), 1);
/// # Ok::<(), row_mask::Error>(())
/// ```
#[derive(Clone, Default)]
pub struct NullableBitmapBuf {
    pub(super) values: BitmapBuf,
    // as long as the values
    pub(super) validity: Option<BitmapBuf>,
}

impl NullableBitmapBuf {
    /// Values and their validity; `None` says that all are valid.
    ///
    /// # Errors
    /// [`Error::LengthsDiffer`].
    pub fn new(values: BitmapBuf, validity: Option<BitmapBuf>) -> Result<NullableBitmapBuf, Error> {
        NullableBitmap::new(values.as_bitmap(), validity.as_ref().map(BitmapBuf::as_bitmap))?;
        Ok(NullableBitmapBuf { values, validity })
    }

    /// The list, borrowed.
    #[must_use]
    #[inline]
    pub fn as_bitmap(&self) -> NullableBitmap<'_> {
        NullableBitmap {
            values: self.values.as_bitmap(),
            validity: self.validity.as_ref().map(BitmapBuf::as_bitmap),
        }
    }

    /// The values. Those that a call made are false at each null.
    #[must_use]
    #[inline]
    pub fn values(&self) -> &BitmapBuf {
        &self.values
    }

    /// The validity: false at each null. `None` where no value is null.
    #[must_use]
    #[inline]
    pub fn validity(&self) -> Option<&BitmapBuf> {
        self.validity.as_ref()
    }

    /// The values and the validity, in place of the list.
    #[must_use]
    #[inline]
    pub fn into_parts(self) -> (BitmapBuf, Option<BitmapBuf>) {
        (self.values, self.validity)
    }

    /// How many values there are, the nulls included.
    #[must_use]
    #[inline]
    pub fn len(&self) -> usize {
        self.values.len()
    }

    /// Whether there is no value.
    #[must_use]
    #[inline]
    pub fn is_empty(&self) -> bool {
        self.values.is_empty()
    }

    /// How many values are null.
    #[must_use]
    pub fn null_count(&self) -> usize {
        self.as_bitmap().null_count()
    }

    /// As [`NullableBitmap::is_true`].
    #[must_use]
    pub fn is_true(&self) -> BitmapBuf {
        self.as_bitmap().is_true()
    }

    /// As [`NullableBitmap::is_not_false`].
    #[must_use]
    pub fn is_not_false(&self) -> BitmapBuf {
        self.as_bitmap().is_not_false()
    }

    /// As [`NullableBitmap::is_null`].
    #[must_use]
    pub fn is_null(&self) -> BitmapBuf {
        self.as_bitmap().is_null()
    }

    /// As [`NullableBitmap::and_kleene`].
    ///
    /// # Errors
    /// [`Error::LengthsDiffer`], and [`Error::OutOfMemory`].
    pub fn and_kleene<'b>(
        &self,
        other: impl Into<NullableBitmap<'b>>,
    ) -> Result<NullableBitmapBuf, Error> {
        self.as_bitmap().and_kleene(other)
    }

    /// As [`NullableBitmap::or_kleene`].
    ///
    /// # Errors
    /// [`Error::LengthsDiffer`], and [`Error::OutOfMemory`].
    pub fn or_kleene<'b>(
        &self,
        other: impl Into<NullableBitmap<'b>>,
    ) -> Result<NullableBitmapBuf, Error> {
        self.as_bitmap().or_kleene(other)
    }
}

/// The negation of each value: that of a null is null. SQL's `NOT`.
impl Not for &NullableBitmapBuf {
    type Output = NullableBitmapBuf;

    fn not(self) -> NullableBitmapBuf {
        !self.as_bitmap()
    }
}
