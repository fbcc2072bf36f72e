//! Truth values with nulls in plain bytes, borrowed and owned: combined by the proved loops over words.

use crate::bitmap::room::{made, write_both};
use crate::memory::granted;
use crate::proved::mask_c;
use crate::{Bitmap, BitmapBuf, Error, Room};
use core::ops::Not;

pub(crate) mod alike;
mod convert;
mod owned;

pub use owned::NullableBitmapBuf;

/// A list of truth values of which some are null, in borrowed bytes: a [`Bitmap`] of values, and one of their validity.
///
/// Value `i` is null where the validity is false at `i`, and what the values hold there has no meaning. Where there is no
/// validity, no value is null. These are the two buffers of an Arrow array of booleans, each of which may begin at any bit.
///
/// The calls answer as SQL does, by Kleene's tables, in one pass over both lists. What they write is false at each null. A
/// call that takes a list with nulls also takes one without, such as a [`Bitmap`], and `&` of a [`NullableBitmapBuf`] or a
/// [`NullableBitBuffer`](crate::NullableBitBuffer).
///
/// ```
/// use row_mask::{Bitmap, NullableBitmap};
///
/// // a > 5, where `a` is 7, 3, null and 4; and b IS NULL
/// let values = Bitmap::new(&[0b0001], 0, 4)?;
/// let above = NullableBitmap::new(values, Some(Bitmap::new(&[0b1011], 0, 4)?))?;
/// let missing = Bitmap::new(&[0b1000], 0, 4)?;
/// let either = above.or_kleene(missing)?;
/// assert_eq!(either.to_string(), "10?1");
/// assert_eq!((!&either).is_true().to_string(), "0100"); // WHERE NOT (a > 5 OR b IS NULL)
/// # Ok::<(), row_mask::Error>(())
/// ```
#[derive(Clone, Copy)]
pub struct NullableBitmap<'a> {
    values: Bitmap<'a>,
    // as long as the values
    validity: Option<Bitmap<'a>>,
}

impl<'a> NullableBitmap<'a> {
    /// Values and their validity; `None` says that all are valid.
    ///
    /// # Errors
    /// [`Error::LengthsDiffer`].
    pub fn new(
        values: Bitmap<'a>,
        validity: Option<Bitmap<'a>>,
    ) -> Result<NullableBitmap<'a>, Error> {
        validity.map_or(Ok(()), |it| values.of_length_of(it))?;
        Ok(NullableBitmap { values, validity })
    }

    /// How many values there are, the nulls included.
    #[must_use]
    #[inline]
    pub fn len(self) -> usize {
        self.values.len()
    }

    /// Whether there is no value.
    #[must_use]
    #[inline]
    pub fn is_empty(self) -> bool {
        self.len() == 0
    }

    /// The values. What stands at a null has no meaning.
    #[must_use]
    #[inline]
    pub fn values(self) -> Bitmap<'a> {
        self.values
    }

    /// The validity: false at each null. `None` where no value is null.
    #[must_use]
    #[inline]
    pub fn validity(self) -> Option<Bitmap<'a>> {
        self.validity
    }

    /// Value `i`, which is `Some(None)` for a null, and `None` past the end.
    #[must_use]
    pub fn get(self, i: usize) -> Option<Option<bool>> {
        let is_valid = self.validity.is_none_or(|it| it.get(i) == Some(true));
        self.values.get(i).map(|value| is_valid.then_some(value))
    }

    /// How many values are null.
    #[must_use]
    pub fn null_count(self) -> usize {
        self.validity.map_or(0, |it| it.len() - it.count())
    }

    // The bytes of the validity and its first bit, as the loops take them: of no bytes where there is none.
    fn validity_bytes(self) -> (&'a [u8], usize) {
        self.validity.map_or((&[], 0), |it| (it.bytes(), it.offset()))
    }
}

/// What a filter takes of them.
impl NullableBitmap<'_> {
    /// The values that are true, which are those that a filter keeps: no null is one. SQL's `IS TRUE`.
    #[must_use]
    pub fn is_true(self) -> BitmapBuf {
        granted(made(|out| self.is_true_into(out)), self.len())
    }

    /// As [`is_true`](Self::is_true), written into `out`.
    ///
    /// # Errors
    /// The refusals of [`Room`].
    pub fn is_true_into(self, out: &mut (impl Room + ?Sized)) -> Result<(), Error> {
        match self.validity {
            Some(validity) => self.values.and_into(validity, out),
            None => self.values.copy_into(out),
        }
    }

    /// The values that are true or null, which are those that a check lets pass. SQL's `IS NOT FALSE`.
    #[must_use]
    pub fn is_not_false(self) -> BitmapBuf {
        granted(made(|out| self.is_not_false_into(out)), self.len())
    }

    /// As [`is_not_false`](Self::is_not_false), written into `out`.
    ///
    /// # Errors
    /// The refusals of [`Room`].
    pub fn is_not_false_into(self, out: &mut (impl Room + ?Sized)) -> Result<(), Error> {
        match self.validity {
            Some(validity) => self.values.or_not_into(validity, out),
            None => self.values.copy_into(out),
        }
    }

    /// The nulls. SQL's `IS NULL`.
    #[must_use]
    pub fn is_null(self) -> BitmapBuf {
        granted(made(|out| self.is_null_into(out)), self.len())
    }

    /// As [`is_null`](Self::is_null), written into `out`.
    ///
    /// # Errors
    /// The refusals of [`Room`].
    pub fn is_null_into(self, out: &mut (impl Room + ?Sized)) -> Result<(), Error> {
        match self.validity {
            Some(validity) => validity.not_into(out),
            // SAFETY: each byte is written.
            None => unsafe { out.write(self.len(), |out| out.fill(0)) },
        }
    }
}

/// Kleene's tables. Where neither list has a validity, what is made anew has none. Calls named `.._into` write both the
/// values and the validity, and neither where one of them has no room.
impl NullableBitmap<'_> {
    /// True where both are, false where one is, and else null: SQL's `AND`.
    ///
    /// # Errors
    /// [`Error::LengthsDiffer`], and [`Error::OutOfMemory`].
    #[doc(alias("and", "&"))]
    pub fn and_kleene<'b>(
        self,
        other: impl Into<NullableBitmap<'b>>,
    ) -> Result<NullableBitmapBuf, Error> {
        let other = other.into();
        match (self.validity, other.validity) {
            (None, None) => self.values.and(other.values).map(NullableBitmapBuf::from),
            _ => made_both(|values, validity| self.and_kleene_into(other, values, validity)),
        }
    }

    /// As [`and_kleene`](Self::and_kleene), written into room for the values and for the validity.
    ///
    /// ```
    /// use row_mask::{Bitmap, BitmapBuf, NullableBitmap};
    ///
    /// let (mut values, mut validity) = ([0xFF; 2], BitmapBuf::default());
    /// let null = NullableBitmap::new(Bitmap::new(&[1], 0, 2)?, Some(Bitmap::new(&[0], 0, 2)?))?;
    /// null.and_kleene_into(Bitmap::new(&[0b10], 0, 2)?, &mut values[..], &mut validity)?;
    /// assert_eq!((values, validity.to_string().as_str()), ([0, 0xFF], "10")); // false, and null
    /// # Ok::<(), row_mask::Error>(())
    /// ```
    ///
    /// # Errors
    /// [`Error::LengthsDiffer`], and the refusals of [`Room`].
    pub fn and_kleene_into<'b>(
        self,
        other: impl Into<NullableBitmap<'b>>,
        values: &mut (impl Room + ?Sized),
        validity: &mut (impl Room + ?Sized),
    ) -> Result<(), Error> {
        let (a, b) = (self, other.into());
        a.values.of_length_of(b.values)?;
        let ((a_validity, a_offset), (b_validity, b_offset)) =
            (a.validity_bytes(), b.validity_bytes());
        // SAFETY: the loop writes each byte of both, and reads none before.
        unsafe {
            write_both(values, validity, a.len(), |out, out_validity| {
                mask_c::row_mask_and_kleene(
                    a.values.bytes(),
                    a.values.offset(),
                    a_validity,
                    a_offset,
                    b.values.bytes(),
                    b.values.offset(),
                    b_validity,
                    b_offset,
                    a.len(),
                    out,
                    out_validity,
                );
            })
        }
    }

    /// True where one is, false where both are, and else null: SQL's `OR`.
    ///
    /// # Errors
    /// [`Error::LengthsDiffer`], and [`Error::OutOfMemory`].
    #[doc(alias("or", "|"))]
    pub fn or_kleene<'b>(
        self,
        other: impl Into<NullableBitmap<'b>>,
    ) -> Result<NullableBitmapBuf, Error> {
        let other = other.into();
        match (self.validity, other.validity) {
            (None, None) => self.values.or(other.values).map(NullableBitmapBuf::from),
            _ => made_both(|values, validity| self.or_kleene_into(other, values, validity)),
        }
    }

    /// As [`or_kleene`](Self::or_kleene), written into room for the values and for the validity.
    ///
    /// # Errors
    /// [`Error::LengthsDiffer`], and the refusals of [`Room`].
    pub fn or_kleene_into<'b>(
        self,
        other: impl Into<NullableBitmap<'b>>,
        values: &mut (impl Room + ?Sized),
        validity: &mut (impl Room + ?Sized),
    ) -> Result<(), Error> {
        let (a, b) = (self, other.into());
        a.values.of_length_of(b.values)?;
        let ((a_validity, a_offset), (b_validity, b_offset)) =
            (a.validity_bytes(), b.validity_bytes());
        // SAFETY: the loop writes each byte of both, and reads none before.
        unsafe {
            write_both(values, validity, a.len(), |out, out_validity| {
                mask_c::row_mask_or_kleene(
                    a.values.bytes(),
                    a.values.offset(),
                    a_validity,
                    a_offset,
                    b.values.bytes(),
                    b.values.offset(),
                    b_validity,
                    b_offset,
                    a.len(),
                    out,
                    out_validity,
                );
            })
        }
    }

    /// The negation of each value, where that of a null is null, written into room for the values and for the validity.
    ///
    /// # Errors
    /// The refusals of [`Room`].
    pub fn not_into(
        self,
        values: &mut (impl Room + ?Sized),
        validity: &mut (impl Room + ?Sized),
    ) -> Result<(), Error> {
        let (a, len) = (self.values, self.len());
        // SAFETY: each byte of both is written, and none is read before.
        unsafe {
            write_both(values, validity, len, |out, out_validity| {
                if let Some(v) = self.validity {
                    let (bytes, offset) = (v.bytes(), v.offset());
                    mask_c::row_mask_and_not(bytes, offset, a.bytes(), a.offset(), len, out);
                    mask_c::row_mask_copy(bytes, offset, len, out_validity);
                } else {
                    mask_c::row_mask_not(a.bytes(), a.offset(), len, out);
                    out_validity.fill(0xFF);
                    mask_c::clear_behind(out_validity, len);
                }
            })
        }
    }
}

/// The negation of each value, in bytes of their own: that of a null is null. SQL's `NOT`.
impl Not for NullableBitmap<'_> {
    type Output = NullableBitmapBuf;

    fn not(self) -> NullableBitmapBuf {
        if self.validity.is_none() {
            return (!self.values).into();
        }
        granted(made_both(|values, validity| self.not_into(values, validity)), 2 * self.len())
    }
}

// What a call writes, with its validity, as a list of its own.
fn made_both(
    write: impl FnOnce(&mut BitmapBuf, &mut BitmapBuf) -> Result<(), Error>,
) -> Result<NullableBitmapBuf, Error> {
    let (mut values, mut validity) = (BitmapBuf::default(), BitmapBuf::default());
    write(&mut values, &mut validity)?;
    Ok(NullableBitmapBuf { values, validity: Some(validity) })
}
