//! Calls of truth values with nulls under their plain names, and what Rust has for each value. Each panics where a condition is
//! broken, as the one does whose name begins with `try_`, and ends the process where memory is refused.

use crate::memory::granted;
use crate::nullable::alike::describe;
use crate::proved::mask_bits::{BitBuffer, BitBufferMut, NullableBitBuffer};
use core::fmt;
use core::ops::Not;

/// SQL's `WHERE NOT (a > 5 OR b IS NULL)`, where `a` may be null:
///
/// ```
/// use row_mask::{BitBuffer, Mask, NullableBitBuffer};
///
/// let (a, b) = ([Some(7), Some(3), None, Some(4)], [Some(1), Some(1), Some(1), None]);
/// let above = NullableBitBuffer::from_rows(&a, |a| a.map(|a| a > 5));
/// let missing = NullableBitBuffer::from(BitBuffer::from_rows(&b, Option::is_none));
/// let answers = !above.or_kleene(&missing);
/// assert_eq!(format!("{answers:?}"), "NullableBitBuffer(01?0)");
/// assert_eq!(Mask::from_nullable(&answers).to_string(), "0100");
/// ```
impl NullableBitBuffer {
    /// What a test says of each row, in their order: `None` for a null.
    #[must_use]
    pub fn from_rows<T>(rows: &[T], test: impl FnMut(&T) -> Option<bool>) -> NullableBitBuffer {
        rows.iter().map(test).collect()
    }

    /// True where both are, false where one is, and else null: SQL's `AND`.
    ///
    /// # Panics
    /// Where the lengths differ.
    #[inline]
    #[must_use]
    #[track_caller]
    pub fn and_kleene(&self, other: &NullableBitBuffer) -> NullableBitBuffer {
        granted(self.try_and_kleene(other), 2 * self.len())
    }

    /// True where one is, false where both are, and else null: SQL's `OR`.
    ///
    /// # Panics
    /// Where the lengths differ.
    #[inline]
    #[must_use]
    #[track_caller]
    pub fn or_kleene(&self, other: &NullableBitBuffer) -> NullableBitBuffer {
        granted(self.try_or_kleene(other), 2 * self.len())
    }

    /// The values that are true, which are those that a filter keeps: no null is one.
    #[inline]
    #[must_use]
    pub fn is_true(&self) -> BitBuffer {
        granted(self.try_is_true(), self.len())
    }

    /// The values that are true or null, which are those that a check lets pass.
    #[inline]
    #[must_use]
    pub fn is_not_false(&self) -> BitBuffer {
        granted(self.try_is_not_false(), self.len())
    }

    /// The nulls.
    #[inline]
    #[must_use]
    pub fn is_null(&self) -> BitBuffer {
        granted(self.try_is_null(), self.len())
    }

    /// Whether there is no value.
    #[inline]
    #[must_use]
    pub fn is_empty(&self) -> bool {
        self.len() == 0
    }
}

/// The negation of each value: that of a null is null. SQL's `NOT`.
impl Not for &NullableBitBuffer {
    type Output = NullableBitBuffer;

    #[inline]
    fn not(self) -> NullableBitBuffer {
        granted(self.try_not(), 2 * self.len())
    }
}

/// As that of a borrowed one.
impl Not for NullableBitBuffer {
    type Output = NullableBitBuffer;

    #[inline]
    fn not(self) -> NullableBitBuffer {
        !&self
    }
}

/// The same bytes.
impl Clone for NullableBitBuffer {
    #[inline]
    fn clone(&self) -> NullableBitBuffer {
        NullableBitBuffer::new_proved(Clone::clone(self.values()), self.validity().cloned())
    }
}

/// Values without a null.
impl From<BitBuffer> for NullableBitBuffer {
    #[inline]
    fn from(values: BitBuffer) -> NullableBitBuffer {
        NullableBitBuffer::new_proved(values, None)
    }
}

impl FromIterator<Option<bool>> for NullableBitBuffer {
    fn from_iter<I: IntoIterator<Item = Option<bool>>>(items: I) -> NullableBitBuffer {
        let mut items = items.into_iter();
        let least = items.size_hint().0;
        let [mut values, mut validity] = [least; 2].map(BitBufferMut::with_capacity);
        loop {
            let (mut word, mut valid, mut count) = (0, 0, 0);
            for item in items.by_ref().take(64) {
                word |= u64::from(item == Some(true)) << count;
                valid |= u64::from(item.is_some()) << count;
                count += 1;
            }
            values.push_word(word, count);
            validity.push_word(valid, count);
            if count < 64 {
                return NullableBitBuffer::new_proved(values.freeze(), Some(validity.freeze()));
            }
        }
    }
}

/// The values, `?` for a null, or of more than 64 the first of them and the length.
impl fmt::Debug for NullableBitBuffer {
    fn fmt(&self, f: &mut fmt::Formatter<'_>) -> fmt::Result {
        describe("NullableBitBuffer", self.into(), f)
    }
}
