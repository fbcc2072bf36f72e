//! Operators of masks and buffers beside `&` and `|` with a borrowed one: `^`, two that are given away, and changes in place.

use crate::conditions::need_equal;
use crate::kit::{AllocError, Bytes};
use crate::memory::granted;
use crate::proved::mask_bits::BitBuffer;
use crate::proved::mask_bits::bitops::combined_buffer;
use crate::proved::mask_bits::combine::Xor;
use crate::proved::mask_c::row_mask_xor_in_place;
use crate::proved::vortex_mask::bitops::combined_mask;
use crate::proved::vortex_mask::{Mask, MaskError, MaskValues};
use core::mem;
use core::ops::{BitAnd, BitAndAssign, BitOr, BitOrAssign, BitXor, BitXorAssign};

impl BitBuffer {
    /// The values that are true in one and not in the other: `^`, with an error where memory is refused.
    ///
    /// # Errors
    /// [`AllocError`].
    ///
    /// # Panics
    /// Where the lengths differ.
    #[inline]
    #[track_caller]
    pub fn try_bitxor(&self, other: &BitBuffer) -> Result<BitBuffer, AllocError> {
        let needs = &["`bitxor` needs `self.len() == other.len()`: ", " is not "];
        need_equal(self.len(), other.len(), needs);
        combined_buffer::<Xor>(self, other)
    }

    /// The same, in this one's bytes where nobody else holds them.
    ///
    /// # Errors
    /// [`AllocError`].
    ///
    /// # Panics
    /// Where the lengths differ.
    #[track_caller]
    pub fn try_into_bitxor(self, other: &BitBuffer) -> Result<BitBuffer, AllocError> {
        let len = self.len();
        let needs = &["`into_bitxor` needs `self.len() == other.len()`: ", " is not "];
        need_equal(len, other.len(), needs);
        match self.into_room() {
            Ok(mut room) => {
                row_mask_xor_in_place(room.as_mut_slice(), other.bits(), other.offset(), len);
                BitBuffer::from_room(room, len)
            }
            Err(shared) => shared.try_bitxor(other),
        }
    }
}

impl Mask {
    /// The values that are true in one and not in the other: `^`, with an error where memory is refused.
    ///
    /// ```
    /// use row_mask::Mask;
    ///
    /// let (first, second) = (Mask::from_indices(4, [0, 1]), Mask::from_indices(4, [1, 2]));
    /// assert_eq!((&first ^ &second).to_string(), "1010");
    /// assert_eq!(first.try_bitxor(&second)?, &first ^ &second);
    /// # Ok::<(), row_mask::MaskError>(())
    /// ```
    ///
    /// # Errors
    /// [`MaskError::Memory`].
    ///
    /// # Panics
    /// Where the lengths differ.
    #[track_caller]
    pub fn try_bitxor(&self, other: &Mask) -> Result<Mask, MaskError> {
        let needs = &["`bitxor`: Masks must have the same length: ", " is not "];
        need_equal(self.len(), other.len(), needs);
        match (self, other) {
            (_, Mask::AllFalse(_)) => self.try_clone(),
            (Mask::AllFalse(_), _) => other.try_clone(),
            (_, Mask::AllTrue(_)) => self.try_not(),
            (Mask::AllTrue(_), _) => other.try_not(),
            (Mask::Values(a), Mask::Values(b)) => {
                combined_mask::<Xor>(a.bit_buffer(), b.bit_buffer())
            }
        }
    }

    /// The same, in this one's bytes where nobody else holds them.
    ///
    /// # Errors
    /// [`MaskError::Memory`].
    ///
    /// # Panics
    /// Where the lengths differ.
    #[track_caller]
    pub fn try_into_bitxor(self, other: &Mask) -> Result<Mask, MaskError> {
        let needs = &["`into_bitxor`: Masks must have the same length: ", " is not "];
        need_equal(self.len(), other.len(), needs);
        match (self, other) {
            (mask, Mask::AllFalse(_)) => Ok(mask),
            (mask, Mask::AllTrue(_)) => mask.try_into_not(),
            (Mask::Values(a), Mask::Values(b)) => {
                let bits = MaskValues::buffer_of(a)?.try_into_bitxor(b.bit_buffer())?;
                Mask::try_from_buffer(bits)
            }
            (mask, other) => mask.try_bitxor(other),
        }
    }
}

// Operators, by calls that both types have.
macro_rules! operators {
    ($($of:ident, of no value $none:expr;)*) => {$(
        /// The values that are true in one and not in the other. Panics where the lengths differ.
        impl BitXor for &$of {
            type Output = $of;

            #[track_caller]
            fn bitxor(self, other: &$of) -> $of {
                granted(self.try_bitxor(other), self.len())
            }
        }

        /// The same, in the first one's bytes where nobody else holds them. Panics where the lengths differ.
        impl BitXor<&$of> for $of {
            type Output = $of;

            #[track_caller]
            fn bitxor(self, other: &$of) -> $of {
                granted(self.try_into_bitxor(other), other.len())
            }
        }

        /// The same, in the first one's bytes where nobody else holds them. Panics where the lengths differ.
        impl BitXor for $of {
            type Output = $of;

            #[track_caller]
            fn bitxor(self, other: $of) -> $of {
                self ^ &other
            }
        }

        /// The values that are true in both, in the first one's bytes where nobody else holds them. Panics where the
        /// lengths differ.
        impl BitAnd for $of {
            type Output = $of;

            #[track_caller]
            fn bitand(self, other: $of) -> $of {
                self & &other
            }
        }

        /// The values that are true in one or in both, in the first one's bytes where nobody else holds them. Panics where
        /// the lengths differ.
        impl BitOr for $of {
            type Output = $of;

            #[track_caller]
            fn bitor(self, other: $of) -> $of {
                self | &other
            }
        }

        /// Leaves those values true that are true in the other too, in the same bytes where nobody else holds them. Panics
        /// where the lengths differ, and then nothing is changed.
        impl BitAndAssign<&$of> for $of {
            #[track_caller]
            fn bitand_assign(&mut self, other: &$of) {
                need_equal(self.len(), other.len(), &["`&=` needs `self.len() == other.len()`: ", " is not "]);
                *self = mem::replace(self, $none) & other;
            }
        }

        /// Makes those values true that are true in the other, in the same bytes where nobody else holds them. Panics where
        /// the lengths differ, and then nothing is changed.
        impl BitOrAssign<&$of> for $of {
            #[track_caller]
            fn bitor_assign(&mut self, other: &$of) {
                need_equal(self.len(), other.len(), &["`|=` needs `self.len() == other.len()`: ", " is not "]);
                *self = mem::replace(self, $none) | other;
            }
        }

        /// Negates those values that are true in the other, in the same bytes where nobody else holds them. Panics where the
        /// lengths differ, and then nothing is changed.
        impl BitXorAssign<&$of> for $of {
            #[track_caller]
            fn bitxor_assign(&mut self, other: &$of) {
                need_equal(self.len(), other.len(), &["`^=` needs `self.len() == other.len()`: ", " is not "]);
                *self = mem::replace(self, $none) ^ other;
            }
        }
    )*};
}

operators! {
    BitBuffer, of no value BitBuffer::new_proved(Bytes::new(), 0);
    Mask, of no value Mask::new_false(0);
}
