//! What users of Rust expect of masks and buffers besides the proved calls: operators, clones, hashes, and makers from
//! iterators. They return no `Result`: where memory is refused they end the process, as Rust's own lists do.

mod answers;
mod cached;
mod calls;
mod makers;
mod nullable;
mod operators;
mod walks;

use crate::kit::{AllocError, TryClone};
use crate::memory::granted;
use crate::proved::mask_bits::{BitBuffer, BitBufferMut};
use crate::proved::vortex_mask::{Mask, MaskValues};
use alloc::vec::Vec;
use core::fmt;
use core::hash::{Hash, Hasher};
use core::ops::{BitAnd, BitOr, Not};

// Operators, and clones that report missing memory, by calls that both types have.
macro_rules! operators {
    ($($of:ident)*) => {$(
        /// As `try_clone`, which is refused only for want of memory.
        impl TryClone for $of {
            fn clone(&self) -> Result<$of, AllocError> {
                self.try_clone().map_err(|_| AllocError)
            }
        }

        /// The values that are true in both. Panics where the lengths differ.
        impl BitAnd for &$of {
            type Output = $of;

            #[track_caller]
            fn bitand(self, other: &$of) -> $of {
                granted(self.try_bitand(other), self.len())
            }
        }

        /// The same, in the first one's bytes where nobody else holds them. Panics where the lengths differ.
        impl BitAnd<&$of> for $of {
            type Output = $of;

            #[track_caller]
            fn bitand(self, other: &$of) -> $of {
                granted(self.try_into_bitand(other), other.len())
            }
        }

        /// The values that are true in one or in both. Panics where the lengths differ.
        impl BitOr for &$of {
            type Output = $of;

            #[track_caller]
            fn bitor(self, other: &$of) -> $of {
                granted(self.try_bitor(other), self.len())
            }
        }

        /// The same, in the first one's bytes where nobody else holds them. Panics where the lengths differ.
        impl BitOr<&$of> for $of {
            type Output = $of;

            #[track_caller]
            fn bitor(self, other: &$of) -> $of {
                granted(self.try_into_bitor(other), other.len())
            }
        }

        /// Each value negated.
        impl Not for &$of {
            type Output = $of;

            fn not(self) -> $of {
                granted(self.try_not(), self.len())
            }
        }

        /// Each value negated, in the same bytes where nobody else holds them.
        impl Not for $of {
            type Output = $of;

            fn not(self) -> $of {
                let len = self.len();
                granted(self.try_into_not(), len)
            }
        }
    )*};
}

operators!(BitBuffer Mask);

/// The same values. A clone shares their bytes, and takes no memory.
impl Clone for BitBuffer {
    fn clone(&self) -> BitBuffer {
        granted(self.try_clone(), self.len())
    }
}

/// The same values. A clone shares them, with the lists that are made of them, and takes no memory.
impl Clone for Mask {
    #[inline]
    fn clone(&self) -> Mask {
        match self {
            Mask::AllTrue(len) => Mask::AllTrue(*len),
            Mask::AllFalse(len) => Mask::AllFalse(*len),
            Mask::Values(values) => Mask::Values(Clone::clone(values)),
        }
    }
}

/// As `try_clone`, which is refused only for want of memory.
impl TryClone for MaskValues {
    fn clone(&self) -> Result<MaskValues, AllocError> {
        self.try_clone().map_err(|_| AllocError)
    }
}

/// By the length and the values, as `==`: offsets and the bits outside don't count.
impl Hash for BitBuffer {
    fn hash<H: Hasher>(&self, state: &mut H) {
        self.len().hash(state);
        self.chunks().iter_padded().for_each(|word| state.write_u64(word));
    }
}

/// By the length and the values, as `==`: cached lists, offsets and how an empty mask is held don't count.
impl Hash for Mask {
    fn hash<H: Hasher>(&self, state: &mut H) {
        // (these tell a mask of one value)
        (self.len(), self.true_count()).hash(state);
        if let Some(values) = self.values() {
            values.bit_buffer().hash(state);
        }
    }
}

/// The values, packed.
impl From<&[bool]> for BitBuffer {
    fn from(values: &[bool]) -> BitBuffer {
        BitBuffer::from_rows(values, |value| *value)
    }
}

/// The values, packed.
impl From<Vec<bool>> for BitBuffer {
    fn from(values: Vec<bool>) -> BitBuffer {
        BitBuffer::from(&values[..])
    }
}

/// The values, packed. They are listed first, but for a few, which need no memory for that.
impl FromIterator<bool> for BitBuffer {
    fn from_iter<I: IntoIterator<Item = bool>>(values: I) -> BitBuffer {
        let mut values = values.into_iter();
        let mut few = [false; 64];
        if values.size_hint().1.is_none_or(|most| most >= few.len()) {
            return BitBuffer::from(values.collect::<Vec<bool>>());
        }
        for count in 0..few.len() {
            match values.next() {
                Some(value) => few[count] = value,
                None => return BitBuffer::from(&few[..count]),
            }
        }
        // (there are more than the walk said)
        BitBuffer::from(few.into_iter().chain(values).collect::<Vec<bool>>())
    }
}

/// The values of a buffer. An empty one gives `AllFalse(0)`.
impl From<BitBuffer> for Mask {
    fn from(buffer: BitBuffer) -> Mask {
        Mask::from_buffer(buffer)
    }
}

/// The values. No values give `AllFalse(0)`.
impl FromIterator<bool> for Mask {
    fn from_iter<I: IntoIterator<Item = bool>>(values: I) -> Mask {
        Mask::from(BitBuffer::from_iter(values))
    }
}

/// The masks, one after another. No values give `AllTrue(0)`. Panics where the sum of their lengths doesn't fit.
impl FromIterator<Mask> for Mask {
    fn from_iter<I: IntoIterator<Item = Mask>>(masks: I) -> Mask {
        Mask::from_masks(masks)
    }
}

/// No value.
impl Default for BitBufferMut {
    fn default() -> BitBufferMut {
        BitBufferMut::with_capacity(0)
    }
}

/// How many values there are: a builder tells no more.
impl fmt::Debug for BitBufferMut {
    fn fmt(&self, f: &mut fmt::Formatter<'_>) -> fmt::Result {
        f.debug_struct("BitBufferMut").field("len", &self.len()).finish_non_exhaustive()
    }
}

/// Adds values after the last one. They are listed first.
impl Extend<bool> for BitBufferMut {
    fn extend<I: IntoIterator<Item = bool>>(&mut self, values: I) {
        let values = BitBuffer::from_iter(values);
        self.append_buffer(&values);
    }
}

/// The values, packed.
impl FromIterator<bool> for BitBufferMut {
    fn from_iter<I: IntoIterator<Item = bool>>(values: I) -> BitBufferMut {
        let mut made = BitBufferMut::default();
        made.extend(values);
        made
    }
}
