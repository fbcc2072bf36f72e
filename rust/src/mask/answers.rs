//! What small values have that the proved sources don't derive.

use crate::bitmap::alike::PRINTED;
use crate::intersect_by_rank::RankPath;
use crate::proved::mask_bits::BitBuffer;
use crate::proved::vortex_mask::{AllOr, Fraction, MaskError, MaskIter};
use core::fmt;
use core::hash::{Hash, Hasher};
use core::mem::discriminant;

impl<T: Clone> Clone for AllOr<T> {
    fn clone(&self) -> AllOr<T> {
        match self {
            AllOr::All => AllOr::All,
            AllOr::None => AllOr::None,
            AllOr::Some(value) => AllOr::Some(value.clone()),
        }
    }
}

impl<T: Copy> Copy for AllOr<T> {}

impl<T: Hash> Hash for AllOr<T> {
    fn hash<H: Hasher>(&self, state: &mut H) {
        discriminant(self).hash(state);
        if let AllOr::Some(value) = self {
            value.hash(state);
        }
    }
}

/// By the fields, as `==`.
impl Hash for Fraction {
    fn hash<H: Hasher>(&self, state: &mut H) {
        (self.num, self.den).hash(state);
    }
}

impl Hash for RankPath {
    fn hash<H: Hasher>(&self, state: &mut H) {
        discriminant(self).hash(state);
    }
}

impl Clone for MaskError {
    fn clone(&self) -> Self {
        *self
    }
}

impl Copy for MaskError {}

impl Clone for MaskIter<'_> {
    fn clone(&self) -> Self {
        *self
    }
}

impl Copy for MaskIter<'_> {}

/// The values, or of more than 64 the first of them and the length.
impl fmt::Debug for BitBuffer {
    fn fmt(&self, f: &mut fmt::Formatter<'_>) -> fmt::Result {
        f.write_str("BitBuffer(")?;
        for value in self.iter().take(PRINTED) {
            f.write_str(if value { "1" } else { "0" })?;
        }
        if self.len() > PRINTED {
            write!(f, ".., len={}", self.len())?;
        }
        f.write_str(")")
    }
}

/// The list, or of one with more than 64 items the length and the first of them.
impl fmt::Debug for MaskIter<'_> {
    fn fmt(&self, f: &mut fmt::Formatter<'_>) -> fmt::Result {
        match self {
            MaskIter::Indices(indices) => told("Indices", indices, f),
            MaskIter::Slices(ranges) => told("Slices", ranges, f),
        }
    }
}

fn told(name: &str, list: &[impl fmt::Debug], f: &mut fmt::Formatter<'_>) -> fmt::Result {
    match list.split_at_checked(PRINTED) {
        Some((first, [_, ..])) => {
            f.debug_struct(name).field("len", &list.len()).field("first", &first).finish()
        }
        _ => f.debug_tuple(name).field(&list).finish(),
    }
}
