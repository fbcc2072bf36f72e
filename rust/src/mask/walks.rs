//! What walks have besides their steps.

use crate::intersect_by_rank::RankBits;
use crate::proved::mask_bits::{
    BitBuffer, BitChunks, BitIterator, PaddedWords, SetIndices, SetSlices, Words,
};
use crate::proved::vortex_mask::{Mask, MaskBoolIter, MaskSetIndices, MaskSetSlices};
use core::fmt;
use core::iter::FusedIterator;

/// The values in their order.
impl<'a> IntoIterator for &'a Mask {
    type Item = bool;
    type IntoIter = MaskBoolIter<'a>;

    fn into_iter(self) -> MaskBoolIter<'a> {
        self.iter()
    }
}

/// The values in their order.
impl<'a> IntoIterator for &'a BitBuffer {
    type Item = bool;
    type IntoIter = BitIterator<'a>;

    fn into_iter(self) -> BitIterator<'a> {
        self.iter()
    }
}

impl FusedIterator for BitIterator<'_> {}
impl FusedIterator for MaskBoolIter<'_> {}
impl FusedIterator for MaskSetIndices<'_> {}
impl FusedIterator for MaskSetSlices<'_> {}
impl FusedIterator for PaddedWords<'_> {}
impl FusedIterator for SetIndices<'_> {}
impl FusedIterator for SetSlices<'_> {}
impl FusedIterator for Words<'_> {}

// No field of these is printed.
macro_rules! named {
    ($($of:ident)*) => {
        $(impl fmt::Debug for $of<'_> {
            fn fmt(&self, f: &mut fmt::Formatter<'_>) -> fmt::Result {
                f.debug_struct(stringify!($of)).finish_non_exhaustive()
            }
        })*
    };
}

named!(BitChunks BitIterator MaskBoolIter MaskSetIndices MaskSetSlices PaddedWords RankBits SetIndices SetSlices Words);
