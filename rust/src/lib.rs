#![doc = include_str!("../README.md")]
#![cfg_attr(not(any(feature = "std", test)), no_std)]

extern crate alloc;

#[cfg(not(target_pointer_width = "64"))]
compile_error!("row-mask needs a `usize` of 64 bits: its proofs say 2^64");

pub mod arrow;
mod bitmap;
mod buf;
mod buffer;
pub mod conditions;
mod convert;
mod error;
#[doc(hidden)]
pub mod kit;
mod mask;
mod memory;
mod native;
mod nullable;
mod proved;
mod ranks;
mod row;
mod row_index;
mod selection;
mod sorted;
mod stand_ins;
mod strings;
mod take;
mod walks;
mod words;

pub use bitmap::{Bitmap, room::Room};
pub use buf::BitmapBuf;
pub use error::Error;
pub use kit::{AllocError, Bytes};
pub use nullable::{NullableBitmap, NullableBitmapBuf};
#[doc(hidden)]
pub use proved::mask_bits::BitBufferMut;
pub use proved::mask_bits::{
    BitBuffer, BitChunks, BitIterator, NullableBitBuffer, PaddedWords, Ranks, SetIndices,
    SetSlices, Words,
};
pub use proved::vortex_mask::{
    AllOr, Fraction, Mask, MaskBoolIter, MaskError, MaskIter, MaskSetIndices, MaskSetSlices,
    MaskValues, MaskValuesRef, index_fault, range_fault,
};
pub use row::Row;
pub use row_index::RowIndex;
pub use selection::Selection;
pub use sorted::{intersect_sorted, intersect_sorted_into};
pub use strings::{Offset, Strings};
pub use take::{take, take_append, take_into};
pub use walks::{Indices, Runs, Values};

/// How to read the contracts in this documentation, and what their words mean.
#[doc = include_str!("../../docs/READING_CONTRACTS.md")]
#[allow(clippy::doc_markdown, reason = "the page is that of the repository")]
pub mod definitions {}

#[doc = include_str!("examples.md")]
pub mod examples {}

#[doc = include_str!("../VORTEX_MASK.md")]
pub mod from_vortex_mask {}

/// Rank intersection by its parts: the kernels, the deposits and selections of a word, and which kernel is taken.
pub mod intersect_by_rank {
    pub use crate::proved::mask_bits::extract::extract;
    pub use crate::proved::vortex_mask::intersect_by_rank::{
        DepositBits, ExtractBits, Portable, PortableLoop, RankBits, RankPath, SelectBit, Steps,
        deposit_bytewise, deposits_by_loop, rank_path,
    };
    pub use crate::proved::vortex_mask::tested::{
        deposit_two_holes, deposit_two_lowest, intersect_bit_buffer_by_rank_indices,
        intersect_bit_buffers, intersect_by_rank_indices, intersect_mask_driven,
    };
}
