use crate::{AllocError, MaskError};
use core::fmt;

/// Why a call was refused. Nothing was done. A [`MaskError`] becomes one by `?`, and so does an [`AllocError`].
///
/// ```
/// use row_mask::{BitmapBuf, Error, Mask};
///
/// fn both(len: usize, a: &[usize], b: &[usize]) -> Result<Mask, Error> {
///     let a = Mask::try_from_indices(len, a.iter().copied())?; // a `MaskError`
///     let b = BitmapBuf::from_indices(len, b)?; // an `Error`
///     Ok(a & &Mask::from(b))
/// }
///
/// assert_eq!(both(4, &[0, 2], &[3, 2])?.to_string(), "0010");
/// assert_eq!(both(4, &[0, 7], &[2]), Err(Error::IndexOutOfBounds { index: 7, len: 4 }));
/// assert_eq!(both(4, &[0, 0], &[2]), Err(Error::RepeatedIndex { at: 1 }));
/// # Ok::<(), row_mask::Error>(())
/// ```
#[derive(Debug, Clone, Copy, PartialEq, Eq)]
#[non_exhaustive]
#[allow(missing_docs, reason = "the sentence of each says what its numbers are")]
pub enum Error {
    /// The `len` bits from bit `offset` on are not within so many `bytes`.
    OutOfBytes { bytes: usize, offset: usize, len: usize },
    /// Two bitmaps that are combined or compared have two lengths: that of the first, `left`, and the other's, `right`.
    LengthsDiffer { left: usize, right: usize },
    /// The range from index `start` to the one before `end` does not lie within `len` values, or ends before it starts.
    BadRange { start: usize, end: usize, len: usize },
    /// There is not one row for each value: there are so many `rows`, and `len` values.
    RowsDiffer { rows: usize, len: usize },
    /// There is not one rank for each true value: the bitmap of ranks has so many, and `count` values are true.
    RanksDiffer { ranks: usize, count: usize },
    /// The rank at place `at` of the list is not above the one before it.
    UnsortedRanks { at: usize },
    /// A `rank` is no number of a true value, of which there are `count`.
    RankOutOfBounds { rank: usize, count: usize },
    /// The index at place `at` of the list is below the one before it.
    UnsortedIndices { at: usize },
    /// An `index` is past the end of `len` values.
    IndexOutOfBounds { index: usize, len: usize },
    /// There are more than 2³² values, which are so many: `len`. Indices of 4 bytes don't number them.
    IndicesTooNarrow { len: usize },
    /// There is not one offset more than there are rows: there are so many `offsets`, and `len` rows.
    OffsetsDiffer { offsets: usize, len: usize },
    /// The offset at place `at` of the list is negative, or below the one before it.
    UnsortedOffsets { at: usize },
    /// The last `offset` is past the end of the bytes, of which there are `size`.
    OffsetOutOfBounds { offset: usize, size: usize },
    /// The strings at a list of indices have more bytes than an offset of theirs counts: so many would be the last `offset`,
    /// or more where it is `usize::MAX`.
    OffsetTooGreat { offset: usize },
    /// There is no memory for what is to be made, which takes so many `bytes`. These are 0 where how many isn't known, as
    /// of masks.
    OutOfMemory { bytes: usize },
    /// What is to be written has no room: there is `room` for so many bytes or items, and so many are `needed`.
    RoomTooSmall { room: usize, needed: usize },
    /// Of a mask: the index at place `at` of the list equals the one before it.
    RepeatedIndex { at: usize },
    /// Of a mask: the range at place `at` of the list is empty, or ends past the length.
    BadRangeAt { at: usize },
    /// Of a mask: the range at place `at` of the list does not start above the start of the one before it.
    UnsortedRanges { at: usize },
    /// Of a mask: the range at place `at` of the list starts below the end of the one before it.
    OverlappingRanges { at: usize },
    /// Of masks: the sum of their lengths is above `usize::MAX`.
    LengthOverflow,
}

impl fmt::Display for Error {
    fn fmt(&self, f: &mut fmt::Formatter<'_>) -> fmt::Result {
        match *self {
            Error::OutOfBytes { bytes, offset, len } => {
                write!(f, "{len} bits from bit {offset} on are not within {bytes} bytes")
            }
            Error::LengthsDiffer { left, right } => {
                write!(f, "one bitmap has {left} values, and the other {right}")
            }
            Error::BadRange { start, end, len } => {
                write!(f, "{start}..{end} is no range of {len} values")
            }
            Error::RowsDiffer { rows, len } => {
                write!(f, "there are {rows} rows, and {len} values")
            }
            Error::RanksDiffer { ranks, count } => {
                write!(f, "there are {ranks} ranks, and {count} true values")
            }
            Error::UnsortedRanks { at } => {
                write!(f, "rank number {at} is not above the one before it")
            }
            Error::RankOutOfBounds { rank, count } => {
                write!(f, "there is no rank {rank} of {count} true values")
            }
            Error::UnsortedIndices { at } => {
                write!(f, "index number {at} is below the one before it")
            }
            Error::IndexOutOfBounds { index, len } => {
                write!(f, "index {index} is past the end of {len} values")
            }
            Error::IndicesTooNarrow { len } => {
                write!(f, "there are {len} values, and indices of 4 bytes number 4294967296")
            }
            Error::OffsetsDiffer { offsets, len } => {
                write!(f, "there are {offsets} offsets, and {len} rows")
            }
            Error::UnsortedOffsets { at } => {
                write!(f, "offset number {at} is negative, or below the one before it")
            }
            Error::OffsetOutOfBounds { offset, size } => {
                write!(f, "offset {offset} is past the end of {size} bytes")
            }
            Error::OffsetTooGreat { offset } => {
                write!(f, "offset {offset} is more than its type counts")
            }
            Error::OutOfMemory { bytes: 0 } => f.write_str("out of memory"),
            Error::OutOfMemory { bytes } => {
                write!(f, "there is no memory for {bytes} bytes")
            }
            Error::RoomTooSmall { room, needed } => {
                write!(f, "there is room for {room}, and {needed} are to be written")
            }
            Error::RepeatedIndex { at } => {
                write!(f, "index number {at} repeats the one before it")
            }
            Error::BadRangeAt { at } => {
                write!(f, "range number {at} is empty, or passes the length")
            }
            Error::UnsortedRanges { at } => {
                write!(f, "range number {at} does not start after the one before it")
            }
            Error::OverlappingRanges { at } => {
                write!(f, "range number {at} overlaps the one before it")
            }
            Error::LengthOverflow => f.write_str("the sum of the lengths does not fit"),
        }
    }
}

impl core::error::Error for Error {}

impl From<MaskError> for Error {
    fn from(error: MaskError) -> Error {
        match error {
            MaskError::Memory(error) => error.into(),
            MaskError::UnsortedIndices { at } => Error::UnsortedIndices { at },
            MaskError::RepeatedIndex { at } => Error::RepeatedIndex { at },
            MaskError::IndexOutOfBounds { index, len } => Error::IndexOutOfBounds { index, len },
            MaskError::BadRange { at } => Error::BadRangeAt { at },
            MaskError::UnsortedRanges { at } => Error::UnsortedRanges { at },
            MaskError::OverlappingRanges { at } => Error::OverlappingRanges { at },
            MaskError::LengthOverflow => Error::LengthOverflow,
        }
    }
}

impl From<AllocError> for Error {
    fn from(_: AllocError) -> Error {
        Error::OutOfMemory { bytes: 0 }
    }
}

impl Error {
    /// This refusal, unless a condition is met.
    pub(crate) fn unless(self, is_met: bool) -> Result<(), Error> {
        if is_met { Ok(()) } else { Err(self) }
    }
}
