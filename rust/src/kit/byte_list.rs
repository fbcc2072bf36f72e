//! The module `mask_bits::byte_list` of the proved sources, by hand: lists of bytes that buffers are made of. Few bytes lie in
//! the list itself, so that no memory is asked for.

use super::AllocError;
use super::bytes::room_to_share;
use super::few_bytes::FewBytes;
use super::list::{self, List, filled_within};
use alloc::vec::Vec;
use core::ops::{Deref, DerefMut};

/// A list of bytes that becomes a buffer's.
pub enum ByteList {
    #[doc(hidden)]
    Few(FewBytes),
    #[doc(hidden)]
    Many(Vec<u8>),
}

/// The bytes of a list, which aren't copied.
#[inline]
pub fn byte_list(list: Vec<u8>) -> ByteList {
    ByteList::Many(list)
}

/// Room for so many bytes, which is written before it is read.
///
/// # Errors
/// [`AllocError`] where memory is refused.
#[inline]
pub fn unwritten(count: usize) -> Result<ByteList, AllocError> {
    match FewBytes::filled(0, count) {
        Some(few) => Ok(ByteList::Few(few)),
        None => Ok(ByteList::Many(list::unwritten(count, room_to_share(count))?)),
    }
}

impl From<Vec<u8>> for ByteList {
    #[inline]
    fn from(list: Vec<u8>) -> ByteList {
        byte_list(list)
    }
}

impl ByteList {
    /// So many bytes that are the same.
    #[inline]
    pub(crate) fn filled(byte: u8, count: usize) -> Result<ByteList, AllocError> {
        match FewBytes::filled(byte, count) {
            Some(few) => Ok(ByteList::Few(few)),
            None => Ok(ByteList::Many(filled_within(byte, count, room_to_share(count))?)),
        }
    }

    /// Cuts the list to so many bytes, or fills it up to them.
    pub(crate) fn try_resize(&mut self, count: usize, byte: u8) -> Result<(), AllocError> {
        match self {
            ByteList::Many(list) => list.try_resize(count, byte),
            ByteList::Few(few) => {
                let mut list = ByteList::filled(byte, count)?;
                let kept = few.len().min(count);
                list[..kept].copy_from_slice(&few[..kept]);
                *self = list;
                Ok(())
            }
        }
    }

    /// A list of them. Few bytes are copied.
    #[inline]
    pub(crate) fn into_vec(self) -> Vec<u8> {
        match self {
            ByteList::Few(few) => few.to_vec(),
            ByteList::Many(list) => list,
        }
    }
}

impl Deref for ByteList {
    type Target = [u8];

    #[inline]
    fn deref(&self) -> &[u8] {
        match self {
            ByteList::Few(few) => few,
            ByteList::Many(list) => list,
        }
    }
}

impl DerefMut for ByteList {
    #[inline]
    fn deref_mut(&mut self) -> &mut [u8] {
        match self {
            ByteList::Few(few) => few,
            ByteList::Many(list) => list,
        }
    }
}

#[cfg(test)]
mod tests {
    use super::ByteList;
    use crate::kit::few_bytes::FEW;

    /// A list that grows and is cut keeps its bytes, in itself and elsewhere.
    #[test]
    fn lists_are_resized() {
        for count in 0..=2 * FEW {
            for then in 0..=2 * FEW {
                let mut list = ByteList::filled(7, count).unwrap();
                list.iter_mut().zip(1..).for_each(|(it, place)| *it = place);
                list.try_resize(then, 9).unwrap();
                let wanted = (1..).take(count).chain(core::iter::repeat(9)).take(then);
                assert!(list.iter().copied().eq(wanted), "{count} to {then}");
                assert_eq!(list.to_vec(), list.into_vec());
            }
        }
    }
}
