//! Bytes that are so few that they lie where a list of them would be told to lie.

use core::ops::{Deref, DerefMut};

/// So many are few: two words, 128 values.
pub(crate) const FEW: usize = 16;

/// Few bytes. (They are words, as the parts of a list are, so that what has either of them is moved word by word.)
#[derive(Clone, Copy)]
#[repr(C, align(8))]
pub struct FewBytes {
    bytes: [u8; FEW],
    count: usize,
}

impl FewBytes {
    /// So many bytes that are the same, if these are few.
    #[inline]
    pub(crate) fn filled(byte: u8, count: usize) -> Option<FewBytes> {
        (count <= FEW).then(|| FewBytes::first([byte; FEW], count))
    }

    /// The first ones of these, so many as are asked for.
    #[inline]
    pub(crate) fn first(bytes: [u8; FEW], count: usize) -> FewBytes {
        FewBytes { bytes, count: count.min(FEW) }
    }

    /// A copy of bytes, if they are few.
    #[inline]
    pub(crate) fn of(bytes: &[u8]) -> Option<FewBytes> {
        let mut few = FewBytes::filled(0, bytes.len())?;
        few.copy_from_slice(bytes);
        Some(few)
    }

    /// Those behind the first ones.
    pub(crate) fn from(mut self, first: usize) -> FewBytes {
        let count = self.count() - first;
        self.bytes.copy_within(first.., 0);
        FewBytes::first(self.bytes, count)
    }

    /// All that lie here, also after the last one.
    #[inline]
    pub(crate) fn all(&self) -> [u8; FEW] {
        self.bytes
    }

    // (never more than there are, which the compiler sees by this)
    #[inline]
    fn count(&self) -> usize {
        self.count.min(FEW)
    }
}

impl Deref for FewBytes {
    type Target = [u8];

    #[inline]
    fn deref(&self) -> &[u8] {
        &self.bytes[..self.count()]
    }
}

impl DerefMut for FewBytes {
    #[inline]
    fn deref_mut(&mut self) -> &mut [u8] {
        let count = self.count();
        &mut self.bytes[..count]
    }
}
