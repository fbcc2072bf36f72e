//! What the proved modules take that their sources have marked `by hand`, for the package and for the library for C.
//!
//! The steps of walks over values: `fold`, which `for_each`, `count` and the like go by, reads whole words, and `next`
//! writes nothing but the place within a word. And a list that a kernel takes, which stays with its mask.

use crate::kit::{AllocError, CowSlice};
use crate::proved::mask_bits::BitIterator;
use crate::proved::mask_bits::bit_iterator::word_at_hand;
use crate::proved::vortex_mask::{MaskBoolIter, MaskValues};

impl MaskValues {
    // The true indices, for the kernel that takes one list at another. (The source makes the list for that call alone.)
    #[inline]
    pub(crate) fn true_indices(&self) -> Result<CowSlice<'_, usize>, AllocError> {
        self.indices.get_or_make(|| self.index_list()).map(CowSlice::Borrowed)
    }
}

impl BitIterator<'_> {
    // Reads the word behind the one at hand, if there is one.
    #[inline]
    fn read(&mut self) -> Option<()> {
        let (i, len) = (self.end / 64, self.chunks.values_len());
        if i < self.chunks.len() {
            (self.word, self.end) = (self.chunks.word_proved(i), self.end + 64);
        } else if self.end < len {
            // (the end that the proved call gives too is a minimum, which each step of a loop would take)
            (self.word, _) = word_at_hand(&self.chunks, self.end, self.end, 0);
            self.end = len;
        } else {
            return None;
        }
        Some(())
    }
}

impl Iterator for BitIterator<'_> {
    type Item = bool;

    #[inline]
    fn next(&mut self) -> Option<bool> {
        // within a word one test serves for its end and the list's
        if self.next == self.end {
            self.read()?;
        }
        let bit = self.word & 1 == 1;
        self.word >>= 1;
        self.next += 1;
        Some(bit)
    }

    #[inline]
    fn size_hint(&self) -> (usize, Option<usize>) {
        (self.len(), Some(self.len()))
    }

    #[inline]
    fn fold<B, F: FnMut(B, bool) -> B>(self, init: B, mut f: F) -> B {
        let mut each = |folded, word: u64, count| {
            (0..count).fold(folded, |folded, bit| f(folded, word >> bit & 1 == 1))
        };
        // (where the word at hand ends, nothing is left of it)
        let first = each(init, self.word, self.end - self.next);
        let whole = self.end / 64..self.chunks.len();
        let folded = whole.fold(first, |folded, i| each(folded, self.chunks.word_proved(i), 64));
        let len = self.chunks.values_len();
        let rest = if self.end < len { len % 64 } else { 0 };
        if rest == 0 {
            return folded;
        }
        each(folded, self.chunks.remainder_bits(), rest)
    }
}

impl Iterator for MaskBoolIter<'_> {
    type Item = bool;

    #[inline]
    fn next(&mut self) -> Option<bool> {
        match self {
            MaskBoolIter::Repeat { value, remaining } => {
                *remaining = remaining.checked_sub(1)?;
                Some(*value)
            }
            MaskBoolIter::Bits(bits) => bits.next(),
        }
    }

    #[inline]
    fn size_hint(&self) -> (usize, Option<usize>) {
        (self.len(), Some(self.len()))
    }

    #[inline]
    fn fold<B, F: FnMut(B, bool) -> B>(self, init: B, mut f: F) -> B {
        match self {
            MaskBoolIter::Repeat { value, remaining } => {
                (0..remaining).fold(init, |folded, _| f(folded, value))
            }
            MaskBoolIter::Bits(bits) => bits.fold(init, f),
        }
    }
}
