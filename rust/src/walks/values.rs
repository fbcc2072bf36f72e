use crate::Bitmap;
use crate::proved::mask_bits::BitChunks;
use crate::proved::mask_c;
use core::fmt;
use core::iter::FusedIterator;

/// The values of a [`Bitmap`], in their order.
#[derive(Clone)]
pub struct Values<'a> {
    bytes: &'a [u8],
    // values that were read, the next one lowest, and a set bit above them
    word: u64,
    // behind them the bits from `next` to `end`, if it isn't past that
    next: usize,
    end: usize,
}

impl<'a> Values<'a> {
    #[inline]
    pub(crate) fn new(bitmap: Bitmap<'a>) -> Values<'a> {
        let next = bitmap.offset();
        Values { bytes: bitmap.bytes(), word: 1, next, end: next + bitmap.len() }
    }

    // How many values are left.
    #[inline]
    fn left(&self) -> usize {
        self.word.ilog2() as usize + self.end.saturating_sub(self.next)
    }

    // Reads the next values, where the word has none, and takes the first. (By hand: past a proved call, which is too
    // large to be inlined, a loop reads again what it knew of memory.)
    #[cold]
    #[inline(always)]
    fn read(&mut self) -> Option<bool> {
        self.word = 1;
        if self.next >= self.end {
            return None;
        }
        let rest = self.bytes.get(self.next / 8..).unwrap_or_default();
        let eight = match rest.first_chunk() {
            Some(eight) => u64::from_le_bytes(*eight),
            None => rest.iter().rev().fold(0, |word, byte| word << 8 | u64::from(*byte)),
        };
        let (word, count) = (eight >> (self.next % 8), 64 - self.next % 8);
        self.word = lowest(word >> 1, (self.end - self.next).min(count) - 1);
        self.next += count;
        Some(word & 1 == 1)
    }
}

// The lowest bits of a word, fewer than 64, and a set bit above them.
#[inline]
fn lowest(word: u64, count: usize) -> u64 {
    word & ((1 << count) - 1) | 1 << count
}

impl Iterator for Values<'_> {
    type Item = bool;

    #[inline]
    fn next(&mut self) -> Option<bool> {
        // (a false value needs no second test: the bit above the values is set)
        let word = self.word;
        self.word >>= 1;
        if word & 1 == 1 {
            return if word == 1 { self.read() } else { Some(true) };
        }
        Some(false)
    }

    #[inline]
    fn size_hint(&self) -> (usize, Option<usize>) {
        (self.left(), Some(self.left()))
    }

    #[inline]
    fn nth(&mut self, n: usize) -> Option<bool> {
        let at = self.end - self.left().saturating_sub(n);
        (self.word, self.next) = (1, at + 1);
        (at < self.end).then(|| mask_c::row_mask_value(self.bytes, 0, self.end, at))
    }

    fn count(self) -> usize {
        self.left()
    }

    fn last(mut self) -> Option<bool> {
        self.next_back()
    }

    // word by word, for `for_each` and the like
    #[inline]
    fn fold<B, F: FnMut(B, bool) -> B>(self, init: B, mut f: F) -> B {
        let chunks = BitChunks::new_proved(self.bytes, self.end - self.left(), self.left());
        let last = [(chunks.remainder_bits(), chunks.remainder_len())];
        chunks.iter().map(|word| (word, 64)).chain(last).fold(init, |folded, (word, count)| {
            (0..count).fold(folded, |folded, bit| f(folded, word >> bit & 1 == 1))
        })
    }
}

impl DoubleEndedIterator for Values<'_> {
    #[inline]
    fn next_back(&mut self) -> Option<bool> {
        self.nth_back(0)
    }

    #[inline]
    fn nth_back(&mut self, n: usize) -> Option<bool> {
        let (left, kept) = (self.left(), self.left().saturating_sub(n).checked_sub(1));
        self.end -= left - kept.unwrap_or(0);
        self.word = lowest(self.word, kept.unwrap_or(0).min(self.word.ilog2() as usize));
        kept.map(|_| mask_c::row_mask_value(self.bytes, 0, self.end + 1, self.end))
    }
}

impl ExactSizeIterator for Values<'_> {}
impl FusedIterator for Values<'_> {}

impl fmt::Debug for Values<'_> {
    fn fmt(&self, f: &mut fmt::Formatter<'_>) -> fmt::Result {
        f.debug_struct("Values").field("left", &self.left()).finish_non_exhaustive()
    }
}
