use crate::Bitmap;
use crate::words::number_of;
use core::fmt;
use core::iter::FusedIterator;
use core::mem::take;
use core::slice::Iter;

/// The indices of the true values of a [`Bitmap`], ascending.
#[derive(Clone)]
pub struct Indices<'a> {
    bitmap: Bitmap<'a>,
    // of the word whose first bit has the index `first`, the true value that was given last, and those after it:
    // it is cleared when the next one is asked for, just before that is tested
    word: u64,
    first: usize,
    // behind it whole words, and from the index `end` on the true values that are left behind these (words begin at
    // bytes, so that none is put together: where the bitmap doesn't, those of the first one begin below 0)
    words: Iter<'a, [u8; 8]>,
    end: usize,
    back: u64,
}

impl<'a> Indices<'a> {
    #[inline]
    pub(crate) fn new(bitmap: Bitmap<'a>) -> Indices<'a> {
        let before = bitmap.offset() % 8;
        let bits = before + bitmap.len();
        let bytes = &bitmap.bytes()[bitmap.offset() / 8..][..bits.div_ceil(8)];
        let (whole, last) = bytes.split_at(bits / 64 * 8);
        let (words, back) = (whole.as_chunks().0.iter(), number_of(last) & !(!0 << (bits % 64)));
        let end = (bits / 64 * 64).wrapping_sub(before);
        let mut new = Indices { bitmap, word: 0, first: 0, words, end, back };
        if before > 0
            && let Some(bytes) = new.words.next()
        {
            // (the bit before the first value is as one that was given)
            new.word = (u64::from_le_bytes(*bytes) >> before << 1 | 1) << (before - 1);
            new.first = 0_usize.wrapping_sub(before);
        } else {
            new.back &= !0 << before;
        }
        new
    }

    // The true values that are left of the word.
    #[inline]
    fn left(&self) -> u64 {
        self.word & self.word.wrapping_sub(1)
    }

    // The index of the true value that is given.
    #[inline(always)]
    fn index(&self) -> usize {
        self.first.wrapping_add(self.word.trailing_zeros() as usize)
    }

    // The values of the words that neither end has taken.
    #[inline]
    fn between(&self) -> Bitmap<'a> {
        let count = 64 * self.words.len();
        let start = self.end.wrapping_sub(count).min(self.bitmap.len() - count);
        self.bitmap.part(start..start + count)
    }

    // Takes the next word that has a true value, and says whether there is one.
    #[cold]
    #[inline(always)]
    fn advance(&mut self) -> bool {
        while let Some(bytes) = self.words.next() {
            self.word = u64::from_le_bytes(*bytes);
            if self.word != 0 {
                self.first = self.end.wrapping_sub(64 * self.words.len() + 64);
                return true;
            }
        }
        (self.word, self.first) = (take(&mut self.back), self.end);
        self.word != 0
    }
}

impl Iterator for Indices<'_> {
    type Item = usize;

    #[inline(always)]
    fn next(&mut self) -> Option<usize> {
        self.word = self.left();
        (self.word != 0 || self.advance()).then(|| self.index())
    }

    #[inline]
    fn size_hint(&self) -> (usize, Option<usize>) {
        let least = (self.left().count_ones() + self.back.count_ones()) as usize;
        (least, Some(least + self.between().len()))
    }

    fn nth(&mut self, mut n: usize) -> Option<usize> {
        self.word = self.left();
        let here = self.word.count_ones() as usize;
        if n >= here {
            let between = self.between();
            let found = between.select(n - here);
            n = if found.is_some() { 0 } else { n - here - between.count() };
            let i = found.unwrap_or(64 * self.words.len());
            self.words = self.words.as_slice()[i / 64..].iter();
            self.advance();
            self.word &= !0 << (i % 64);
        }
        (0..n.min(64)).for_each(|_| self.word = self.left());
        (self.word != 0).then(|| self.index())
    }

    fn count(self) -> usize {
        self.size_hint().0 + self.between().count()
    }

    fn last(mut self) -> Option<usize> {
        self.next_back()
    }

    // word by word, for `sum`, `for_each` and the like
    #[inline]
    fn fold<B, F: FnMut(B, usize) -> B>(self, init: B, mut f: F) -> B {
        let mut first = self.end.wrapping_sub(64 * self.words.len());
        let mut folded = fold_word(init, self.left(), self.first, &mut f);
        for bytes in self.words {
            folded = fold_word(folded, u64::from_le_bytes(*bytes), first, &mut f);
            first = first.wrapping_add(64);
        }
        fold_word(folded, self.back, self.end, &mut f)
    }
}

// (a call for each word would take longer than all else where few values are true)
#[inline(always)]
fn fold_word<B>(init: B, mut word: u64, first: usize, f: &mut impl FnMut(B, usize) -> B) -> B {
    let mut folded = init;
    while word != 0 {
        folded = f(folded, first.wrapping_add(word.trailing_zeros() as usize));
        word &= word - 1;
    }
    folded
}

impl DoubleEndedIterator for Indices<'_> {
    #[inline]
    fn next_back(&mut self) -> Option<usize> {
        while self.back == 0
            && let Some(bytes) = self.words.next_back()
        {
            (self.back, self.end) = (u64::from_le_bytes(*bytes), self.end - 64);
        }
        if self.back == 0 {
            // what is left is in the word of the front
            (self.back, self.end, self.word) = (self.left(), self.first, 0);
        }
        let bit = self.back.checked_ilog2()?;
        self.back ^= 1 << bit;
        Some(self.end.wrapping_add(bit as usize))
    }
}

impl FusedIterator for Indices<'_> {}

impl fmt::Debug for Indices<'_> {
    fn fmt(&self, f: &mut fmt::Formatter<'_>) -> fmt::Result {
        f.debug_struct("Indices").field("bitmap", &self.bitmap).finish_non_exhaustive()
    }
}
