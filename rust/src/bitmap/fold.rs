//! Rows folded where they lie, by words of a bitmap.
#![allow(
    clippy::inline_always,
    reason = "each step is compiled for what the function around it has"
)]

use crate::native::levelled;
use crate::proved::mask_bits::BitChunks;
use crate::{Bitmap, BitmapBuf, Error};

// To fold the rows of so few values takes less time than to ask what the processor has.
#[cfg(target_arch = "x86_64")]
const FEW: usize = 128;

impl Bitmap<'_> {
    /// Folds the rows at the true values, in their order, and copies none of them: `fold` gets `init` with the first of
    /// these rows, what it answers then with the next one, and so on.
    ///
    /// ```
    /// let (prices, rows) = ([250, 700, 120], row_mask::BitmapBuf::from(&[true, false, true][..]));
    /// let most = rows.fold_chosen(&prices, None, |most, price| most.max(Some(*price)))?;
    /// assert_eq!(most, Some(250));
    /// # Ok::<(), row_mask::Error>(())
    /// ```
    ///
    /// # Errors
    /// [`Error::RowsDiffer`] where there is not one row for each value.
    pub fn fold_chosen<T, A>(
        self,
        rows: &[T],
        init: A,
        fold: impl FnMut(A, &T) -> A,
    ) -> Result<A, Error> {
        self.has_one_for_each(rows.len())?;
        Ok(fold_set_bits(self.chunks(), rows, init, fold))
    }

    /// Folds all rows, each with whether its value is true, in their order: `fold` gets `init` with the first row, what it
    /// answers then with the next one, and so on. A compiler can do simple steps for several rows at once, such as this
    /// sum of a column with nulls, whose validity is a bitmap. It takes less time than
    /// [`fold_chosen`](Self::fold_chosen), unless few values are true. Floats are added one after another, in their order:
    /// their sum takes less time by [`fold_chosen`](Self::fold_chosen).
    ///
    /// ```
    /// let (prices, valid) = ([250, 0, 120], row_mask::BitmapBuf::from(&[true, false, true][..]));
    /// let add = |sum, price: &u64, is_valid| sum + if is_valid { *price } else { 0 };
    /// assert_eq!(valid.fold_rows(&prices, 0, add)?, 370);
    /// # Ok::<(), row_mask::Error>(())
    /// ```
    ///
    /// # Errors
    /// [`Error::RowsDiffer`] where there is not one row for each value.
    #[doc(alias = "sum")]
    pub fn fold_rows<T, A>(
        self,
        rows: &[T],
        init: A,
        fold: impl FnMut(A, &T, bool) -> A,
    ) -> Result<A, Error> {
        self.has_one_for_each(rows.len())?;
        Ok(fold_bits(self.chunks(), rows, init, fold))
    }
}

impl BitmapBuf {
    /// Folds the rows at the true values: [`Bitmap::fold_chosen`].
    ///
    /// # Errors
    /// [`Error::RowsDiffer`].
    #[inline]
    pub fn fold_chosen<T, A>(
        &self,
        rows: &[T],
        init: A,
        fold: impl FnMut(A, &T) -> A,
    ) -> Result<A, Error> {
        self.as_bitmap().fold_chosen(rows, init, fold)
    }

    /// Folds all rows, each with whether its value is true: [`Bitmap::fold_rows`].
    ///
    /// # Errors
    /// [`Error::RowsDiffer`].
    #[doc(alias = "sum")]
    #[inline]
    pub fn fold_rows<T, A>(
        &self,
        rows: &[T],
        init: A,
        fold: impl FnMut(A, &T, bool) -> A,
    ) -> Result<A, Error> {
        self.as_bitmap().fold_rows(rows, init, fold)
    }
}

levelled! {
    where rows.len() > FEW;
    fn fold_set_bits<T, A>(
        words: BitChunks<'_>,
        rows: &[T],
        init: A,
        fold: impl FnMut(A, &T) -> A,
    ) -> A {
        let (fold, mut so_far) = (&mut { fold }, init);
        let (whole, rest) = rows.as_chunks::<64>();
        for (i, rows) in whole.iter().enumerate() {
            so_far = match words.word_proved(i) {
                u64::MAX => rows.iter().fold(so_far, &mut *fold),
                word => fold_word(word, rows, so_far, fold),
            };
        }
        fold_word(words.remainder_bits(), rest, so_far, fold)
    }
}

#[inline(always)]
fn fold_word<T, A>(
    mut word: u64,
    rows: &[T],
    mut so_far: A,
    fold: &mut impl FnMut(A, &T) -> A,
) -> A {
    while word != 0 {
        so_far = fold(so_far, &rows[word.trailing_zeros() as usize]);
        word &= word - 1;
    }
    so_far
}

levelled! {
    where rows.len() > FEW;
    fn fold_bits<T, A>(
        words: BitChunks<'_>,
        rows: &[T],
        init: A,
        fold: impl FnMut(A, &T, bool) -> A,
    ) -> A {
        let (fold, mut so_far) = (&mut { fold }, init);
        let (whole, rest) = rows.as_chunks::<64>();
        for (i, rows) in whole.iter().enumerate() {
            so_far = fold_all(words.word_proved(i), rows, so_far, fold);
        }
        fold_all(words.remainder_bits(), rest, so_far, fold)
    }
}

#[inline(always)]
fn fold_all<T, A>(word: u64, rows: &[T], so_far: A, fold: &mut impl FnMut(A, &T, bool) -> A) -> A {
    rows.iter()
        .enumerate()
        .fold(so_far, |so_far, (bit, row)| fold(so_far, row, word >> bit & 1 == 1))
}
