//! Calls of buffers under their plain names. Each panics where a condition is broken, as the one does whose name begins with
//! `try_`, and ends the process where memory is refused.

use crate::bitmap::ends_of;
use crate::memory::granted;
use crate::proved::mask_bits::{BitBuffer, BitBufferMut};
use alloc::vec::Vec;
use core::cell::UnsafeCell;
use core::ops::RangeBounds;

/// A test that may change what it has, for a loop that takes one which doesn't.
///
/// # Safety
/// No call of it begins within another.
#[inline]
pub(crate) unsafe fn as_fn<T>(test: impl FnMut(&T) -> bool) -> impl Fn(&T) -> bool {
    let test = UnsafeCell::new(test);
    // SAFETY: nobody else has it, and it isn't borrowed when a call begins, as is asked.
    move |row| unsafe { (*test.get())(row) }
}

impl BitBuffer {
    /// The first `len` bits of bytes, which are copied where they are 16 or fewer. `From<BitmapBuf>` and `collect` make buffers
    /// too.
    ///
    /// # Panics
    /// Where the bytes have fewer bits.
    #[inline]
    #[must_use]
    #[track_caller]
    pub fn from_vec(bytes: Vec<u8>, len: usize) -> BitBuffer {
        granted(BitBuffer::try_from_vec(bytes, len), len)
    }

    /// A buffer of `len` true values.
    #[inline]
    #[must_use]
    pub fn new_set(len: usize) -> BitBuffer {
        granted(BitBuffer::try_new_set(len), len)
    }

    /// A buffer of `len` false values.
    #[inline]
    #[must_use]
    pub fn new_unset(len: usize) -> BitBuffer {
        granted(BitBuffer::try_new_unset(len), len)
    }

    /// A buffer of `len` values, of which those at these indices are true. They may come in any order, and again.
    ///
    /// # Panics
    /// Where an index is past the end.
    #[must_use]
    #[track_caller]
    pub fn from_indices(len: usize, indices: impl IntoIterator<Item = usize>) -> BitBuffer {
        granted(BitBuffer::try_from_indices(len, &Vec::from_iter(indices)), len)
    }

    /// The values. It is `collect` by a name of its own.
    #[inline]
    #[must_use]
    pub fn from_bools(bools: impl IntoIterator<Item = bool>) -> BitBuffer {
        granted(BitBuffer::try_from_bools(bools), 0)
    }

    /// What a test says of each row, in their order.
    #[inline]
    #[must_use]
    pub fn from_rows<T>(rows: &[T], test: impl FnMut(&T) -> bool) -> BitBuffer {
        // SAFETY: the test is asked of one row after another.
        granted(BitBuffer::try_from_rows(rows, unsafe { as_fn(test) }), rows.len())
    }

    /// The values that are true here and of whose rows a test says so too. It is a plain function of a row: where few of
    /// 64 values are true it is asked of their rows alone, and else of all 64 together.
    ///
    /// # Panics
    /// Where there are more or fewer rows than values.
    #[inline]
    #[must_use]
    #[track_caller]
    pub fn and_rows<T>(&self, rows: &[T], test: impl Fn(&T) -> bool) -> BitBuffer {
        granted(self.try_and_rows(rows, test), rows.len())
    }

    /// The values in a range, without a copy.
    ///
    /// # Panics
    /// Where the range ends before it starts, or passes the end.
    #[inline]
    #[must_use]
    #[track_caller]
    pub fn slice(&self, range: impl RangeBounds<usize>) -> BitBuffer {
        let (start, end) = ends_of(&range, self.len());
        granted(self.try_slice(start, end), self.len())
    }

    /// The values that are true here and false in the other.
    ///
    /// # Panics
    /// Where the lengths differ.
    #[inline]
    #[must_use]
    #[track_caller]
    pub fn bitand_not(&self, other: &BitBuffer) -> BitBuffer {
        granted(self.try_bitand_not(other), self.len())
    }

    /// The same, in this one's bytes where nobody else holds them.
    ///
    /// # Panics
    /// Where the lengths differ.
    #[inline]
    #[must_use]
    #[track_caller]
    pub fn into_bitand_not(self, other: &BitBuffer) -> BitBuffer {
        granted(self.try_into_bitand_not(other), other.len())
    }

    /// The values of another buffer at the true values of this one.
    ///
    /// # Panics
    /// Where the lengths differ.
    #[inline]
    #[must_use]
    #[track_caller]
    pub fn choose_values(&self, of: &BitBuffer) -> BitBuffer {
        granted(self.try_choose_values(of), self.len())
    }

    /// The indices of the true values, ascending, of which there are `true_count`.
    ///
    /// # Panics
    /// Where there are more or fewer.
    #[inline]
    #[must_use]
    #[track_caller]
    pub fn indices(&self, true_count: usize) -> Vec<usize> {
        granted(self.try_indices(true_count), usize::BITS as usize * true_count)
    }

    /// The runs of true values, ascending, each its first index and the index past its last.
    #[inline]
    #[must_use]
    pub fn runs(&self) -> Vec<(usize, usize)> {
        granted(self.try_runs(), self.len())
    }
}

impl BitBufferMut {
    /// No value, with room for so many.
    #[inline]
    #[must_use]
    pub fn with_capacity(values: usize) -> BitBufferMut {
        granted(BitBufferMut::try_with_capacity(values), values)
    }

    /// So many true values.
    #[inline]
    #[must_use]
    pub fn new_set(len: usize) -> BitBufferMut {
        granted(BitBufferMut::try_new_set(len), len)
    }

    /// So many false values.
    #[inline]
    #[must_use]
    pub fn new_unset(len: usize) -> BitBufferMut {
        granted(BitBufferMut::try_new_unset(len), len)
    }

    /// Appends a value `n` times.
    ///
    /// # Panics
    /// Where the sum of the lengths doesn't fit.
    #[inline]
    #[track_caller]
    pub fn append_n(&mut self, value: bool, n: usize) {
        granted(self.try_append_n(value, n), n);
    }

    /// Appends the values of a buffer.
    #[inline]
    pub fn append_buffer(&mut self, other: &BitBuffer) {
        granted(self.try_append_buffer(other), other.len());
    }

    /// Appends the lowest `count` bits of a word, the lowest first.
    ///
    /// # Panics
    /// Where `count` is above 64, or other bits of the word are set.
    #[inline]
    #[track_caller]
    pub fn push_word(&mut self, word: u64, count: usize) {
        granted(self.try_push_word(word, count), count);
    }

    /// A buffer of the same values.
    #[inline]
    #[must_use]
    pub fn freeze(self) -> BitBuffer {
        let len = self.len();
        granted(self.try_freeze(), len)
    }
}
