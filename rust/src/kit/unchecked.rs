//! The module `mask_bits::unchecked` of the proved sources, by hand: the same functions, which test for no place that it is
//! there. The contract of each is in the source, and its callers are proved to meet it. In the package of Rust, only calls
//! that test what their own contract asks lead to these callers. Those for C test nothing.
#![allow(clippy::inline_always, reason = "each is a step of loops")]

/// Word `i` of the whole words of `bytes`, the first byte lowest.
#[inline(always)]
pub fn word_of(bytes: &[u8], i: usize) -> u64 {
    debug_assert!(i < bytes.len() / 8);
    // SAFETY: the contract asks `8 * i + 8 ≤ length bytes.now`.
    u64::from_le_bytes(unsafe { bytes.as_ptr().add(8 * i).cast::<[u8; 8]>().read() })
}

/// Writes word `i` of the whole words of `bytes`.
#[inline(always)]
pub fn set_word(bytes: &mut [u8], i: usize, word: u64) {
    debug_assert!(i < bytes.len() / 8);
    // SAFETY: the contract asks `8 * i + 8 ≤ length bytes.old`.
    unsafe { bytes.as_mut_ptr().add(8 * i).cast::<[u8; 8]>().write(word.to_le_bytes()) };
}

/// Item `i`.
#[inline(always)]
pub fn item<T: Copy>(items: &[T], i: usize) -> T {
    debug_assert!(i < items.len());
    // SAFETY: the contract asks `i < length items.now`.
    *unsafe { items.get_unchecked(i) }
}

/// The `count` items from item `first` on.
#[inline(always)]
pub fn part<T>(items: &[T], first: usize, count: usize) -> &[T] {
    debug_assert!(count <= items.len() && first <= items.len() - count);
    // SAFETY: the contract asks `first + count ≤ length items.now`.
    unsafe { items.get_unchecked(first..first + count) }
}

/// The items from item `first` on.
#[inline(always)]
pub fn rest<T>(items: &[T], first: usize) -> &[T] {
    debug_assert!(first <= items.len());
    // SAFETY: the contract asks `first ≤ length items.now`.
    unsafe { items.get_unchecked(first..) }
}

/// Writes an item to place `at`.
#[inline(always)]
pub fn put<T: Copy>(out: &mut [T], at: usize, item: T) {
    debug_assert!(at < out.len());
    // SAFETY: the contract asks `at < length out.old`. (Of its callers, `push_first` of `native::processor` is by hand, which
    // calls it by way of a `Room`.)
    *unsafe { out.get_unchecked_mut(at) } = item;
}

/// Writes the bytes from `begin` to `end` behind the first `at` bytes.
#[inline(always)]
pub fn put_part(bytes: &[u8], begin: usize, end: usize, out: &mut [u8], at: usize) {
    debug_assert!(begin <= end && end <= bytes.len() && at <= out.len());
    debug_assert!(end - begin <= out.len() - at);
    // SAFETY: the contract asks `begin ≤ end`, `end ≤ length bytes.now` and `at + (end - begin) ≤ length out.old`. What is
    // borrowed to be written is borrowed by nothing else.
    unsafe {
        let to = out.as_mut_ptr().add(at);
        to.copy_from_nonoverlapping(bytes.as_ptr().add(begin), end - begin);
    }
}

/// Writes the eight bytes from `begin` on behind the first `at` bytes.
#[inline(always)]
pub fn put_eight(bytes: &[u8], begin: usize, out: &mut [u8], at: usize) {
    debug_assert!(begin <= bytes.len() && bytes.len() - begin >= 8);
    debug_assert!(at <= out.len() && out.len() - at >= 8);
    // SAFETY: the contract asks `begin + 8 ≤ length bytes.now` and `at + 8 ≤ length out.old`.
    unsafe {
        let word = bytes.as_ptr().add(begin).cast::<u64>().read_unaligned();
        out.as_mut_ptr().add(at).cast::<u64>().write_unaligned(word);
    }
}

/// Writes the lowest bytes of a word to at most eight places, in less time than a copy of so few takes.
#[expect(clippy::cast_possible_truncation, reason = "these are the lowest")]
#[inline(always)]
pub fn put_lowest(mut word: u64, out: &mut [u8]) {
    debug_assert!(out.len() <= 8);
    if let Ok(eight) = <&mut [u8; 8]>::try_from(&mut *out) {
        *eight = word.to_le_bytes();
        return;
    }
    let (fours, rest) = out.as_chunks_mut();
    if let Some(four) = fours.first_mut() {
        *four = (word as u32).to_le_bytes();
        word >>= 32;
    }
    let (twos, ones) = rest.as_chunks_mut();
    if let Some(two) = twos.first_mut() {
        *two = (word as u16).to_le_bytes();
        word >>= 16;
    }
    if let Some(one) = ones.first_mut() {
        *one = word as u8;
    }
}

#[cfg(test)]
mod tests {
    /// As by a copy.
    #[test]
    fn few_bytes_are_written() {
        let bytes = [30, 60, 90, 120, 150, 180, 210, 240];
        for count in 0..=8 {
            let mut out = [7; 9];
            super::put_lowest(u64::from_le_bytes(bytes), &mut out[..count]);
            assert_eq!((&out[..count], &out[count..]), (&bytes[..count], &[7; 9][count..]));
        }
    }
}
