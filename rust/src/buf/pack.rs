//! Truth values that are packed.

use crate::BitmapBuf;
use crate::bitmap::room::{as_items, reserve};
use crate::kit::unchecked::put_lowest;
use crate::memory::granted;
use crate::native::levelled;
use crate::proved::mask_bits::from_rows::{word_of_rows, word_of_whole};
use crate::proved::mask_c;
use core::mem::MaybeUninit;

// Bytes that are asked for ahead by a number that nothing has borne out yet, such as an iterator's hint.
pub(super) const AHEAD: usize = 1 << 20;

// Values asked for before they are packed, in the nearest memory: a multiple of 64. As bytes they take 1.2 of the time.
const BLOCK: usize = 1024;
type Block = [MaybeUninit<u16>; BLOCK];

// To pack so few values takes less time than to ask what the processor has.
#[cfg(target_arch = "x86_64")]
const FEW: usize = 128;

/// Takes values, as many as there are or as the block has places, and returns how many these are.
#[inline]
fn take(block: &mut [MaybeUninit<u16>], values: impl Iterator<Item = bool>) -> usize {
    let mut count = 0;
    for (place, value) in block.iter_mut().zip(values) {
        place.write(value.into());
        count += 1;
    }
    count
}

/// Writes each byte of `value(0)`, `value(1)` and so on, to just the bytes that `len` values take.
pub(super) fn pack_fn(len: usize, mut value: impl FnMut(usize) -> bool, out: &mut [u8]) {
    let mut block = [MaybeUninit::uninit(); BLOCK];
    for (out, start) in out.chunks_mut(BLOCK / 8).zip((0..len).step_by(BLOCK)) {
        let count = take(&mut block, (start..len.min(start + BLOCK)).map(&mut value));
        pack_block(&mut block, count, out);
    }
}

/// Writes each byte of the first `len` values of an iterator, to just the bytes that they take, and returns how many there
/// were. Where they are fewer, false ones follow.
pub(super) fn pack_first(
    len: usize,
    mut values: impl Iterator<Item = bool>,
    out: &mut [u8],
) -> usize {
    let (mut block, mut taken) = ([MaybeUninit::uninit(); BLOCK], 0);
    let mut parts = out.chunks_mut(BLOCK / 8);
    for (out, start) in parts.by_ref().zip((0..len).step_by(BLOCK)) {
        let wanted = BLOCK.min(len - start);
        taken += take(&mut block[..wanted], values.by_ref());
        let missing = start + wanted - taken;
        block[wanted - missing..wanted].fill(MaybeUninit::new(0));
        pack_block(&mut block, wanted, out);
        if missing > 0 {
            break;
        }
    }
    parts.for_each(|out| out.fill(0));
    taken
}

/// Writes each byte of the first `count` values of a block, which were taken, to just the bytes that they take.
fn pack_block(block: &mut Block, count: usize, out: &mut [u8]) {
    // (as whole words, which take less time than some of one)
    let whole = count.next_multiple_of(64);
    block[count..whole].fill(MaybeUninit::new(0));
    // SAFETY: these were written, here or before.
    let values = unsafe { as_items(&mut block[..whole]) };
    pack_words(values, out);
}

levelled! {
    to v4 where false, if out.len() > FEW / 8;
    fn pack_words(values: &[u16], out: &mut [u8]) {
        for (out, values) in out.chunks_mut(8).zip(values.as_chunks::<64>().0) {
            put_lowest(word_of_whole(values, &mut |it| *it != 0), out);
        }
    }
}

// Writes each byte of what is asked of rows, to just the bytes that they take.
levelled! {
    to v4 where size_of::<T>() >= 4, if rows.len() > FEW;
    pub(super) fn pack_rows<T>(rows: &[T], is_true: impl FnMut(&T) -> bool, out: &mut [u8]) {
        let (is_true, (whole, rest)) = (&mut { is_true }, rows.as_chunks::<64>());
        let (words, last) = out.split_at_mut(8 * whole.len());
        for (out, rows) in words.as_chunks_mut().0.iter_mut().zip(whole) {
            *out = word_of_whole(rows, is_true).to_le_bytes();
        }
        put_lowest(word_of_rows(rest, is_true), last);
    }
}

impl FromIterator<bool> for BitmapBuf {
    fn from_iter<I: IntoIterator<Item = bool>>(values: I) -> BitmapBuf {
        let mut made = BitmapBuf::default();
        made.extend(values);
        made
    }
}

/// Adds values after the last one.
impl Extend<bool> for BitmapBuf {
    fn extend<I: IntoIterator<Item = bool>>(&mut self, values: I) {
        let mut values = values.into_iter();
        while !self.len.is_multiple_of(8) {
            let Some(value) = values.next() else { return };
            self.push(value);
        }
        let ahead = mask_c::row_mask_room(values.size_hint().0).min(AHEAD);
        granted(reserve(&mut self.bytes, ahead), 8 * ahead);
        let mut block = [MaybeUninit::uninit(); BLOCK];
        loop {
            if self.bytes.capacity() - self.bytes.len() < BLOCK / 8 {
                // (a hint that was right for so long: if it is refused, room is made for what comes)
                let _ = self.bytes.try_reserve(mask_c::row_mask_room(values.size_hint().0));
            }
            let count = take(&mut block, values.by_ref());
            // SAFETY: it writes each byte and reads none before, and the last byte has eight values.
            let added = unsafe { self.add(count, |out| pack_block(&mut block, count, out)) };
            granted(added, count);
            if count < BLOCK {
                return;
            }
        }
    }
}
