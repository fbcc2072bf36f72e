//! Bits counted, combined, compared, put at ranks and chosen.

use crate::lists::{Lists, OFFSETS};
use std::arch::x86_64::{_pdep_u64, _pext_u64};

pub fn count(words: &[u64]) -> usize {
    words.iter().map(|word| word.count_ones() as usize).sum()
}

/// Of at most 128 values, which takes no memory.
pub fn and_of_few(a: &[u64], b: &[u64]) -> [u64; 2] {
    let mut out = [0; 2];
    for ((out, a), b) in out.iter_mut().zip(a).zip(b) {
        *out = a & b;
    }
    out
}

pub fn and(a: &[u64], b: &[u64]) -> Vec<u64> {
    a.iter().zip(b).map(|(a, b)| a & b).collect()
}

/// 64 bits from a bit on, with bytes behind them to read.
#[inline]
fn word_at(bytes: &[u8], bit: usize) -> u64 {
    let at = &bytes[bit / 8..bit / 8 + 9];
    let low = u64::from_le_bytes(at[..8].try_into().unwrap());
    low >> (bit % 8) | u64::from(at[8]) << 1 << (63 - bit % 8)
}

pub fn and_moved(a: &[u8], b: &[u8], len: usize) -> Vec<u64> {
    let both = |i| word_at(a, OFFSETS.0 + 64 * i) & word_at(b, OFFSETS.1 + 64 * i);
    (0..len.div_ceil(64)).map(both).collect()
}

pub fn equal_moved(a: &[u8], b: &[u64], len: usize) -> bool {
    (0..len.div_ceil(64)).all(|i| word_at(a, OFFSETS.0 + 64 * i) == b[i])
}

/// The 64 ranks from one on, with words behind them to read.
#[inline]
fn ranks_at(ranks: &[u64], at: usize) -> u64 {
    ranks[at / 64] >> (at % 64) | ranks[at / 64 + 1] << 1 << (63 - at % 64)
}

pub fn by_pdep(mask: &[u64], ranks: &[u64]) -> Vec<u64> {
    if !is_x86_feature_detected!("bmi2") {
        return bit_by_bit(mask, ranks);
    }
    #[target_feature(enable = "bmi2,popcnt")]
    fn deposited(mask: &[u64], ranks: &[u64]) -> Vec<u64> {
        let (mut out, mut at) = (Vec::with_capacity(mask.len()), 0);
        for word in mask {
            out.push(_pdep_u64(ranks_at(ranks, at), *word));
            at += word.count_ones() as usize;
        }
        out
    }
    // SAFETY: the processor has both.
    unsafe { deposited(mask, ranks) }
}

pub fn bit_by_bit(mask: &[u64], ranks: &[u64]) -> Vec<u64> {
    let (mut out, mut at) = (Vec::with_capacity(mask.len()), 0);
    for word in mask {
        let (mut left, mut taken, mut made) = (*word, ranks_at(ranks, at), 0);
        while left != 0 {
            let low = left & left.wrapping_neg();
            made |= low & (taken & 1).wrapping_neg();
            taken >>= 1;
            left ^= low;
        }
        out.push(made);
        at += word.count_ones() as usize;
    }
    out
}

/// The bits of `b` at the set bits of `a`, and how many they are.
pub fn by_pext(a: &[u64], b: &[u64]) -> (Vec<u64>, usize) {
    if !is_x86_feature_detected!("bmi2") {
        return bits_one_by_one(a, b);
    }
    #[target_feature(enable = "bmi2,popcnt")]
    fn extracted(a: &[u64], b: &[u64]) -> (Vec<u64>, usize) {
        let mut made = Joined::new(a.len());
        for (mask, source) in a.iter().zip(b) {
            made.push(_pext_u64(*source, *mask), mask.count_ones());
        }
        made.done()
    }
    // SAFETY: the processor has both.
    unsafe { extracted(a, b) }
}

pub fn bits_one_by_one(a: &[u64], b: &[u64]) -> (Vec<u64>, usize) {
    let mut made = Joined::new(a.len());
    for (mask, source) in a.iter().zip(b) {
        let (mut left, mut word, mut count) = (*mask, 0, 0);
        while left != 0 {
            word |= (source >> left.trailing_zeros() & 1) << count;
            count += 1;
            left &= left - 1;
        }
        made.push(word, count);
    }
    made.done()
}

/// Bits of words, one behind another.
struct Joined {
    words: Vec<u64>,
    begun: u64,
    low: u32,
}

impl Joined {
    fn new(words: usize) -> Joined {
        Joined { words: Vec::with_capacity(words + 1), begun: 0, low: 0 }
    }

    #[inline]
    fn push(&mut self, word: u64, count: u32) {
        let next = self.low + count;
        self.begun |= word << self.low;
        if next >= 64 {
            self.words.push(self.begun);
            self.begun = word >> 1 >> (63 - self.low);
        }
        self.low = next % 64;
    }

    fn done(mut self) -> (Vec<u64>, usize) {
        let count = 64 * self.words.len() + self.low as usize;
        self.words.push(self.begun);
        (self.words, count)
    }
}

pub fn filtered(lists: &Lists) -> Vec<bool> {
    let pairs = lists.list.iter().zip(&lists.other);
    pairs.filter(|(is_chosen, _)| **is_chosen).map(|(_, value)| *value).collect()
}

/// Each value is written, and the next one over it where it isn't chosen.
pub fn filtered_in_room(lists: &Lists) -> Vec<bool> {
    let (mut out, mut filled) = (vec![false; lists.len + 1], 0);
    for (is_chosen, value) in lists.list.iter().zip(&lists.other) {
        out[filled] = *value;
        filled += usize::from(*is_chosen);
    }
    out.truncate(filled);
    out
}
