//! What calls of `Mask` do, over words.

use crate::Call;
use crate::by_hand::bits::{and, bit_by_bit, by_pdep};
use crate::by_hand::{byte, last};
use crate::lists::{Lists, Packed};
use crate::ours::listed;
use std::arch::x86_64::_pdep_u64;

pub fn calls<'a>(lists: &'a Lists, name: &str) -> Vec<Call<'a>> {
    let Packed { list: a, other: b, ranks, .. } = &lists.packed;
    let len = lists.len;
    match name {
        "Mask::intersect_by_rank" => vec![
            Box::new(move || last(&by_pdep(a, ranks), len)),
            Box::new(move || last(&bit_by_bit(a, ranks), len)),
        ],
        "Mask::bitand" => vec![Box::new(move || last(&and(a, b), len))],
        "Mask::bitor" => vec![Box::new(move || last(&or(a, b), len))],
        "Mask::not" => vec![Box::new(move || last(&not(a, len), len))],
        "Mask::to_bitand_not" => vec![Box::new(move || last(&and_not(a, b), len))],
        "Mask::indices" => vec![
            Box::new(move || last_item(&one_by_one(a.iter().copied()))),
            Box::new(move || last_item(&by_parts::<4>(a.iter().copied()))),
            Box::new(move || last_item(&by_parts::<8>(a.iter().copied()))),
        ],
        "Mask::slices" => vec![
            Box::new(move || last_item(&one_by_one(edges(a)))),
            Box::new(move || last_item(&by_parts::<4>(edges(a)))),
            Box::new(move || last_item(&by_parts::<8>(edges(a)))),
        ],
        "Mask::to_limited" => {
            let (count, at) = lists.half();
            vec![
                Box::new(move || byte(&limited(a, count, lowest), at)),
                Box::new(move || byte(&limited_by_pdep(a, count), at)),
            ]
        }
        "Mask::concat" => vec![Box::new(move || last(&joined(a, len - 1, b), 2 * len - 1))],
        _ => vec![],
    }
}

fn last_item(list: &[usize]) -> u64 {
    listed(list.len(), list.last().copied().unwrap_or(0))
}

fn or(a: &[u64], b: &[u64]) -> Vec<u64> {
    a.iter().zip(b).map(|(a, b)| a | b).collect()
}

fn and_not(a: &[u64], b: &[u64]) -> Vec<u64> {
    a.iter().zip(b).map(|(a, b)| a & !b).collect()
}

fn not(words: &[u64], len: usize) -> Vec<u64> {
    let mut out: Vec<u64> = words.iter().map(|word| !word).collect();
    if !len.is_multiple_of(64) {
        out[len / 64] &= (1 << (len % 64)) - 1;
    }
    out
}

/// The indices of the set bits.
fn one_by_one(words: impl Iterator<Item = u64> + Clone) -> Vec<usize> {
    let count = words.clone().map(|word| word.count_ones() as usize).sum();
    let mut out = Vec::with_capacity(count);
    for (i, word) in words.enumerate() {
        let mut left = word;
        while left != 0 {
            out.push(64 * i + left.trailing_zeros() as usize);
            left &= left - 1;
        }
    }
    out
}

/// The same, so many at a time, with no test for words that have none: those past the last one of a word are written over,
/// or stand in room behind the list.
fn by_parts<const N: usize>(words: impl Iterator<Item = u64> + Clone) -> Vec<usize> {
    if !is_x86_feature_detected!("bmi1") {
        return one_by_one(words);
    }
    #[target_feature(enable = "bmi1,popcnt")]
    fn list<const N: usize>(words: impl Iterator<Item = u64> + Clone) -> Vec<usize> {
        let count: usize = words.clone().map(|word| word.count_ones() as usize).sum();
        let mut out = Vec::with_capacity(count + N);
        let (room, mut filled): (*mut usize, usize) = (out.as_mut_ptr(), 0);
        for (i, word) in words.enumerate() {
            let (mut left, end) = (word, filled + word.count_ones() as usize);
            loop {
                for k in 0..N {
                    // SAFETY: `filled` is at most the count, and there is room for so many more.
                    unsafe { *room.add(filled + k) = 64 * i + left.trailing_zeros() as usize };
                    left &= left.wrapping_sub(1);
                }
                filled += N;
                if filled >= end {
                    break;
                }
            }
            filled = end;
        }
        // SAFETY: so many were written.
        unsafe { out.set_len(count) };
        out
    }
    // SAFETY: the processor has both.
    unsafe { list::<N>(words) }
}

/// Where runs begin and where they end, as set bits, of a list whose last value is false: the indices of these are the
/// runs.
fn edges(words: &[u64]) -> impl Iterator<Item = u64> + Clone {
    words.iter().scan(0, |before, word| {
        let edges = word ^ (word << 1 | *before);
        *before = word >> 63;
        Some(edges)
    })
}

/// The first `k` set bits of more.
fn limited(words: &[u64], k: usize, lowest: impl Fn(u64, usize) -> u64) -> Vec<u64> {
    let (mut left, mut at) = (k, 0);
    while words[at].count_ones() as usize <= left {
        left -= words[at].count_ones() as usize;
        at += 1;
    }
    let mut out = vec![0; words.len()];
    out[..at].copy_from_slice(&words[..at]);
    out[at] = lowest(words[at], left);
    out
}

/// The lowest `k` set bits of a word.
fn lowest(word: u64, k: usize) -> u64 {
    word ^ (0..k).fold(word, |left, _| left & (left - 1))
}

fn limited_by_pdep(words: &[u64], k: usize) -> Vec<u64> {
    if !is_x86_feature_detected!("bmi2") {
        return limited(words, k, lowest);
    }
    #[target_feature(enable = "bmi2")]
    fn deposited(word: u64, k: usize) -> u64 {
        _pdep_u64((1 << k) - 1, word)
    }
    // SAFETY: the processor has it.
    limited(words, k, |word, k| unsafe { deposited(word, k) })
}

/// One list behind another. No bit of the first one is set past its last value.
fn joined(a: &[u64], a_len: usize, b: &[u64]) -> Vec<u64> {
    let (whole, by) = (a_len / 64, a_len % 64);
    let mut out = Vec::with_capacity(whole + b.len() + 1);
    out.extend_from_slice(&a[..whole]);
    if by == 0 {
        out.extend_from_slice(b);
        return out;
    }
    out.push(a[whole] | b[0] << by);
    out.extend(b.windows(2).map(|two| two[0] >> (64 - by) | two[1] << by));
    out.push(b[b.len() - 1] >> (64 - by));
    out
}
