//! Rows and strings chosen, asked, added up and found.

use crate::by_hand::bits::count;

pub fn choose(words: &[u64], rows: &[u64]) -> Vec<u64> {
    let mut out = vec![0; count(words)];
    let mut filled = 0;
    for (word, rows) in words.iter().zip(rows.chunks(64)) {
        if *word == !0 {
            out[filled..filled + 64].copy_from_slice(rows);
            filled += 64;
            continue;
        }
        let mut left = *word;
        while left != 0 {
            out[filled] = rows[left.trailing_zeros() as usize];
            filled += 1;
            left &= left - 1;
        }
    }
    out
}

/// The rows at indices that were listed before.
pub fn gathered(indices: &[u32], rows: &[u64]) -> Vec<u64> {
    indices.iter().map(|i| rows[*i as usize]).collect()
}

pub fn strings(indices: &[u32], (offsets, bytes): &(Vec<u32>, Vec<u8>)) -> (Vec<u32>, Vec<u8>) {
    let part = |i: u32| offsets[i as usize] as usize..offsets[i as usize + 1] as usize;
    let (mut ends, mut chosen) = (Vec::with_capacity(indices.len() + 1), Vec::new());
    ends.push(0);
    chosen.reserve(indices.iter().map(|i| part(*i).len()).sum());
    for i in indices {
        chosen.extend_from_slice(&bytes[part(*i)]);
        ends.push(u32::try_from(chosen.len()).unwrap());
    }
    (ends, chosen)
}

pub fn retained(words: &[u64], is_kept: impl Fn(usize) -> bool) -> Vec<u64> {
    let kept = |(k, word): (usize, &u64)| {
        let (mut left, mut kept) = (*word, 0);
        while left != 0 {
            let low = left & left.wrapping_neg();
            kept |= low & u64::from(is_kept(64 * k + low.trailing_zeros() as usize)).wrapping_neg();
            left ^= low;
        }
        kept
    };
    words.iter().enumerate().map(kept).collect()
}

pub fn choose_by_pushes(words: &[u64], rows: &[u64]) -> Vec<u64> {
    let mut out = Vec::with_capacity(count(words));
    for (word, rows) in words.iter().zip(rows.chunks(64)) {
        let mut left = *word;
        while left != 0 {
            out.push(rows[left.trailing_zeros() as usize]);
            left &= left - 1;
        }
    }
    out
}

/// Each row is written, and the next one over it where it isn't chosen.
pub fn choose_all(words: &[u64], rows: &[u64]) -> Vec<u64> {
    let count = count(words);
    let mut out = vec![0; count + 1];
    let mut filled = 0;
    for (word, rows) in words.iter().zip(rows.chunks(64)) {
        for (bit, row) in rows.iter().enumerate() {
            out[filled] = *row;
            filled += (word >> bit & 1) as usize;
        }
    }
    out.truncate(count);
    out
}

pub fn sum_of_rows(words: &[u64], rows: &[u64]) -> u64 {
    let mut sum = 0;
    for (i, word) in words.iter().enumerate() {
        let mut left = *word;
        while left != 0 {
            sum += rows[64 * i + left.trailing_zeros() as usize];
            left &= left - 1;
        }
    }
    sum
}

pub fn sum_of_indices(words: &[u64]) -> u64 {
    let mut sum = 0;
    for (i, word) in words.iter().enumerate() {
        let mut left = *word;
        while left != 0 {
            sum += 64 * i + left.trailing_zeros() as usize;
            left &= left - 1;
        }
    }
    sum as u64
}

/// The rows whose value is true, looked at one by one.
pub fn found(words: &[u64], rows: &[u64], found: &mut Vec<u64>) -> u64 {
    found.clear();
    for (i, row) in rows.iter().enumerate() {
        if words[i / 64] >> (i % 64) & 1 == 1 {
            found.push(*row);
        }
    }
    found.len() as u64
}

pub fn found_by_words(words: &[u64], rows: &[u64], found: &mut Vec<u64>) -> u64 {
    found.clear();
    for (word, rows) in words.iter().zip(rows.chunks(64)) {
        let mut word = *word;
        for row in rows {
            if word & 1 == 1 {
                found.push(*row);
            }
            word >>= 1;
        }
    }
    found.len() as u64
}
