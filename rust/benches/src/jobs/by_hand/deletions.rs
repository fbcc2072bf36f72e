//! Deletion vectors: one over another, deletions by the ranks of the rows that were left, and bits of the rows left.

use super::Words;
use crate::columns::Columns;
use std::arch::x86_64::{_pdep_u64, _pext_u64};

/// The rows that either deletes.
#[target_feature(enable = "avx2,bmi1,bmi2,popcnt")]
pub fn merged(columns: &Columns) -> Words {
    let words = columns.len.div_ceil(64);
    let pairs = columns.chosen[..words].iter().zip(&columns.other[..words]);
    Words { words: pairs.map(|(a, b)| a | b).collect(), len: columns.len }
}

/// The rows that are deleted, and those that are deleted by their rank among the rows left.
#[target_feature(enable = "avx2,bmi1,bmi2,popcnt")]
pub fn deleted_by_ranks(columns: &Columns) -> Words {
    let (words, ranks) = (columns.len.div_ceil(64), &columns.ranks);
    let mut read = 0;
    let deleted = |word: &u64| {
        let (low, at) = (read % 64, read / 64);
        let next = ranks.get(at + 1).copied().unwrap_or(0);
        let bits = ranks[at] >> low | if low == 0 { 0 } else { next << (64 - low) };
        read += word.count_zeros() as usize;
        word | _pdep_u64(bits, !word)
    };
    let mut words: Vec<u64> = columns.chosen[..words].iter().map(deleted).collect();
    if let (Some(last), low @ 1..) = (words.last_mut(), columns.len % 64) {
        *last &= (1 << low) - 1;
    }
    Words { words, len: columns.len }
}

/// The bits of the rows left, one behind another.
#[target_feature(enable = "avx2,bmi1,bmi2,popcnt")]
pub fn renumbered(columns: &Columns) -> Words {
    let words = columns.len.div_ceil(64);
    let mut out = Vec::with_capacity(words + 1);
    let (mut filled, mut word, mut len) = (0, 0, 0);
    let below = |i| if 64 * (i + 1) <= columns.len { !0 } else { (1 << (columns.len % 64)) - 1 };
    for i in 0..words {
        let left = !columns.chosen[i] & below(i);
        let bits = _pext_u64(columns.other[i], left);
        let count = left.count_ones();
        word |= bits << filled;
        len += count as usize;
        if filled + count >= 64 {
            out.push(word);
            word = if filled == 0 { 0 } else { bits >> (64 - filled) };
            filled = filled + count - 64;
        } else {
            filled += count;
        }
    }
    if filled > 0 {
        out.push(word);
    }
    Words { words: out, len }
}
