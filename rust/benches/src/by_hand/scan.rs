//! The scan, from its first predicate to the digest.

use crate::by_hand::bits::{by_pext, count};
use crate::by_hand::pack::packed_by_avx2;
use crate::by_hand::rows::{gathered, retained, strings};
use crate::lists::{Lists, is_named, is_small};
use crate::ours::digest_of_scan;
use std::hint::black_box;

/// The scan, by comparisons of eight rows, a loop over bits, a list of indices, and `pext`.
pub fn scan(lists: &Lists, kept: fn(&mut [u64], &Lists) -> Vec<u32>) -> u64 {
    let mut left = packed_by_avx2(&lists.column, lists.share);
    for (word, there) in left.iter_mut().zip(&lists.there) {
        *word &= there;
    }
    let indices = kept(&mut left, lists);
    let rows = gathered(&indices, &lists.rows);
    let column: Vec<u32> = indices.iter().map(|i| lists.column[*i as usize]).collect();
    let names = strings(&indices, &lists.texts);
    let (_, count) = black_box(by_pext(&left, &lists.packed.other));
    digest_of_scan(&rows, &column, &names, count)
}

fn text_of((offsets, bytes): &(Vec<u32>, Vec<u8>), i: usize) -> &[u8] {
    &bytes[offsets[i] as usize..offsets[i + 1] as usize]
}

/// Leaves the bits set whose rows meet both predicates, and lists these, with a branch for each.
pub fn kept_as_they_come(left: &mut [u64], lists: &Lists) -> Vec<u32> {
    let mut indices = Vec::with_capacity(count(left));
    for (base, word) in (0..).step_by(64).zip(left) {
        let (mut bits, mut kept) = (*word, 0);
        while bits != 0 {
            let low = bits & bits.wrapping_neg();
            let i = base + low.trailing_zeros();
            let at = i as usize;
            if is_small(lists.amounts[at]) && is_named(text_of(&lists.texts, at)) {
                indices.push(i);
                kept |= low;
            }
            bits ^= low;
        }
        *word = kept;
    }
    indices
}

/// The same by one predicate after the other, with no branch for what each answers, and a list of what is left.
pub fn kept_and_listed(left: &mut [u64], lists: &Lists) -> Vec<u32> {
    let small = retained(left, |i| is_small(lists.amounts[i]));
    left.copy_from_slice(&retained(&small, |i| is_named(text_of(&lists.texts, i))));
    let mut indices = Vec::with_capacity(count(left));
    for (base, word) in (0..).step_by(64).zip(left) {
        let mut bits = *word;
        while bits != 0 {
            indices.push(base + bits.trailing_zeros());
            bits &= bits - 1;
        }
    }
    indices
}
