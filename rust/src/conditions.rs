//! What calls of masks require, as tests.
#![allow(clippy::inline_always, reason = "a copy is compiled for what the function around it has")]

// What isn't `pub` is of the package's own calls, which test what their callers owe, and stop where it isn't met. It is
// written by hand.

use crate::proved::mask_bits::BitBuffer;
use crate::proved::vortex_mask::Mask;
pub use crate::proved::vortex_mask::conditions::{are_a_stack, ascends};
use core::fmt::Display;

/// What is said before each of two numbers that a broken condition compares.
type Said = &'static [&'static str; 2];

/// Stops unless one number is below another.
///
/// # Panics
/// Where it isn't, with the call's name, what it needs, and both numbers. So does each function here whose name begins with
/// `need`, with what breaks the condition.
#[inline]
#[track_caller]
pub(crate) fn need_below<N: Copy + Display + PartialOrd>(one: N, other: N, said: Said) {
    if one >= other {
        broken(one, other, said);
    }
}

/// Stops unless one number is at most another.
#[inline]
#[track_caller]
pub(crate) fn need_at_most<N: Copy + Display + PartialOrd>(one: N, other: N, said: Said) {
    if one > other {
        broken(one, other, said);
    }
}

/// Stops unless one number is above another.
#[inline]
#[track_caller]
pub(crate) fn need_above<N: Copy + Display + PartialOrd>(one: N, other: N, said: Said) {
    if one <= other {
        broken(one, other, said);
    }
}

/// Stops unless one number is at least another.
#[inline]
#[track_caller]
pub(crate) fn need_at_least<N: Copy + Display + PartialOrd>(one: N, other: N, said: Said) {
    if one < other {
        broken(one, other, said);
    }
}

/// Stops unless two numbers are equal.
#[inline]
#[track_caller]
pub(crate) fn need_equal<N: Copy + Display + PartialEq>(one: N, other: N, said: Said) {
    if one != other {
        broken(one, other, said);
    }
}

/// Stops unless a validity, if there is one, is as long as the values.
#[inline]
#[track_caller]
pub(crate) fn need_in_step(values: &BitBuffer, validity: Option<&BitBuffer>, needs: &'static str) {
    if let Some(validity) = validity
        && validity.len() != values.len()
    {
        not_in_step(validity.len(), values.len(), needs);
    }
}

#[cold]
#[inline(never)]
#[track_caller]
fn not_in_step(validity: usize, values: usize, needs: &'static str) -> ! {
    panic!("row_mask: {needs}{validity} is not {values}");
}

#[cold]
#[inline(never)]
#[track_caller]
fn broken<N: Display>(one: N, other: N, said: Said) -> ! {
    panic!("row_mask: {}{one}{}{other}", said[0], said[1]);
}

/// Stops unless bits from `offset` on, so many, are within the bytes.
#[inline]
#[track_caller]
pub(crate) fn need_within(bytes: &[u8], offset: usize, len: usize, needs: &'static str) {
    if !are_within(bytes, offset, len) {
        not_within(bytes.len(), offset, len, needs);
    }
}

#[cold]
#[inline(never)]
#[track_caller]
fn not_within(count: usize, offset: usize, len: usize, needs: &str) -> ! {
    // (neither sum nor product fits 64 bits always)
    let (end, bits) = (offset as u128 + len as u128, 8 * count as u128);
    panic!("row_mask: {needs}{end} is not at most {bits}");
}

/// Stops unless each item is below a number.
#[inline]
#[track_caller]
pub(crate) fn need_each_below(items: &[usize], end: usize, needs: &'static str) {
    if !are_below(items, end) {
        not_below(items, end, needs);
    }
}

#[cold]
#[inline(never)]
#[track_caller]
fn not_below(items: &[usize], end: usize, needs: &str) -> ! {
    let (at, item) = first(items, |item| item >= end);
    panic!("row_mask: {needs}item {at} is {item}, not below {end}");
}

/// Stops unless each item is at most a number.
#[inline]
#[track_caller]
pub(crate) fn need_each_at_most(items: &[usize], most: usize, needs: &'static str) {
    if !are_at_most(items, most) {
        not_at_most(items, most, needs);
    }
}

#[cold]
#[inline(never)]
#[track_caller]
fn not_at_most(items: &[usize], most: usize, needs: &str) -> ! {
    let (at, item) = first(items, |item| item > most);
    panic!("row_mask: {needs}item {at} is {item}, not at most {most}");
}

/// Stops unless each item is above the one before it.
#[inline]
#[track_caller]
pub(crate) fn need_ascending(items: &[usize], needs: &'static str) {
    if !are_ascending(items) {
        not_ascending(items, needs);
    }
}

#[cold]
#[inline(never)]
#[track_caller]
fn not_ascending(items: &[usize], needs: &str) -> ! {
    let at = first_pair(items, |one, next| one >= next);
    panic!("row_mask: {needs}item {} is {}, not above {}", at + 1, items[at + 1], items[at]);
}

/// Stops unless each item is at least the one before it.
#[inline]
#[track_caller]
pub(crate) fn need_sorted(items: &[usize], needs: &'static str) {
    if !items.is_sorted() {
        not_sorted(items, needs);
    }
}

#[cold]
#[inline(never)]
#[track_caller]
fn not_sorted(items: &[usize], needs: &str) -> ! {
    let at = first_pair(items, |one, next| one > next);
    panic!("row_mask: {needs}item {} is {}, not at least {}", at + 1, items[at + 1], items[at]);
}

/// Stops unless these are indices of so many true values of a list with `values` of them.
#[inline]
#[track_caller]
pub(crate) fn need_ranks(ranks: &[usize], values: usize, count: usize, needs: &'static str) {
    if !are_ranks(ranks, values, count) {
        no_ranks(ranks, values, count, needs);
    }
}

#[cold]
#[inline(never)]
#[track_caller]
fn no_ranks(ranks: &[usize], values: usize, count: usize, needs: &str) -> ! {
    if !are_ascending(ranks) {
        not_ascending(ranks, needs);
    }
    assert!(ranks.len() == count, "row_mask: {needs}there are {}, not {count}", ranks.len());
    not_below(ranks, values, needs);
}

/// Stops unless ranges hold exactly the true values.
#[inline]
#[track_caller]
pub(crate) fn need_ranges(buffer: &BitBuffer, ranges: &[(usize, usize)], call: &'static str) {
    if !are_ranges(buffer, ranges) {
        no_ranges(buffer, ranges, call);
    }
}

// (but for the first, the texts are those of `vortex-mask`)
#[cold]
#[inline(never)]
#[track_caller]
fn no_ranges(buffer: &BitBuffer, ranges: &[(usize, usize)], call: &str) -> ! {
    let len = buffer.len();
    for &(start, end) in ranges {
        assert!(
            start < end && end <= len,
            "row_mask: {call} needs slices with `start < end` and `end <= {len}`: got ({start}, {end})"
        );
    }
    for pair in ranges.windows(2) {
        let (one, next) = (pair[0], pair[1]);
        assert!(
            one.0 < next.0,
            "row_mask: {call}: Slices must be sorted, got {one:?} and {next:?}"
        );
        assert!(
            one.1 <= next.0,
            "row_mask: {call}: Slices must be non-overlapping, got {one:?} and {next:?}"
        );
    }
    let mut held = 0;
    for &(start, end) in ranges {
        assert!(
            buffer.count_range(start, end) == end - start,
            "row_mask: {call}: Slice ({start}, {end}) is not fully set in the buffer"
        );
        held += end - start;
    }
    let count = buffer.true_count();
    panic!(
        "row_mask: {call}: Slices must cover every set bit of the buffer: {held} is not {count}"
    );
}

/// Stops unless each mask has a value for each true value of the one before it.
#[inline]
#[track_caller]
pub(crate) fn need_stack(first: &Mask, masks: &[Mask], needs: &'static str) {
    if !are_a_stack(first, masks) {
        no_stack(first, masks, needs);
    }
}

#[cold]
#[inline(never)]
#[track_caller]
fn no_stack(first: &Mask, masks: &[Mask], needs: &str) -> ! {
    let mut count = first.true_count();
    for (at, mask) in masks.iter().enumerate() {
        let len = mask.len();
        assert!(len == count, "row_mask: {needs}item {at} has length {len}, not {count}");
        count = mask.true_count();
    }
    unreachable!("they are a stack");
}

/// The first item that breaks a condition, and its place.
fn first(items: &[usize], breaks: impl Fn(usize) -> bool) -> (usize, usize) {
    let at = items.iter().position(|item| breaks(*item)).expect("one breaks it");
    (at, items[at])
}

/// The place of the first item that breaks a condition with the next.
fn first_pair(items: &[usize], breaks: impl Fn(usize, usize) -> bool) -> usize {
    items.windows(2).position(|pair| breaks(pair[0], pair[1])).expect("a pair breaks it")
}

/// Whether each index is above the one before it. With no branch for each, so that several are compared at once.
fn are_ascending(indices: &[usize]) -> bool {
    crate::native::by_level!(are_ascending_v3(indices), are_ascending_any(indices))
}

#[cfg(target_arch = "x86_64")]
#[target_feature(enable = "avx2")]
fn are_ascending_v3(indices: &[usize]) -> bool {
    are_ascending_any(indices)
}

#[inline(always)]
fn are_ascending_any(indices: &[usize]) -> bool {
    let next = indices.get(1..).unwrap_or_default();
    let fits = |index: Option<&usize>| index.is_none_or(|index| index.cast_signed() >= 0);
    if fits(indices.first()) && fits(indices.last()) {
        // between these two no index has the top bit where all ascend, and then a difference has it just where they do
        let tops = indices
            .iter()
            .zip(next)
            .fold(usize::MAX, |so_far, (one, next)| so_far & one.wrapping_sub(*next) & !next);
        return tops.cast_signed() < 0;
    }
    indices.is_sorted_by(|one, next| one < next)
}

/// Whether each index is below a number.
fn are_below(indices: &[usize], end: usize) -> bool {
    indices.iter().all(|index| *index < end)
}

/// Whether each index is at most a number.
fn are_at_most(indices: &[usize], most: usize) -> bool {
    indices.iter().all(|index| *index <= most)
}

/// Whether bits from `offset` on, so many, are within the bytes.
fn are_within(bytes: &[u8], offset: usize, len: usize) -> bool {
    offset.checked_add(len).is_some_and(|end| end.div_ceil(8) <= bytes.len())
}

/// Whether these are indices of so many true values of a list with `values` of them.
fn are_ranks(ranks: &[usize], values: usize, count: usize) -> bool {
    are_ascending(ranks) && ranks.len() == count && ranks.last().is_none_or(|last| *last < values)
}

/// Whether ranges hold exactly the true values: each isn't empty and ends at most where the next begins.
fn are_ranges(buffer: &BitBuffer, ranges: &[(usize, usize)]) -> bool {
    let mut at = 0;
    let mut count = 0;
    for &(start, end) in ranges {
        if start < at || end <= start || end > buffer.len() {
            return false;
        }
        if buffer.count_range(start, end) != end - start {
            return false;
        }
        at = end;
        count += end - start;
    }
    count == buffer.true_count()
}

#[cfg(test)]
mod tests {
    use alloc::vec::Vec;

    /// As each pair is compared alone: on both sides of the largest signed number too.
    #[test]
    fn ascends_as_each_pair_does() {
        let high = 1 << (usize::BITS - 1);
        let numbers = [0, 1, 2, high - 1, high, high + 1, usize::MAX];
        for code in 0..7_usize.pow(5) {
            let list: Vec<usize> = (0..5).map(|k| numbers[code / 7_usize.pow(k) % 7]).collect();
            for count in 0..=5 {
                let list = &list[..count];
                let each = list.windows(2).all(|two| two[0] < two[1]);
                assert_eq!(super::are_ascending(list), each, "{list:?}");
            }
        }
    }
}
