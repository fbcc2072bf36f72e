//! Lists of ranges in any order, of which some are empty, overlap, lie within others, or begin where another ends.

use crate::lists::Generator;
use row_mask::BitmapBuf;
use std::iter::repeat_with;
use std::ops::Range;
use std::time::{Duration, Instant};

/// Up to twelve ranges of `len` values, many of which begin or end where the one before does.
fn some_ranges(random: &mut Generator, len: usize) -> Vec<Range<usize>> {
    let mut before = 0..len;
    let mut next = || {
        let any = [random.below(len + 1), random.below(len + 1)];
        let picked = [any[0], before.start, before.end][random.below(3)];
        before = picked.min(any[1])..picked.max(any[1]);
        before.clone()
    };
    let ranges: Vec<_> = repeat_with(&mut next).take(12).collect();
    let count = random.below(ranges.len() + 1);
    ranges[..count].to_vec()
}

#[track_caller]
fn are_filled(len: usize, ranges: &[Range<usize>]) {
    let want: Vec<bool> = (0..len).map(|i| ranges.iter().any(|it| it.contains(&i))).collect();
    let made = BitmapBuf::from_ranges(len, ranges.iter().cloned()).unwrap();
    assert!(made.iter().eq(want.iter().copied()), "{made} for {ranges:?}");
    let mut bytes = vec![0xA5; len.div_ceil(8)];
    BitmapBuf::from_ranges_into(len, ranges, &mut bytes[..]).unwrap();
    assert_eq!(bytes, made.as_bytes(), "{ranges:?}");
    let count = want.iter().filter(|it| **it).count();
    assert_eq!(bytes.iter().map(|it| it.count_ones() as usize).sum::<usize>(), count, "{ranges:?}");
}

#[test]
fn ranges_in_any_order() {
    let mut random = Generator(3);
    for len in 0..=200 {
        are_filled(len, &[]);
        are_filled(len, &[0..len, 0..len]);
        for _ in 0..60 {
            let mut ranges = some_ranges(&mut random, len);
            are_filled(len, &ranges);
            ranges.sort_by_key(|it| it.start);
            are_filled(len, &ranges);
            ranges.reverse();
            are_filled(len, &ranges);
        }
    }
}

/// All ranges of few values, two and three of them one after another.
#[test]
fn all_ranges_of_few_values() {
    let all: Vec<_> = (0..=9).flat_map(|end| (0..=end).map(move |start| start..end)).collect();
    for one in &all {
        for other in &all {
            are_filled(9, &[one.clone(), other.clone()]);
            let third = all[(7 * one.start + 11 * other.end) % all.len()].clone();
            are_filled(9, &[third, other.clone(), one.clone()]);
        }
    }
}

/// The least time that so many equal ranges take, of some tries, into room that was written before.
fn least_time(count: usize) -> Duration {
    let len = 1 << 23;
    let (mut room, ranges) = (vec![0; len / 8], vec![1..len; count]);
    let mut time = || {
        let start = Instant::now();
        BitmapBuf::from_ranges_into(len, &ranges, &mut room[..]).unwrap();
        start.elapsed()
    };
    time();
    repeat_with(&mut time).take(9).min().unwrap()
}

/// Filled one by one, they would take 500 times as long.
#[test]
fn a_thousand_equal_ranges_take_the_time_of_one() {
    let (one, all) = (least_time(1), least_time(1000));
    assert!(all < 20 * one, "{all:?} and {one:?}");
}
