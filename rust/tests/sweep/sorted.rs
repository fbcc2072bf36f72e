//! Indices that two ascending lists have in common.

use crate::lists::{Comparisons, Generator, indices_of};
use row_mask::{Mask, RowIndex, intersect_sorted, intersect_sorted_into};
use std::collections::BTreeSet;
use std::fmt::Debug;

fn both<I: RowIndex + Debug>(seen: &mut Comparisons, left: &[I], right: &[I], want: &[I]) {
    for (a, b) in [(left, right), (right, left)] {
        seen.same(intersect_sorted(a, b).as_deref(), Ok(want));
        let room = a.len().min(b.len());
        // (what is behind the room of the shorter list stays)
        let last = a.iter().chain(b).next_back().copied();
        let mut out: Vec<I> = last.into_iter().cycle().take(room + 2).collect();
        seen.same(intersect_sorted_into(a, b, &mut out), Ok(want.len()));
        seen.same(&out[..want.len()], want);
        seen.same(
            out.get(room..),
            last.map(|it| [it; 2]).as_ref().map_or(Some(&[][..]), |it| Some(&it[..])),
        );
    }
}

fn narrow(list: &[usize]) -> Vec<u32> {
    list.iter().map(|i| u32::try_from(*i).unwrap()).collect()
}

fn of_each_size(seen: &mut Comparisons, left: &[usize], right: &[usize]) {
    let other: BTreeSet<usize> = right.iter().copied().collect();
    let want: Vec<usize> = left.iter().copied().filter(|i| other.contains(i)).collect();
    both(seen, left, right, &want);
    both(seen, &narrow(left), &narrow(right), &narrow(&want));
    let end = left.iter().chain(right).max().map_or(0, |last| last + 1);
    let lists = (left.iter().copied(), right.iter().copied());
    let mask = Mask::from_intersection_indices(end, lists.0, lists.1);
    seen.same(mask.set_indices().eq(want), true);
}

#[test]
fn lists_of_all_sizes() {
    let (mut seen, mut random) = (Comparisons::default(), Generator(6));
    for len in (0..70).chain([127, 300, 1_000, 5_000]) {
        for other in (0..40).step_by(3).chain([64, 100, 800, 4_000]) {
            for (share, other_share) in [(128, 128), (256, 256), (256, 3), (20, 250), (1, 1)] {
                let left = indices_of(&random.list(len, share));
                let right = indices_of(&random.list(other, other_share));
                of_each_size(&mut seen, &left, &right);
            }
        }
    }
    println!("{} comparisons of lists of indices", seen.0);
    assert!(seen.0 > 50_000, "{}", seen.0);
}

/// Runs of one list between indices of the other, by eights and by less, and lists with nothing in common.
#[test]
fn lists_by_runs() {
    let (mut seen, mut random) = (Comparisons::default(), Generator(7));
    for run in [1, 2, 7, 8, 9, 16, 17, 100, 1_000] {
        let (mut left, mut right) = (vec![], vec![]);
        for i in 0..4_000 {
            let list = if i / run % 2 == 0 { &mut left } else { &mut right };
            list.push(i);
            if random.below(50) == 0 {
                left.push(i);
                right.push(i);
            }
        }
        left.dedup();
        right.dedup();
        of_each_size(&mut seen, &left, &right);
        of_each_size(&mut seen, &left, &right[..right.len().min(37)]);
        of_each_size(&mut seen, &left, &right[right.len().saturating_sub(5)..]);
    }
    println!("{} comparisons of lists by runs", seen.0);
}

/// A list 500 times as long as the other, of which what is looked up stands anywhere.
#[test]
fn a_long_list() {
    let (mut seen, mut random) = (Comparisons::default(), Generator(8));
    let long: Vec<usize> = (0..500_000).map(|i| 3 * i + random.below(3)).collect();
    for count in [0, 1, 2, 30, 1_000] {
        let mut short: Vec<usize> = (0..count).map(|_| random.below(1_600_000)).collect();
        short.extend((0..count / 2).map(|_| long[random.below(long.len())]));
        short.sort_unstable();
        short.dedup();
        of_each_size(&mut seen, &short, &long);
    }
    assert!(seen.0 > 80, "{}", seen.0);
}
