//! Iterators, from both ends, beside those of a plain list.

use crate::lists::{Comparisons, Generator, indices_of, runs_of};
use row_mask::Bitmap;
use std::fmt::Debug;

pub fn walks(seen: &mut Comparisons, random: &mut Generator, list: &[bool], bitmap: Bitmap<'_>) {
    let indices = indices_of(list);
    let (values, places) = (|| bitmap.iter(), || bitmap.indices());
    seen.same(values().len(), list.len());
    seen.same(values().rev().eq(list.iter().rev().copied()), true);
    seen.same(places().rev().eq(indices.iter().rev().copied()), true);
    seen.same((values().count(), places().count()), (list.len(), indices.len()));
    seen.same((values().last(), places().last()), (list.last().copied(), indices.last().copied()));
    seen.same(values().fold(0_u64, digest), list.iter().copied().fold(0, digest));
    seen.same(places().sum::<usize>(), indices.iter().sum());
    for n in [0, 1, random.below(list.len() + 2), list.len() * 9 / 10, list.len(), usize::MAX] {
        seen.same(values().nth(n), list.get(n).copied());
        seen.same(places().nth(n), indices.get(n).copied());
    }
    for _ in 0..2 {
        steps(seen, random, values(), list.iter().copied());
        steps(seen, random, places(), indices.iter().copied());
    }
    let hint = places().size_hint();
    seen.same(hint.0 <= indices.len() && indices.len() <= hint.1.unwrap(), true);
}

fn digest(before: u64, value: bool) -> u64 {
    before.wrapping_mul(3).wrapping_add(u64::from(value))
}

/// The same steps of a walk and of a plain one, at random from both ends, some of them past many items.
fn steps<T: Debug + PartialEq>(
    seen: &mut Comparisons,
    random: &mut Generator,
    mut walk: impl DoubleEndedIterator<Item = T> + Clone,
    mut plain: impl DoubleEndedIterator<Item = T> + ExactSizeIterator + Clone,
) {
    for _ in 0..12 {
        let n = random.below(plain.len() / 3 + 2);
        match random.below(4) {
            0 => seen.same(walk.next(), plain.next()),
            1 => seen.same(walk.next_back(), plain.next_back()),
            2 => seen.same(walk.nth(n), plain.nth(n)),
            _ => seen.same(walk.nth_back(n), plain.nth_back(n)),
        }
        let (least, most) = walk.size_hint();
        seen.same(least <= plain.len() && plain.len() <= most.unwrap(), true);
    }
    seen.same(walk.clone().count(), plain.len());
    seen.same(walk.clone().last(), plain.clone().last());
    seen.same(walk.clone().rev().eq(plain.clone().rev()), true);
    seen.same(walk.by_ref().eq(plain), true);
    seen.same((walk.next(), walk.next_back()), (None, None));
}

/// A clone of a walk over runs goes on from the same place, which its text says too.
#[test]
fn clones_of_runs() {
    let mut random = Generator(3);
    for len in [0, 1, 64, 65, 200, 500] {
        for offset in [0, 3, 13] {
            let list = random.list(len, 128);
            let bytes = random.packed(&list, offset);
            let bitmap = Bitmap::new(&bytes, offset, len).unwrap();
            let (runs, mut walk, mut end) = (runs_of(&list), bitmap.runs(), 0);
            for k in 0..=runs.len() {
                assert_eq!(
                    format!("{walk:?}"),
                    format!("Runs {{ bitmap: {bitmap:?}, next: {end} }}")
                );
                assert!(walk.size_hint().1.unwrap() >= runs.len() - k);
                assert!(walk.clone().eq(runs[k..].iter().cloned()));
                walk = walk.clone();
                assert_eq!(walk.next(), runs.get(k).cloned());
                end = runs.get(k).map_or(len, |run| run.end);
            }
            assert_eq!((walk.next(), walk.clone().next()), (None, None));
        }
    }
}
