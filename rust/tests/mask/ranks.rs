//! Rank intersection under its plain name: what each kind of operand gives, and which lists operands have afterwards.

use crate::lists::{lists, masks};
use row_mask::intersect_by_rank::{RankPath, Steps, rank_path};
use row_mask::{AllOr, Mask};
use std::mem::discriminant;

/// What a result caches.
fn cached(mask: &Mask) -> [Option<usize>; 2] {
    let of = mask.values();
    [
        of.and_then(|it| it.cached_indices()).map(<[_]>::len),
        of.and_then(|it| it.cached_slices()).map(<[_]>::len),
    ]
}

/// A result is as that of the proved call, whatever its operands are.
#[test]
fn both_names_give_one_result() {
    for list in lists() {
        let count = list.iter().filter(|it| **it).count();
        for ranks in [2, 3, 40, usize::MAX].map(|step| (0..count).map(move |i| i % step == 0)) {
            let ranks: Vec<bool> = ranks.collect();
            let mut next = ranks.iter();
            let wanted: Mask = list.iter().map(|it| *it && *next.next().unwrap()).collect();
            for mask in masks(&list) {
                for ranks in masks(&ranks) {
                    let proved = mask.try_clone().unwrap().try_intersect_by_rank(&ranks).unwrap();
                    let plain = mask.intersect_by_rank(&ranks);
                    assert_eq!(plain, wanted);
                    assert_eq!(discriminant(&plain), discriminant(&proved));
                    assert_eq!(cached(&plain), cached(&proved));
                }
            }
        }
    }
}

/// The path over two lists makes those that aren't cached, and keeps them. No other path makes any.
#[test]
fn lists_that_a_path_makes_are_kept() {
    for (every, rank_every) in [(2, 2), (2, 9), (2, 40), (65, 2), (200, 2), (200, 50)] {
        let mask: Mask = (0..20_000).map(|i| i % every == 1).collect();
        let ranks: Mask = (0..mask.true_count()).map(|i| i % rank_every == 1).collect();
        let path = rank_path(mask.values().unwrap(), ranks.values().unwrap());
        let (first, of_clone) = (mask.intersect_by_rank(&ranks), mask.clone());
        for it in [&mask, &of_clone, &ranks] {
            let kept = it.values().unwrap().cached_indices();
            assert_eq!(kept.is_some(), path == RankPath::Indices);
            if let Some(kept) = kept {
                assert!(it.set_indices().eq(kept.iter().copied()));
            }
            assert_eq!(it.values().unwrap().cached_slices(), None);
        }
        assert_eq!(first, mask.intersect_by_rank(&ranks));
    }
}

/// A list of ranks gives what their bits do, on the path that takes bits instead where that is quick.
#[test]
fn ranks_in_a_list() {
    for len in [90, 5_000, 9_000] {
        let mask: Mask = (0..len).map(|i| i * i % 7 < 4).collect();
        let listed = Mask::from_indices(mask.true_count(), (0..mask.true_count()).step_by(9));
        let path = rank_path(mask.values().unwrap(), listed.values().unwrap());
        assert_eq!(path, RankPath::RankIndices);
        let bits = Mask::from(listed.to_bit_buffer());
        let [(by_list, steps), (by_bits, same)] =
            [&listed, &bits].map(|ranks| mask.intersect_by_rank_counted(ranks));
        assert_eq!(by_list, by_bits);
        let counted = |it: &Steps| (it.deposits(), it.words(), it.selections());
        assert_eq!(counted(&steps), counted(&same));
        assert_eq!(cached(&by_list), [None, None]);
        let AllOr::Some(indices) = mask.indices() else { panic!("it is mixed") };
        let wanted = indices.iter().copied().step_by(9);
        assert!(by_list.set_indices().eq(wanted));
    }
}
