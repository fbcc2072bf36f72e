//! The plain names of calls, beside those that return a `Result`, and what they say where they panic.

use crate::lists::{lists, masks};
use crate::said;
use row_mask::{AllOr, BitBuffer, BitBufferMut, Mask, MaskIter};

#[allow(clippy::needless_pass_by_value, reason = "it is called with what calls return")]
fn same<T: PartialEq + std::fmt::Debug, E: std::fmt::Debug>(plain: T, named: Result<T, E>) {
    assert_eq!(plain, named.unwrap());
}

#[test]
fn makers_are_as_those_that_may_refuse() {
    for list in lists() {
        let (len, indices) = (list.len(), || (0..list.len()).filter(|i| list[*i]));
        let buffer = || BitBuffer::from(&list[..]);
        let runs = buffer().runs();
        same(Mask::from_buffer(buffer()), Mask::try_from_buffer(buffer()));
        same(Mask::from_indices(len, indices()), Mask::try_from_indices(len, indices()));
        same(
            Mask::from_excluded_indices(len, indices()),
            Mask::try_from_excluded_indices(len, indices()),
        );
        same(
            Mask::from_unsorted_indices(len, indices()),
            Mask::try_from_unsorted_indices(len, indices()),
        );
        same(Mask::from_slices(len, runs.clone()), Mask::try_from_slices(len, runs.clone()));
        let with_slices = Mask::from_buffer_with_slices(buffer(), runs.clone());
        same(with_slices, Mask::try_from_buffer_with_slices(buffer(), runs));
        let both = Mask::from_intersection_indices(len, indices(), indices().skip(1));
        same(both, Mask::try_from_intersection_indices(len, indices(), indices().skip(1)));
        same(Mask::from_bools(list.iter().copied()), Mask::try_from_bools(list.iter().copied()));
        same(Mask::from_rows(&list, |it| *it), Mask::try_from_rows(&list, |it| *it));
        same(
            BitBuffer::from_indices(len, indices()),
            BitBuffer::try_from_vec(buffer_bytes(&list), len),
        );
        same(BitBuffer::from_rows(&list, |it| *it), BitBuffer::try_from_rows(&list, |it| *it));
        same(BitBuffer::from_bools(list.iter().copied()), Ok::<_, ()>(buffer()));
        same(BitBuffer::from_vec(buffer_bytes(&list), len), Ok::<_, ()>(buffer()));
        same(BitBuffer::new_set(len), BitBuffer::try_new_set(len));
        same(BitBuffer::new_unset(len), BitBuffer::try_new_unset(len));
    }
}

fn buffer_bytes(list: &[bool]) -> Vec<u8> {
    list.chunks(8)
        .map(|it| it.iter().rev().fold(0, |byte, bit| byte << 1 | u8::from(*bit)))
        .collect()
}

#[test]
fn calls_are_as_those_that_may_refuse() {
    for list in lists() {
        for mask in masks(&list) {
            let (len, count) = (mask.len(), mask.true_count());
            let ranks: Mask = (0..count).map(|i| i % 3 != 1).collect();
            let other: Mask = (0..len).map(|i| i % 2 == 0).collect();
            same(mask.intersect_by_rank(&ranks), mask.try_intersect_by_rank(&ranks));
            let (narrowed, steps) = mask.intersect_by_rank_counted(&ranks);
            let (named, counted) = mask.try_intersect_by_rank_counted(&ranks).unwrap();
            assert_eq!((narrowed, steps.deposits()), (named, counted.deposits()));
            let stack = [ranks.clone(), Mask::new_true(ranks.true_count())];
            same(mask.intersect_all_by_rank(&stack), mask.try_intersect_all_by_rank(&stack));
            same(mask.to_bitand_not(&other), mask.try_to_bitand_not(&other));
            same(mask.clone().bitand_not(&other), mask.clone().try_bitand_not(&other));
            same(mask.choose_values(&other), mask.try_choose_values(&other));
            same(mask.choose(&list), mask.try_choose(&list));
            let rows: Vec<usize> = (0..len).collect();
            let is_third = |row: &usize| row % 3 == 1;
            same(mask.and_rows(&rows, is_third), mask.try_and_rows(&rows, is_third));
            let bits = mask.to_bit_buffer();
            same(bits.and_rows(&rows, is_third), bits.try_and_rows(&rows, is_third));
            let both = || [mask.clone(), other.clone()];
            same(Mask::from_masks(both()), Mask::try_from_masks(both()));
            same(mask.groups(3), mask.try_groups(3));
            same(mask.to_bit_buffer(), mask.try_to_bit_buffer());
            same(mask.clone().into_bit_buffer(), mask.clone().try_into_bit_buffer());
            let indices: Vec<usize> = (0..=len).step_by(3).collect();
            same(
                mask.valid_counts_for_indices(&indices),
                mask.try_valid_counts_for_indices(&indices),
            );
            for k in [0, count / 2, count, usize::MAX] {
                same(mask.to_limited(k), mask.try_to_limited(k));
                same(mask.clone().limit(k), mask.try_to_limited(k));
                same(mask.without_first(k), mask.try_without_first(k));
            }
            ranges_are_alike(&mask);
            lists_are_alike(&mask);
        }
    }
}

fn ranges_are_alike(mask: &Mask) {
    let (len, bits) = (mask.len(), mask.to_bit_buffer());
    for start in [0, len / 3, len] {
        for end in [start, usize::midpoint(start, len), len] {
            same(mask.slice(start..end), mask.try_slice(start, end));
            same(bits.slice(start..end), bits.try_slice(start, end));
        }
        same(mask.slice(start..), mask.try_slice(start, len));
        same(mask.slice(..start), mask.try_slice(0, start));
        if start < len {
            same(mask.slice(..=start), mask.try_slice(0, start + 1));
            same(
                mask.slice((std::ops::Bound::Excluded(start), std::ops::Bound::Unbounded)),
                mask.try_slice(start + 1, len),
            );
        }
    }
    assert_eq!(mask.slice(..), *mask);
}

#[test]
fn what_is_borrowed_is_cloned_alike() {
    for borrowed in [AllOr::All, AllOr::None, AllOr::Some(&3_usize)] {
        same(borrowed.cloned(), borrowed.try_cloned());
    }
}

fn lists_are_alike(mask: &Mask) {
    let indices: Vec<usize> = mask.set_indices().collect();
    let runs: Vec<(usize, usize)> = mask.set_slices().collect();
    match mask {
        Mask::AllTrue(_) => assert_eq!((mask.indices(), mask.slices()), (AllOr::All, AllOr::All)),
        Mask::AllFalse(_) => {
            assert_eq!((mask.indices(), mask.slices()), (AllOr::None, AllOr::None));
        }
        Mask::Values(values) => {
            let share = mask.share();
            #[allow(clippy::cast_precision_loss)]
            let density = share.num as f64 / share.den as f64;
            assert_eq!((mask.density(), values.density()), (density, density));
            assert!(
                matches!(mask.threshold_iter(density), AllOr::Some(MaskIter::Slices(it)) if it == runs)
            );
            assert!(
                matches!(mask.threshold_iter(1.0), AllOr::Some(MaskIter::Indices(it)) if it == indices)
            );
            assert!(matches!(values.threshold_iter(0.0), MaskIter::Slices(it) if it == runs));
            assert_eq!(
                (mask.indices(), mask.slices()),
                (AllOr::Some(&indices[..]), AllOr::Some(&runs[..]))
            );
            assert_eq!((values.indices(), values.slices()), (&indices[..], &runs[..]));
            assert_eq!(values.cached_indices(), Some(&indices[..]));
        }
    }
}

#[test]
fn builders_are_as_those_that_may_refuse() {
    let mut builder = BitBufferMut::with_capacity(200);
    builder.append_n(true, 3);
    builder.append_buffer(&BitBuffer::from_iter([false, true]));
    builder.push_word(0b101, 3);
    assert_eq!(
        builder.freeze(),
        [true, true, true, false, true, true, false, true].into_iter().collect()
    );
    assert_eq!(BitBufferMut::new_set(9).freeze(), BitBuffer::new_set(9));
    assert_eq!(BitBufferMut::new_unset(9).freeze(), BitBuffer::new_unset(9));
    let (one, other) = (BitBuffer::from_iter([true, true]), BitBuffer::from_iter([true, false]));
    assert_eq!(one.bitand_not(&other), BitBuffer::from_iter([false, true]));
    assert_eq!(one.choose_values(&other), other);
    assert_eq!(one.indices(2), [0, 1]);
    assert_eq!(one.into_bitand_not(&other), BitBuffer::from_iter([false, true]));
}

#[test]
fn what_is_wrong_is_said() {
    let texts: [(fn(), &str); 9] = [
        (
            || drop(Mask::from_indices(5, [2, 0])),
            "row_mask: `from_indices`: Mask indices must be sorted: index at place 1 is below the one before it",
        ),
        (
            || drop(Mask::from_indices(5, [2, 2])),
            "row_mask: `from_indices`: Mask indices must be unique: index at place 1 repeats the one before it",
        ),
        (
            || drop(Mask::from_indices(5, [5])),
            "row_mask: `from_indices`: index 5 is not below the length 5",
        ),
        (
            || drop(Mask::from_unsorted_indices(5, [2, 5])),
            "row_mask: `from_unsorted_indices`: index 5 is not below the length 5",
        ),
        (
            || drop(Mask::from_excluded_indices(5, [5])),
            "row_mask: `from_excluded_indices`: index 5 is not below the length 5",
        ),
        (
            || drop(Mask::from_slices(5, vec![(2, 2)])),
            "row_mask: `from_slices`: range at place 0 is empty or passes the length",
        ),
        (
            || drop(Mask::from_slices(5, vec![(2, 3), (0, 1)])),
            "row_mask: `from_slices`: Slices must be sorted: range at place 1 does not start after the one before it",
        ),
        (
            || drop(Mask::from_slices(5, vec![(0, 3), (2, 4)])),
            "row_mask: `from_slices`: Slices must be non-overlapping: range at place 1 overlaps the one before it",
        ),
        (
            || drop(Mask::new_true(5).slice(3..8)),
            "row_mask: `slice` needs `end <= self.len()`: 8 is not at most 5",
        ),
    ];
    for (call, text) in texts {
        assert_eq!(said(call).as_deref(), Some(text));
    }
}
