//! Operators and clones beside plain lists, and beside the calls that they stand for.

use crate::lists::{buffers, lists, masks};
use crate::said;
use row_mask::{AllOr, BitBuffer, Mask};
use std::mem::discriminant;
use std::panic::AssertUnwindSafe;

/// Another list of the same length.
fn other(list: &[bool]) -> Vec<bool> {
    list.iter()
        .enumerate()
        .map(|(i, value)| (i % 3 == 0) ^ (i % 5 == 1) ^ (*value && i % 2 == 0))
        .collect()
}

fn combined(a: &[bool], b: &[bool], of: fn(bool, bool) -> bool) -> Vec<bool> {
    a.iter().zip(b).map(|(a, b)| of(*a, *b)).collect()
}

/// The operators of a type, on values that hold two lists, answer these lists.
macro_rules! answer {
    ($a:expr, $b:expr, $list:expr, $other:expr) => {
        let and = combined(&$list, &$other, |a, b| a && b);
        let or = combined(&$list, &$other, |a, b| a || b);
        let xor = combined(&$list, &$other, |a, b| a != b);
        let not: Vec<bool> = $list.iter().map(|value| !value).collect();
        for a in &$a {
            for b in &$b {
                assert!((a & b).iter().eq(and.iter().copied()) && (a.clone() & b) == a & b);
                assert!((a | b).iter().eq(or.iter().copied()) && (a.clone() | b) == a | b);
                assert!((a ^ b).iter().eq(xor.iter().copied()) && (a.clone() ^ b) == a ^ b);
                let (mut and, mut or, mut xor) = (a.clone(), a.clone(), a.clone());
                and &= b;
                or |= b;
                xor ^= b;
                assert!(and == a & b && or == a | b && xor == a ^ b);
                assert!(and == a.clone() & b.clone() && or == a.clone() | b.clone());
                assert!(xor == a.clone() ^ b.clone());
            }
            assert!((!a).iter().eq(not.iter().copied()) && !a.clone() == !a);
            assert!(a.clone() == *a && a.iter().eq($list.iter().copied()));
        }
    };
}

#[test]
fn of_buffers() {
    for list in lists() {
        let other = other(&list);
        answer!(buffers(&list), buffers(&other), list, other);
    }
}

#[test]
fn of_masks() {
    for list in lists() {
        let other = other(&list);
        answer!(masks(&list), masks(&other), list, other);
    }
}

/// A result knows how many of its values are true, whatever bit its operands begin at.
#[test]
fn results_are_counted() {
    let count = |list: &[bool]| list.iter().filter(|value| **value).count();
    for len in [2, 63, 64, 65, 100, 127, 128, 129, 192, 256, 1000, 1023, 1024, 1025, 1100, 5000] {
        let list: Vec<bool> = (0..len).map(|i| i * i % 7 < 3).collect();
        let other = other(&list);
        let of = |list: &[bool]| buffers(list).into_iter().map(Mask::from);
        for a in of(&list) {
            for b in of(&other) {
                let results = [&a & &b, &a | &b, &a ^ &b, a.to_bitand_not(&b)];
                let wanted: [fn(bool, bool) -> bool; 4] =
                    [|a, b| a && b, |a, b| a || b, |a, b| a != b, |a, b| a && !b];
                for (result, wanted) in results.iter().zip(wanted) {
                    let wanted = combined(&list, &other, wanted);
                    assert!(result.iter().eq(wanted.iter().copied()), "{len}");
                    assert_eq!(result.true_count(), count(&wanted), "{len}");
                }
            }
            let by_rows = Mask::from_rows(&list, |value| *value);
            assert_eq!((by_rows.true_count(), &by_rows), (count(&list), &a));
        }
    }
}

/// The calls by name answer masks of the same variants and caches.
#[test]
fn as_by_name() {
    for list in lists().iter().filter(|it| it.len() == 4 || it.len() > 64) {
        for (a, b) in masks(list).iter().zip(masks(&other(list)).iter().rev()) {
            same(&(a & b), &a.try_bitand(b).unwrap());
            same(&(a | b), &a.try_bitor(b).unwrap());
            same(&(a.clone() & b), &a.clone().try_into_bitand(b).unwrap());
            same(&(a.clone() | b), &a.clone().try_into_bitor(b).unwrap());
            same(&(a ^ b), &a.try_bitxor(b).unwrap());
            same(&(a.clone() ^ b), &a.clone().try_into_bitxor(b).unwrap());
            same(&!a, &a.try_not().unwrap());
            same(&!a.clone(), &a.clone().try_into_not().unwrap());
            same(&a.clone(), a);
        }
    }
}

fn same(a: &Mask, b: &Mask) {
    let caches = |mask: &Mask| {
        mask.values().map(|it| (it.cached_indices().is_some(), it.cached_slices().is_some()))
    };
    assert!(a == b && discriminant(a) == discriminant(b) && caches(a) == caches(b), "{a} {b}");
}

/// A result is written into the bytes of an operand that nobody else holds, and not into shared ones. (Up to 128 values
/// each holder has itself.)
#[test]
fn in_place() {
    let repeated = |values: [bool; 4]| BitBuffer::from(values.repeat(40));
    let [ones, rows] = [[true; 4], [true, false, true, true]].map(repeated);
    let bytes = |buffer: &BitBuffer| buffer.inner().as_ptr();
    let (own, shared) = (repeated([true, true, false, true]), rows.clone());
    assert_eq!(bytes(&shared), bytes(&rows));
    let place = bytes(&own);
    let mut made = !((own & &rows) | &ones) ^ &rows;
    made &= &ones;
    made |= &rows;
    made ^= &ones;
    assert_eq!(bytes(&made), place);
    let mut mask = Mask::from(made);
    mask ^= &Mask::from(repeated([true, true, false, false]));
    let values = mask.values().expect("some are true, and some not");
    assert_eq!((bytes(values.bit_buffer()), mask.to_string()), (place, "1000".repeat(40)));
    let made = shared & &ones;
    assert_ne!(bytes(&made), bytes(&rows));
    assert_eq!(made, rows);
}

#[test]
fn of_two_lengths_panic() {
    let [a, b] = [vec![true, false], vec![true, false, true]].map(BitBuffer::from);
    let [p, q] = [a.clone(), b.clone()].map(Mask::from);
    let differ = "needs `self.len() == other.len()`: 2 is not 3";
    let panics = [
        ("bitand", said(|| &a & &b)),
        ("bitor", said(|| &a | &b)),
        ("into_bitand", said(|| a.clone() & &b)),
        ("into_bitor", said(|| a.clone() | &b)),
        ("bitxor", said(|| &a ^ &b)),
        ("into_bitxor", said(|| a.clone() ^ b.clone())),
    ];
    for (call, said) in panics {
        assert_eq!(said, Some(format!("row_mask: `{call}` {differ}")));
    }
    let panics = [
        ("bitand", "2 is not 3", said(|| &p & &q)),
        ("bitor", "2 is not 3", said(|| &p | &q)),
        ("into_bitand", "2 is not 3", said(|| p.clone() & &q)),
        ("into_bitor", "2 is not 3", said(|| p.clone() | &q)),
        ("bitand", "2 is not 3", said(|| &p & &Mask::AllTrue(3))),
        ("into_bitor", "1 is not 2", said(|| Mask::AllTrue(1) | &p)),
        ("bitxor", "2 is not 3", said(|| &p ^ &Mask::AllTrue(3))),
        ("into_bitxor", "2 is not 3", said(|| p.clone() ^ q.clone())),
    ];
    for (call, lengths, said) in panics {
        let wanted = format!("row_mask: `{call}`: Masks must have the same length: {lengths}");
        assert_eq!(said, Some(wanted));
    }
}

/// In place, nothing is changed then.
#[test]
fn in_place_of_two_lengths_panic() {
    let (list, longer) = (vec![true, false], Mask::AllTrue(3));
    let (mut mask, mut buffer) = (Mask::from_iter(list.clone()), BitBuffer::from(list.clone()));
    let other = BitBuffer::new_set(3);
    let panics = [
        ("&=", said(AssertUnwindSafe(|| mask &= &longer))),
        ("|=", said(AssertUnwindSafe(|| mask |= &longer))),
        ("^=", said(AssertUnwindSafe(|| mask ^= &longer))),
        ("&=", said(AssertUnwindSafe(|| buffer &= &other))),
        ("|=", said(AssertUnwindSafe(|| buffer |= &other))),
        ("^=", said(AssertUnwindSafe(|| buffer ^= &other))),
    ];
    for (call, said) in panics {
        let wanted = format!("row_mask: `{call}` needs `self.len() == other.len()`: 2 is not 3");
        assert_eq!(said, Some(wanted));
    }
    assert_eq!((mask, buffer), (Mask::from_iter(list.clone()), BitBuffer::from(list)));
}

/// What is lent by a mask can be cloned.
#[test]
fn lent_buffers_are_cloned() {
    let mask: Mask = [true, false].into_iter().collect();
    assert_eq!(
        mask.bit_buffer().try_cloned().unwrap(),
        AllOr::Some(BitBuffer::from(vec![true, false]))
    );
    assert_eq!(AllOr::Some(&mask).try_cloned().unwrap(), AllOr::Some(mask));
}
