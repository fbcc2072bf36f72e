//! Equal values have equal hashes, however they hold their list, and other lists have others.

use crate::lists::{buffers, lists, masks};
use row_mask::intersect_by_rank::RankPath;
use row_mask::{AllOr, BitBuffer, Fraction, Mask};
use std::collections::{HashMap, HashSet};
use std::hash::{DefaultHasher, Hash, Hasher};

fn hash(of: &impl Hash) -> u64 {
    let mut state = DefaultHasher::new();
    of.hash(&mut state);
    state.finish()
}

/// Each list is held in many ways, which are equal and of one hash, and no other list has either.
fn agrees<T: Hash + Eq>(held: impl Fn(&[bool]) -> Vec<T>) {
    let mut seen: HashMap<u64, T> = HashMap::new();
    for list in lists() {
        let mut all = held(&list).into_iter();
        let first = all.next().unwrap();
        for other in all {
            assert!(first == other && hash(&first) == hash(&other), "{list:?}");
        }
        assert!(!seen.values().any(|it| *it == first), "{list:?}");
        assert!(seen.insert(hash(&first), first).is_none(), "{list:?}");
    }
    assert!(seen.len() > 90);
}

#[test]
fn of_buffers() {
    agrees(buffers);
}

#[test]
fn of_masks() {
    agrees(masks);
}

#[test]
fn equal_keys_are_one() {
    let masks = [
        Mask::AllTrue(0),
        Mask::AllFalse(0),
        Mask::AllTrue(64),
        Mask::AllFalse(64),
        Mask::AllTrue(65),
    ];
    assert_eq!(HashSet::from(masks).len(), 4);
    let offset = BitBuffer::from(&[true, true, false][..]).try_slice(1, 3).unwrap();
    assert!(HashSet::from([offset]).contains(&BitBuffer::from(vec![true, false])));
}

/// How many hashes some values have.
fn hashes<T: Hash, const N: usize>(of: [T; N]) -> usize {
    HashSet::from(of.map(|it| hash(&it))).len()
}

#[test]
fn of_small_values() {
    let shares = [(1, 2), (2, 4), (1, 4), (0, 1), (1, 2)].map(|(num, den)| Fraction { num, den });
    assert_eq!(hashes(shares), 4);
    let paths =
        [RankPath::Indices, RankPath::MaskDriven, RankPath::BitBuffers, RankPath::RankIndices];
    assert_eq!(hashes(paths), 4);
    let answers = [AllOr::All, AllOr::None, AllOr::Some(1), AllOr::Some(2), AllOr::Some(1)];
    assert_eq!(hashes(answers), 4);
}
