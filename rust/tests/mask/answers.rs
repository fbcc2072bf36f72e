//! What small values have, and which values other threads may have.

use row_mask::intersect_by_rank::{RankPath, Steps};
use row_mask::{
    AllOr, AllocError, BitBuffer, BitBufferMut, BitIterator, Bytes, Fraction, Mask, MaskBoolIter,
    MaskError, MaskIter, MaskSetIndices, MaskSetSlices, MaskValues,
};
use std::error::Error;
use std::panic::{RefUnwindSafe, UnwindSafe};
use std::thread;

fn shared<T: Send + Sync + Unpin + UnwindSafe + RefUnwindSafe>() {}

#[test]
fn other_threads_may_have_them() {
    shared::<(Mask, MaskValues, BitBuffer, BitBufferMut, Bytes, AllOr<Mask>)>();
    shared::<(MaskError, AllocError, Fraction, RankPath, Steps)>();
    shared::<(BitIterator, MaskBoolIter, MaskSetIndices, MaskSetSlices, MaskIter)>();
    let mask: Mask = (0..1000).map(|i| i % 7 == 0).collect();
    let theirs = mask.clone();
    let count = thread::spawn(move || theirs.iter().filter(|it| *it).count());
    assert_eq!(count.join().unwrap(), mask.true_count());
}

#[test]
fn errors_say_what_is_wrong() {
    let texts = [
        (MaskError::Memory(AllocError), "out of memory"),
        (MaskError::UnsortedIndices { at: 7 }, "index at place 7 is below the one before it"),
        (MaskError::RepeatedIndex { at: 0 }, "index at place 0 repeats the one before it"),
        (MaskError::IndexOutOfBounds { index: 9, len: 8 }, "index 9 is not below the length 8"),
        (MaskError::BadRange { at: 3 }, "range at place 3 is empty or passes the length"),
        (
            MaskError::UnsortedRanges { at: 2 },
            "range at place 2 does not start after the one before it",
        ),
        (MaskError::OverlappingRanges { at: 5 }, "range at place 5 overlaps the one before it"),
        (MaskError::LengthOverflow, "the sum of the lengths does not fit"),
    ];
    for (error, text) in texts {
        assert_eq!(error.to_string(), text);
    }
}

#[test]
fn errors_are_copied_and_boxed() {
    let error = Mask::try_from_indices(3, [2, 1]).unwrap_err();
    let copy = error;
    assert_eq!(Clone::clone(&copy), error);
    let boxed: Box<dyn Error + Send + Sync> = error.into();
    assert_eq!(boxed.to_string(), "index at place 1 is below the one before it");
    assert_eq!(boxed.downcast_ref(), Some(&MaskError::UnsortedIndices { at: 1 }));
}

#[test]
fn answers_are_copied_and_told() {
    let text = AllOr::Some(String::from("rows"));
    assert_eq!(text.clone(), text);
    assert_eq!(AllOr::<String>::All.clone(), AllOr::All);
    assert_eq!(AllOr::<String>::None.clone(), AllOr::None);
    let lent = AllOr::Some(&text);
    let copy = lent;
    assert_eq!(copy, lent);
    assert_eq!(format!("{:?}", Fraction { num: 1, den: 2 }), "Fraction { num: 1, den: 2 }");
}

#[test]
fn lent_lists_are_copied_and_told() {
    let mask = Mask::try_from_indices(9, [1, 2, 5]).unwrap();
    for (num, text) in [(1, "Some(Indices([1, 2, 5]))"), (0, "Some(Slices([(1, 3), (5, 6)]))")] {
        let lent = mask.try_threshold_iter(num, 2).unwrap();
        let copy = lent;
        assert_eq!(format!("{lent:?}"), text);
        assert_eq!(format!("{:?}", Clone::clone(&copy)), text);
    }
}

/// What has many values is told by the first of them.
#[test]
fn long_lists_are_told_by_their_first_items() {
    let zeros = "0".repeat(63);
    for (len, text) in [
        (64, format!("BitBuffer({zeros}1)")),
        (65, format!("BitBuffer({zeros}1.., len=65)")),
        (100_000, format!("BitBuffer({zeros}1.., len=100000)")),
    ] {
        let buffer: BitBuffer = (0..len).map(|i| i >= 63).collect();
        assert_eq!(format!("{buffer:?}"), text);
    }
    let mask: Mask = (0..1000).map(|i| i % 2 == 0).collect();
    let first: Vec<_> = (0..128).step_by(2).collect();
    let lent = mask.try_threshold_iter(1, 1).unwrap();
    assert_eq!(format!("{lent:?}"), format!("Some(Indices {{ len: 500, first: {first:?} }})"));
    let first: Vec<_> = first.iter().map(|i| (*i, i + 1)).collect();
    let lent = mask.try_threshold_iter(0, 1).unwrap();
    assert_eq!(format!("{lent:?}"), format!("Some(Slices {{ len: 500, first: {first:?} }})"));
    let all: Vec<_> = (0..64).collect();
    let mask = Mask::try_from_indices(100, 0..64).unwrap();
    let lent = mask.try_threshold_iter(1, 1).unwrap();
    assert_eq!(format!("{lent:?}"), format!("Some(Indices({all:?}))"));
}

#[test]
fn all_and_none_take_the_closures_of_their_names() {
    let answers = [AllOr::All, AllOr::None, AllOr::Some(3)];
    assert_eq!(answers.map(|it| it.unwrap_or_else(|| 1, || 2)), [1, 2, 3]);
}

/// The list of runs has room for its runs, and for two more that are written at once.
#[test]
fn runs_take_no_more_room_than_they_need() {
    for (step, count) in [(1, 1), (2, 3_200)] {
        let values: BitBuffer = (0..6_400).map(|i| i % step == 0).collect();
        let runs = values.runs();
        assert_eq!(runs.len(), count);
        assert!(runs.capacity() <= count + 2, "{} for {count}", runs.capacity());
    }
}
