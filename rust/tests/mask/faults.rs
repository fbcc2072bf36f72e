//! Faults of lists of indices, of many lengths. No clause says that one is answered before `Memory`, since a list takes
//! memory first: so a body that tells a fault as a want of memory meets the contract.

use row_mask::MaskError::{IndexOutOfBounds, Memory, RepeatedIndex, UnsortedIndices};
use row_mask::{AllocError, Mask, MaskError};
use std::fmt::Debug;

fn refused(made: Result<impl Debug, MaskError>, by: MaskError) {
    assert_eq!(made.unwrap_err(), by);
}

/// A list of all indices below the length, and one more.
#[test]
fn are_told_behind_any_number() {
    for len in (0..200).chain([4_095, 65_537, 1_048_583]) {
        let and = |index| (0..len).chain([index]);
        if len > 0 {
            refused(Mask::try_from_indices(len, and(len - 1)), RepeatedIndex { at: len });
        }
        if len > 1 {
            refused(Mask::try_from_indices(len, and(0)), UnsortedIndices { at: len });
        }
        for index in [len, len + 1, len + 70, usize::MAX] {
            let past = IndexOutOfBounds { index, len };
            refused(Mask::try_from_indices(len, and(index)), past);
            refused(Mask::try_from_excluded_indices(len, and(index)), past);
            refused(Mask::try_from_unsorted_indices(len, and(index)), past);
            refused(Mask::try_from_intersection_indices(len, and(index), and(index)), past);
        }
    }
}

/// Of more groups than there is memory for, none is made first.
#[test]
fn too_many_groups_are_refused() {
    refused(Mask::new_true(usize::MAX).try_groups(1), Memory(AllocError));
    refused(Mask::new_false(usize::MAX).try_groups(9), Memory(AllocError));
}
