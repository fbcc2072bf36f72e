//! Memory that is refused to a call which returns no `Result`.

use crate::proved::vortex_mask::MaskError;
use alloc::alloc::{Layout, handle_alloc_error};

/// What a call gave that is refused nothing but memory, for so many bits. Where that was refused, the process ends, as by
/// Rust's own lists. (Without `std` it panics.)
pub(crate) fn granted<T, E>(given: Result<T, E>, bits: usize) -> T {
    given.unwrap_or_else(|_| out_of_memory(bits))
}

/// The same of a call that may also refuse what it was given: then it panics with the call's name and what is wrong.
#[track_caller]
pub(crate) fn accepted<T>(call: &str, given: Result<T, MaskError>, bits: usize) -> T {
    match given {
        Ok(it) => it,
        Err(MaskError::Memory(_)) => out_of_memory(bits),
        Err(refusal) => refused(call, refusal),
    }
}

#[cold]
#[track_caller]
fn refused(call: &str, refusal: MaskError) -> ! {
    let needs = match refusal {
        MaskError::UnsortedIndices { .. } => "Mask indices must be sorted: ",
        MaskError::RepeatedIndex { .. } => "Mask indices must be unique: ",
        MaskError::UnsortedRanges { .. } => "Slices must be sorted: ",
        MaskError::OverlappingRanges { .. } => "Slices must be non-overlapping: ",
        _ => "",
    };
    panic!("row_mask: `{call}`: {needs}{refusal}");
}

#[cold]
fn out_of_memory(bits: usize) -> ! {
    let layout = Layout::array::<u8>(bits.div_ceil(8));
    handle_alloc_error(layout.expect("an eighth of any number is the size of a list"))
}
