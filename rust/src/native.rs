//! What the processor has that a program runs on, where it isn't compiled for that: x86-64-v3, x86-64-v4, and instructions
//! for the bits at set places: PDEP and PEXT where these are quick, and on 64-bit ARM BDEP and BEXT. All of it is written by
//! hand, and trusted. `README.md` lists all that is.
//!
//! `features` asks the processor, `levels` has calls of what is compiled for it, and `instructions` and `arm` have the
//! instructions. These import nothing of the package but each other. `choose`, `deposits`, `extracts` and `processor` stand in
//! the places of proved functions, and import what they implement, call or are called with.

#[cfg(target_arch = "aarch64")]
mod arm;
mod choose;
mod deposits;
#[cfg(any(target_arch = "x86_64", target_arch = "aarch64"))]
mod extracts;
mod features;
#[cfg(target_arch = "x86_64")]
mod instructions;
mod levels;
pub(crate) mod processor;
#[cfg(all(test, any(target_arch = "x86_64", target_arch = "aarch64")))]
mod tests;

#[cfg(target_arch = "aarch64")]
use arm as instructions;

pub(crate) use choose::{
    MORE, OF_A_RUN, choose_rows_by_size, choose_several, choose_to_front, copy_runs,
    put_chosen_rows,
};
#[cfg(any(target_arch = "x86_64", target_arch = "aarch64"))]
pub(crate) use deposits::ByInstruction;
pub(crate) use deposits::{by_loop, quickest, quickest_path};
#[cfg(any(target_arch = "x86_64", target_arch = "aarch64"))]
pub(crate) use extracts::{extract, put_pairs};
pub(crate) use features::has_quick_bits;
#[cfg(target_arch = "x86_64")]
pub(crate) use features::{has_v3, has_v4, has_v4_for, has_vbmi2, has_vpopcntdq};
pub(crate) use levels::{
    by_level, by_level_if, by_level_to_v4, by_level_to_v4_if, by_level_to_vpopcntdq,
    by_shifted_level, by_wide_level_if, levelled,
};
