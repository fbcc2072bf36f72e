//! The instructions of 64-bit ARM for the bits at set places, by the manual of the processor. Nothing here runs unless
//! `has_quick_bits` returns true.
#![allow(clippy::inline_always, reason = "each is a few instructions of its caller")]

use core::arch::asm;

/// The bits of a source at the set places of a mask, the lowest first, by BDEP.
#[inline(always)]
pub(super) fn deposit(source: u64, mask: u64) -> u64 {
    let deposited;
    // SAFETY: the processor has it, as is asked before a function that calls this. It is of each 64 bits of two registers,
    // the lowest of which are the two numbers, and touches nothing but the first one, of which `v0` is a part.
    unsafe {
        asm!(
            ".arch_extension sve2-bitperm",
            "bdep z0.d, z0.d, z1.d",
            inout("v0") source => deposited,
            in("v1") mask,
            options(pure, nomem, nostack, preserves_flags),
        );
    }
    deposited
}

/// The bits at set places, put behind one another, by BEXT.
#[inline(always)]
pub(super) fn extract(source: u64, mask: u64) -> u64 {
    let extracted;
    // SAFETY: as above.
    unsafe {
        asm!(
            ".arch_extension sve2-bitperm",
            "bext z0.d, z0.d, z1.d",
            inout("v0") source => extracted,
            in("v1") mask,
            options(pure, nomem, nostack, preserves_flags),
        );
    }
    extracted
}
