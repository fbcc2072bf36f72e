//! What the processor has, as it is asked once.
#![allow(clippy::inline_always, reason = "each is a load and a test")]

/// Whether the processor has x86-64-v3, where a program isn't compiled for that anyway.
#[cfg(target_arch = "x86_64")]
#[inline(always)]
pub(crate) fn has_v3() -> bool {
    cfg!(not(target_feature = "avx2")) && found::all() & found::V3 != 0
}

/// Whether the processor has AVX-512 too, as far as x86-64-v4 has it, where a program isn't compiled for that anyway.
#[cfg(target_arch = "x86_64")]
#[inline(always)]
pub(crate) fn has_v4() -> bool {
    cfg!(not(target_feature = "avx512vl")) && found::all() & found::V4 != 0
}

/// Whether a loop goes to x86-64-v4: one that gains much by it, or one that gains less where AVX-512 doesn't lower the clock.
#[cfg(target_arch = "x86_64")]
#[inline(always)]
pub(crate) fn has_v4_for(gains: bool) -> bool {
    has_v4() && (gains || found::all() & found::KEEPS_CLOCK != 0)
}

/// Whether the processor has instructions of AVX-512 that put bytes and numbers of two bytes together (VBMI2), besides: that
/// is asked in a program that is compiled for them too, since what is compiled for them asks for all of x86-64-v4.
#[cfg(target_arch = "x86_64")]
#[inline(always)]
pub(crate) fn has_vbmi2() -> bool {
    found::all() & found::VBMI2 != 0
}

/// Whether the processor has the instruction of AVX-512 that counts the set bits of words, besides.
#[cfg(target_arch = "x86_64")]
#[inline(always)]
pub(crate) fn has_vpopcntdq() -> bool {
    cfg!(not(target_feature = "avx512vpopcntdq")) && found::all() & found::VPOPCNTDQ != 0
}

/// Whether the processor has instructions for the bits at set places: on x86-64 PDEP and PEXT in a few cycles, and x86-64-v3,
/// and on 64-bit ARM BDEP and BEXT.
#[inline(always)]
pub(crate) fn has_quick_bits() -> bool {
    #[cfg(any(target_arch = "x86_64", target_arch = "aarch64"))]
    return found::all() & found::QUICK_BITS != 0;
    #[cfg(not(any(target_arch = "x86_64", target_arch = "aarch64")))]
    return false;
}

#[cfg(any(target_arch = "x86_64", target_arch = "aarch64"))]
pub(super) mod found {
    #[cfg(target_arch = "x86_64")]
    use core::arch::x86_64::__cpuid;
    use core::sync::atomic::{AtomicU8, Ordering::Relaxed};
    #[cfg(all(feature = "std", target_arch = "aarch64"))]
    use std::arch::is_aarch64_feature_detected as is_detected;
    #[cfg(all(feature = "std", target_arch = "x86_64"))]
    use std::arch::is_x86_feature_detected as is_detected;

    const KNOWN: u8 = 1;
    pub(in super::super) const QUICK_BITS: u8 = 2;
    #[cfg(target_arch = "x86_64")]
    pub(in super::super) const V3: u8 = 4;
    #[cfg(target_arch = "x86_64")]
    pub(in super::super) const V4: u8 = 8;
    #[cfg(target_arch = "x86_64")]
    pub(in super::super) const VBMI2: u8 = 16;
    #[cfg(target_arch = "x86_64")]
    pub(in super::super) const VPOPCNTDQ: u8 = 32;
    #[cfg(target_arch = "x86_64")]
    pub(in super::super) const KEEPS_CLOCK: u8 = 64;

    static FOUND: AtomicU8 = AtomicU8::new(0);

    #[cfg(test)]
    thread_local! {
        /// What a test lets be found.
        pub(in super::super) static MOST: std::cell::Cell<u8> = const { std::cell::Cell::new(u8::MAX) };
    }

    /// All that was found, by the bits above.
    #[inline(always)]
    pub(super) fn all() -> u8 {
        // (a test has the loops of processors with another clock, too)
        #[cfg(all(test, target_arch = "x86_64"))]
        return MOST.get() & (known() | KEEPS_CLOCK);
        #[cfg(all(test, not(target_arch = "x86_64")))]
        return MOST.get() & known();
        #[cfg(not(test))]
        known()
    }

    #[inline(always)]
    fn known() -> u8 {
        match FOUND.load(Relaxed) {
            0 => find(),
            known => known,
        }
    }

    #[cold]
    #[inline(never)]
    fn find() -> u8 {
        let found = KNOWN | if cfg!(row_mask_one_level) { 0 } else { asked() };
        FOUND.store(found, Relaxed);
        found
    }

    // Whether the processor has each feature; without `std`, which asks it, whether the program is compiled for each.
    macro_rules! has {
        ($($feature:tt)*) => {
            $({
                #[cfg(feature = "std")]
                let has = is_detected!($feature);
                #[cfg(not(feature = "std"))]
                let has = cfg!(target_feature = $feature);
                has
            })&&*
        };
    }

    #[cfg(target_arch = "aarch64")]
    fn asked() -> u8 {
        if has!("sve2-bitperm") { QUICK_BITS } else { 0 }
    }

    #[cfg(target_arch = "x86_64")]
    fn asked() -> u8 {
        if !has_v3() {
            return 0;
        }
        let quick_bits = if is_before_zen_3() { 0 } else { QUICK_BITS };
        let v4 = if has_avx512() { V4 | more_of_avx512() } else { 0 };
        V3 | quick_bits | v4
    }

    #[cfg(target_arch = "x86_64")]
    fn has_v3() -> bool {
        has!("avx2" "bmi1" "bmi2" "f16c" "fma" "lzcnt" "movbe" "popcnt")
    }

    #[cfg(target_arch = "x86_64")]
    fn has_avx512() -> bool {
        has!("avx512f" "avx512bw" "avx512cd" "avx512dq" "avx512vl")
    }

    #[cfg(target_arch = "x86_64")]
    fn more_of_avx512() -> u8 {
        let vbmi2 = if has!("avx512vbmi2") { VBMI2 } else { 0 };
        let vpopcntdq = if has!("avx512vpopcntdq") { VPOPCNTDQ } else { 0 };
        vbmi2 | vpopcntdq | if lowers_clock() { 0 } else { KEEPS_CLOCK }
    }

    // Intel's Skylake, Cascade Lake and Cooper Lake for servers (one model) run up to a sixth slower for a while after each use
    // of registers of 64 bytes.
    #[cfg(target_arch = "x86_64")]
    fn lowers_clock() -> bool {
        let (maker, version) = identity();
        let (family, model) = (version >> 8 & 0xF, version >> 12 & 0xF0 | version >> 4 & 0xF);
        maker == *b"Genu" && (family, model) == (6, 0x55)
    }

    // AMD's processors before Zen 3 take up to hundreds of cycles for PDEP and PEXT.
    #[cfg(target_arch = "x86_64")]
    fn is_before_zen_3() -> bool {
        let (maker, version) = identity();
        let (base, more) = (version >> 8 & 0xF, version >> 20 & 0xFF);
        let family = if base == 0xF { base + more } else { base };
        // (Hygon's are Zen of the first generation)
        [*b"Auth", *b"Hygo"].contains(&maker) && family < 0x19
    }

    // The first letters of the maker's name, and the family and model.
    #[cfg(target_arch = "x86_64")]
    fn identity() -> ([u8; 4], u32) {
        // SAFETY: each processor of x86-64 answers.
        #[allow(unused_unsafe, reason = "newer compilers ask for none")]
        let (name, version) = unsafe { (__cpuid(0).ebx, __cpuid(1).eax) };
        (name.to_le_bytes(), version)
    }
}
