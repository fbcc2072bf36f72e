//! Calls of functions that are compiled twice or more: for what the program is compiled for, and for what the processor has.

/// Calls the function that is compiled for what the processor has: where an instruction takes the
/// bits at set places, and is quick, for x86-64-v3, or for any.
macro_rules! by_level {
    ($by_instruction:expr, $v3:expr, $any:expr) => {{
        #[cfg(any(target_arch = "x86_64", target_arch = "aarch64"))]
        if crate::native::has_quick_bits() {
            // SAFETY: the processor has all that it is compiled for, as was found.
            return unsafe { $by_instruction };
        }
        crate::native::by_level!($v3, $any)
    }};
    ($v3:expr, $any:expr) => {
        crate::native::by_level_if!(true, $v3, $any)
    };
}
pub(crate) use by_level;

/// The same of one that is compiled for x86-64-v4 too, which has AVX-512. A condition tells whether it gains so much that
/// it goes there also where the clock is lowered for that.
macro_rules! by_level_to_v4 {
    ($gains:expr, $v4:expr, $v3:expr, $any:expr) => {
        crate::native::by_level_to_v4_if!(true, $gains, $v4, $v3, $any)
    };
}
pub(crate) use by_level_to_v4;

/// The same of one that is compiled for x86-64-v4 with VPOPCNTDQ too, which counts the set bits of words.
macro_rules! by_level_to_vpopcntdq {
    ($vpopcntdq:expr, $v3:expr, $any:expr) => {{
        #[cfg(target_arch = "x86_64")]
        if crate::native::has_vpopcntdq() {
            // SAFETY: the processor has what it is compiled for.
            return unsafe { $vpopcntdq };
        }
        crate::native::by_level!($v3, $any)
    }};
}
pub(crate) use by_level_to_vpopcntdq;

/// That for x86-64-v4 where a condition tells whether there is so much to do that it pays to ask.
macro_rules! by_level_to_v4_if {
    ($much:expr, $gains:expr, $v4:expr, $v3:expr, $any:expr) => {{
        #[cfg(target_arch = "x86_64")]
        if $much && crate::native::has_v4_for($gains) {
            // SAFETY: the processor has what it is compiled for.
            return unsafe { $v4 };
        }
        crate::native::by_level_if!($much, $v3, $any)
    }};
}
pub(crate) use by_level_to_v4_if;

/// The same of two, where a condition tells whether there is so much to do that it pays to ask.
macro_rules! by_level_if {
    ($much:expr, $v3:expr, $any:expr) => {{
        #[cfg(target_arch = "x86_64")]
        if $much && crate::native::has_v3() {
            // SAFETY: the processor has what it is compiled for.
            return unsafe { $v3 };
        }
        $any
    }};
}
pub(crate) use by_level_if;

/// A function with a copy that is compiled for x86-64-v3, and `to v4` with one for that, which are called where the processor
/// has that, it gains so much (as above), and there is so much to do that it pays to ask.
macro_rules! levelled {
    ($visible:vis fn $($rest:tt)+) => {
        crate::native::levelled! { where true; $visible fn $($rest)+ }
    };
    (
        to v4 where $gains:expr, if $much:expr;
        $visible:vis fn $call:ident $(<$($row:ident),+>)?($($argument:ident: $type:ty),+ $(,)?)
            $(-> $result:ty)? $body:block
    ) => {
        #[allow(clippy::semicolon_if_nothing_returned, reason = "some return something")]
        $visible fn $call $(<$($row),+>)?($($argument: $type),+) $(-> $result)? {
            #[allow(clippy::inline_always, reason = "a copy is compiled for what the function around it has")]
            #[inline(always)]
            fn any $(<$($row),+>)?($($argument: $type),+) $(-> $result)? $body

            #[cfg(target_arch = "x86_64")]
            #[target_feature(enable = "avx2,bmi1,bmi2,f16c,fma,lzcnt,movbe,popcnt")]
            fn v3 $(<$($row),+>)?($($argument: $type),+) $(-> $result)? {
                any($($argument),+)
            }

            #[cfg(target_arch = "x86_64")]
            #[target_feature(enable = "avx2,bmi1,bmi2,f16c,fma,lzcnt,movbe,popcnt")]
            #[target_feature(enable = "avx512f,avx512bw,avx512cd,avx512dq,avx512vl")]
            fn v4 $(<$($row),+>)?($($argument: $type),+) $(-> $result)? {
                any($($argument),+)
            }

            crate::native::by_level_to_v4_if!($much, $gains, v4($($argument),+), v3($($argument),+), any($($argument),+))
        }
    };
    (
        where $much:expr;
        $visible:vis fn $call:ident $(<$($row:ident),+>)?($($argument:ident: $type:ty),+ $(,)?)
            $(-> $result:ty)? $body:block
    ) => {
        #[allow(clippy::semicolon_if_nothing_returned, reason = "some return something")]
        $visible fn $call $(<$($row),+>)?($($argument: $type),+) $(-> $result)? {
            #[allow(clippy::inline_always, reason = "a copy is compiled for what the function around it has")]
            #[inline(always)]
            fn any $(<$($row),+>)?($($argument: $type),+) $(-> $result)? $body

            #[cfg(target_arch = "x86_64")]
            #[target_feature(enable = "avx2,bmi1,bmi2,f16c,fma,lzcnt,movbe,popcnt")]
            fn v3 $(<$($row),+>)?($($argument: $type),+) $(-> $result)? {
                any($($argument),+)
            }

            crate::native::by_level_if!($much, v3($($argument),+), any($($argument),+))
        }
    };
}
pub(crate) use levelled;

/// The same of loops over vectors alone: a program that is compiled for x86-64-v2 takes its own, since the compiler reads
/// each 32 bytes as two halves there.
macro_rules! by_wide_level_if {
    ($much:expr, $v3:expr, $any:expr) => {{
        #[cfg(all(target_arch = "x86_64", not(target_feature = "sse4.2")))]
        if $much && crate::native::has_v3() {
            // SAFETY: the processor has what it is compiled for.
            return unsafe { $v3 };
        }
        $any
    }};
}
pub(crate) use by_wide_level_if;

/// The same of what shifts words within those loops: just such a program takes that of x86-64-v3, which gains more.
macro_rules! by_shifted_level {
    ($v3:expr, $any:expr) => {{
        #[cfg(all(target_arch = "x86_64", target_feature = "sse4.2"))]
        if crate::native::has_v3() {
            // SAFETY: the processor has what it is compiled for.
            return unsafe { $v3 };
        }
        $any
    }};
}
pub(crate) use by_shifted_level;
