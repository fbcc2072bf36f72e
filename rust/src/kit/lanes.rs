//! Lanes: numbers side by side that are computed with at once, under the names of Rust's portable `std::simd`. Sums,
//! differences and products wrap. A shift is by one count for all lanes, which `splat` makes where a shift asks for it:
//! `lanes << u8x16::splat(3)`. By other lanes nothing is shifted.
//!
//! They lie in registers, as far as a program is compiled for these, on x86-64 and on 64-bit ARM whose words begin with the
//! lowest byte. Elsewhere they lie in arrays, and with `--cfg row_mask_arrays` everywhere.

#![allow(non_camel_case_types, reason = "they are the names of `std::simd`")]
#![allow(clippy::inline_always, reason = "a call is a few instructions of its caller")]
#![allow(dead_code, reason = "all lanes have the same calls")]

/// A type of lanes, and what it is inside: of one number for every lane, of an array, and back to an array.
macro_rules! lanes {
    (
        $name:ident: [$lane:ident; $count:literal] in $inner:ty,
        |$one:ident| $splat:expr, |$array:ident| $from:expr, |$inside:ident| $to:expr
    ) => {
        #[derive(Clone, Copy)]
        pub struct $name(pub(super) $inner);

        impl $name {
            /// The number in each lane, or the count to shift all lanes by.
            #[inline(always)]
            pub fn splat<S>(number: $lane) -> S
            where
                Self: Splat<$lane, S>,
            {
                Self::of_one(number)
            }

            /// The number in each lane.
            #[inline(always)]
            pub fn each($one: $lane) -> Self {
                Self($splat)
            }

            #[inline(always)]
            pub fn from_array($array: [$lane; $count]) -> Self {
                Self($from)
            }

            #[inline(always)]
            pub fn to_array(self) -> [$lane; $count] {
                let $inside = self.0;
                $to
            }

            /// The first numbers of a slice, which has at least as many as there are lanes.
            #[inline(always)]
            pub fn from_slice(numbers: &[$lane]) -> Self {
                Self::from_array(*numbers.first_chunk().expect("a number for each lane"))
            }

            /// A count to shift all lanes by, less than a lane has bits.
            #[inline(always)]
            pub fn every(count: $lane) -> Every<$lane> {
                #[allow(clippy::cast_possible_truncation, reason = "it is at most 64")]
                const BITS: $lane = $lane::BITS as $lane;
                debug_assert!(count < BITS, "a lane has {BITS} bits");
                Every(count % BITS)
            }

            #[inline(always)]
            pub fn cast<L>(self) -> <Self as Cast<L>>::Lanes
            where
                Self: Cast<L>,
            {
                self.cast_lanes()
            }
        }

        impl Splat<$lane, Self> for $name {
            #[inline(always)]
            fn of_one(number: $lane) -> Self {
                Self::each(number)
            }
        }

        impl core::ops::Not for $name {
            type Output = Self;

            #[inline(always)]
            fn not(self) -> Self {
                self ^ Self::each($lane::MAX)
            }
        }

        impl core::ops::BitXorAssign for $name {
            #[inline(always)]
            fn bitxor_assign(&mut self, other: Self) {
                *self = *self ^ other;
            }
        }
    };
}

/// Operators, by what is inside.
macro_rules! operators {
    ($name:ident: $($trait:ident $call:ident $other:ty, |$a:ident, $b:ident| $made:expr;)*) => {$(
        impl core::ops::$trait<$other> for $name {
            type Output = Self;

            #[inline(always)]
            fn $call(self, other: $other) -> Self {
                let ($a, $b) = (self.0, other.0);
                Self($made)
            }
        }
    )*};
}

/// Methods, by what is inside.
macro_rules! methods {
    ($($name:ident: $call:ident -> $to:ident, |$a:ident $(, $b:ident)?| $made:expr;)*) => {$(
        impl $name {
            #[inline(always)]
            pub fn $call(self $(, $b: Self)?) -> $to {
                let $a = self.0;
                $(let $b = $b.0;)?
                $to($made)
            }
        }
    )*};
}

/// Casts, by what is inside.
macro_rules! casts {
    ($($name:ident as $lane:ident: $to:ident, |$a:ident| $made:expr;)*) => {$(
        impl Cast<$lane> for $name {
            type Lanes = $to;

            #[inline(always)]
            fn cast_lanes(self) -> $to {
                let $a = self.0;
                $to($made)
            }
        }
    )*};
}

mod arrays;
#[cfg(all(target_feature = "neon", target_endian = "little", not(row_mask_arrays)))]
mod neon;
#[cfg(all(target_feature = "sse2", target_pointer_width = "64", not(row_mask_arrays)))]
mod sse;
#[cfg(test)]
mod tests;

#[cfg(not(any(
    all(target_feature = "neon", target_endian = "little", not(row_mask_arrays)),
    all(target_feature = "sse2", target_pointer_width = "64", not(row_mask_arrays)),
)))]
use arrays as taken;
#[cfg(all(target_feature = "neon", target_endian = "little", not(row_mask_arrays)))]
use neon as taken;
#[cfg(all(target_feature = "sse2", target_pointer_width = "64", not(row_mask_arrays)))]
use sse as taken;
#[allow(unused_imports, reason = "tests take all of them")]
pub use taken::{u8x8, u8x16, u8x32, u8x64, u16x8, u16x16, u32x4, u32x8, u64x2, usizex8};

/// What `splat` makes of a number, by the type that its place asks for: lanes, or a count.
pub trait Splat<L, S> {
    fn of_one(number: L) -> S;
}

/// Lanes that the sources shift.
macro_rules! shifted {
    ($($name:ident: $lane:ident)*) => {$(
        impl Splat<$lane, Every<$lane>> for $name {
            #[inline(always)]
            fn of_one(number: $lane) -> Every<$lane> {
                Self::every(number)
            }
        }
    )*};
}

shifted!(u8x16: u8 u16x8: u16 u16x16: u16 u32x4: u32 u64x2: u64);

/// By how many bits all lanes are shifted.
#[derive(Clone, Copy)]
pub struct Every<L>(L);

/// Lanes that can be cast to lanes of the type `L`.
pub trait Cast<L> {
    type Lanes;

    fn cast_lanes(self) -> Self::Lanes;
}

/// Which lanes are equal: a bit for each, the first in the lowest.
#[derive(Clone, Copy)]
pub struct LaneMask(u64);

impl LaneMask {
    #[inline(always)]
    pub fn to_bitmask(self) -> u64 {
        self.0
    }
}
