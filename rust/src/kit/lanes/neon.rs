//! Lanes in the registers of NEON, of programs for 64-bit ARM that may use them.

#![allow(unused_unsafe, reason = "an instruction may be an argument of another one")]

use super::{Cast, Every, LaneMask, Splat};
use core::arch::aarch64::{uint8x8_t, uint8x16_t, uint16x8_t, uint32x4_t, uint64x2_t};
use core::array::from_fn;
use core::mem::transmute;

/// Calls an instruction.
macro_rules! call {
    ($name:ident$(::<$lane:literal>)?($($argument:expr),*)) => {
        // SAFETY: the program is compiled for processors that have it, and it touches no memory.
        unsafe { core::arch::aarch64::$name$(::<$lane>)?($($argument),*) }
    };
}

/// Lanes in so many registers, and the instructions for the bits of one.
macro_rules! registers {
    ($(
        $name:ident: [$lane:ident; $count:literal] in [$register:ident; $parts:literal],
        $splat:ident $and:ident $or:ident $xor:ident;
    )*) => {$(
        lanes! {
            $name: [$lane; $count] in [$register; $parts],
            |one| [call!($splat(one as _)); $parts],
            // SAFETY: both are as many bytes, and each of them may be any.
            |array| unsafe { transmute::<[$lane; $count], [$register; $parts]>(array) },
            // SAFETY: as above.
            |inside| unsafe { transmute::<[$register; $parts], [$lane; $count]>(inside) }
        }
        instructions!($name: BitAnd bitand $and, BitOr bitor $or, BitXor bitxor $xor;);
    )*};
}

/// Operators that are an instruction for each register.
macro_rules! instructions {
    ($($name:ident: $($trait:ident $call:ident $by:ident),*;)*) => {$(
        operators! {
            $name:
            $($trait $call Self, |a, b| from_fn(|k| call!($by(a[k], b[k])));)*
        }
    )*};
}

/// Shifts that are an instruction for each register, by a count in each lane. One to the right is one to the left by a
/// count below 0.
macro_rules! shifts {
    ($($name:ident: $lane:ident $by:ident $count:ident;)*) => {$(
        operators! {
            $name:
            Shl shl Every<$lane>, |a, count| {
                a.map(|it| call!($by(it, call!($count(count.cast_signed())))))
            };
            Shr shr Every<$lane>, |a, count| {
                a.map(|it| call!($by(it, call!($count(-count.cast_signed())))))
            };
        }
    )*};
}

/// Lanes of several bytes, which lie in a register as their bytes do.
macro_rules! bytes {
    ($($name:ident $of_bytes:ident $to_bytes:ident;)*) => {$(
        impl $name {
            #[inline(always)]
            pub fn from_le_bytes(bytes: u8x16) -> Self {
                Self(bytes.0.map(|it| call!($of_bytes(it))))
            }

            #[inline(always)]
            pub fn to_le_bytes(self) -> u8x16 {
                u8x16(self.0.map(|it| call!($to_bytes(it))))
            }
        }
    )*};
}

registers! {
    u8x8: [u8; 8] in [uint8x8_t; 1], vdup_n_u8 vand_u8 vorr_u8 veor_u8;
    u8x16: [u8; 16] in [uint8x16_t; 1], vdupq_n_u8 vandq_u8 vorrq_u8 veorq_u8;
    u8x32: [u8; 32] in [uint8x16_t; 2], vdupq_n_u8 vandq_u8 vorrq_u8 veorq_u8;
    u8x64: [u8; 64] in [uint8x16_t; 4], vdupq_n_u8 vandq_u8 vorrq_u8 veorq_u8;
    u16x8: [u16; 8] in [uint16x8_t; 1], vdupq_n_u16 vandq_u16 vorrq_u16 veorq_u16;
    u16x16: [u16; 16] in [uint16x8_t; 2], vdupq_n_u16 vandq_u16 vorrq_u16 veorq_u16;
    u32x4: [u32; 4] in [uint32x4_t; 1], vdupq_n_u32 vandq_u32 vorrq_u32 veorq_u32;
    u32x8: [u32; 8] in [uint32x4_t; 2], vdupq_n_u32 vandq_u32 vorrq_u32 veorq_u32;
    u64x2: [u64; 2] in [uint64x2_t; 1], vdupq_n_u64 vandq_u64 vorrq_u64 veorq_u64;
    usizex8: [usize; 8] in [uint64x2_t; 4], vdupq_n_u64 vandq_u64 vorrq_u64 veorq_u64;
}

instructions! {
    u8x16: Add add vaddq_u8, Sub sub vsubq_u8;
    u16x8: Add add vaddq_u16, Sub sub vsubq_u16, Mul mul vmulq_u16;
    u16x16: Add add vaddq_u16, Sub sub vsubq_u16, Mul mul vmulq_u16;
    u32x4: Add add vaddq_u32, Sub sub vsubq_u32, Mul mul vmulq_u32;
    u64x2: Add add vaddq_u64, Sub sub vsubq_u64;
    u32x8: Add add vaddq_u32;
    usizex8: Add add vaddq_u64;
}

shifts! {
    u8x16: u8 vshlq_u8 vdupq_n_s8;
    u16x8: u16 vshlq_u16 vdupq_n_s16;
    u16x16: u16 vshlq_u16 vdupq_n_s16;
    u32x4: u32 vshlq_u32 vdupq_n_s32;
    u64x2: u64 vshlq_u64 vdupq_n_s64;
}

bytes! {
    u16x8 vreinterpretq_u16_u8 vreinterpretq_u8_u16;
    u32x4 vreinterpretq_u32_u8 vreinterpretq_u8_u32;
    u64x2 vreinterpretq_u64_u8 vreinterpretq_u8_u64;
}

// The instructions give 0 at an index past the last.
methods! {
    u8x8: swizzle_dyn -> u8x8, |lanes, indices| [call!(vtbl1_u8(lanes[0], indices[0]))];
    u8x16: swizzle_dyn -> u8x16, |lanes, indices| [call!(vqtbl1q_u8(lanes[0], indices[0]))];
    u32x8: swizzle_dyn -> u32x8, |lanes, indices| {
        // A lane is four bytes of 32.
        let [past, of_first, places] = [8, 0x0404_0404, 0x0302_0100].map(|it| Self::each(it).0[0]);
        let [a, b] = lanes.map(|it| call!(vreinterpretq_u8_u32(it)));
        let bytes = core::arch::aarch64::uint8x16x2_t(a, b);
        indices.map(|indices| {
            let firsts = call!(vmulq_u32(call!(vminq_u32(indices, past)), of_first));
            let of_bytes = call!(vreinterpretq_u8_u32(call!(vaddq_u32(firsts, places))));
            call!(vreinterpretq_u32_u8(call!(vqtbl2q_u8(bytes, of_bytes))))
        })
    };
    u8x16: simd_eq -> LaneMask, |a, b| {
        let [bytes] = equal(a, b, 0x8040_2010_0804_0201);
        // Those of eight lanes, with those of the other eight in the upper bytes.
        let pairs = call!(vzip1q_u8(bytes, call!(vextq_u8::<8>(bytes, bytes))));
        u64::from(call!(vaddvq_u16(call!(vreinterpretq_u16_u8(pairs)))))
    };
    u8x64: simd_eq -> LaneMask, |a, b| {
        // Bits as numbers below 0, since of bits that no two lanes have the compiler doesn't make pairwise sums.
        let [first, second, third, fourth] = equal(a, b, 0x80C0_E0F0_F8FC_FEFF);
        let (front, back) = (call!(vpaddq_u8(first, second)), call!(vpaddq_u8(third, fourth)));
        let nibbles = call!(vpaddq_u8(front, back));
        let bytes = call!(vpadd_u8(call!(vget_low_u8(nibbles)), call!(vget_high_u8(nibbles))));
        call!(vget_lane_u64::<0>(call!(vreinterpret_u64_u8(call!(vsub_u8(call!(vdup_n_u8(0)), bytes))))))
    };
    u8x32: simd_eq -> LaneMask, |a, b| {
        // (as there)
        let [first, second] = equal(a, b, 0x80C0_E0F0_F8FC_FEFF);
        let pairs = call!(vpaddq_u8(first, second));
        let nibbles = call!(vpadd_u8(call!(vget_low_u8(pairs)), call!(vget_high_u8(pairs))));
        let bytes = call!(vpadd_u8(nibbles, nibbles));
        u64::from(call!(vget_lane_u32::<0>(call!(vreinterpret_u32_u8(call!(vsub_u8(call!(vdup_n_u8(0)), bytes)))))))
    };
    u8x16: count_ones -> u8x16, |bytes| bytes.map(|it| call!(vcntq_u8(it)));
}

casts! {
    u8x8 as u32: u32x8, |bytes| fours(bytes[0]);
    u8x8 as usize: usizex8, |bytes| {
        let [first, last] = fours(bytes[0]);
        [
            call!(vmovl_u32(call!(vget_low_u32(first)))),
            call!(vmovl_high_u32(first)),
            call!(vmovl_u32(call!(vget_low_u32(last)))),
            call!(vmovl_high_u32(last)),
        ]
    };
    u8x16 as u16: u16x16, |bytes| {
        [call!(vmovl_u8(call!(vget_low_u8(bytes[0])))), call!(vmovl_high_u8(bytes[0]))]
    };
    u16x16 as u8: u8x16, |lanes| {
        let [first, last] = lanes;
        [call!(vmovn_high_u16(call!(vmovn_u16(first)), last))]
    };
}

/// Eight bytes as lanes of four bytes.
#[inline(always)]
fn fours(bytes: uint8x8_t) -> [uint32x4_t; 2] {
    let pairs = call!(vmovl_u8(bytes));
    [call!(vmovl_u16(call!(vget_low_u16(pairs)))), call!(vmovl_high_u16(pairs))]
}

/// Of each eight bytes, byte `i` is that of a number where it is equal, and else 0.
#[inline(always)]
fn equal<const N: usize>(a: [uint8x16_t; N], b: [uint8x16_t; N], number: u64) -> [uint8x16_t; N] {
    let [bytes] = u64x2::each(number).to_le_bytes().0;
    from_fn(|k| call!(vandq_u8(call!(vceqq_u8(a[k], b[k])), bytes)))
}
