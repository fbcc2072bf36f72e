//! Lanes in the registers of SSE2, which each processor of x86-64 has. Instructions of SSSE3 and AVX2 are taken where a
//! program is compiled for them.

use super::{Cast, Every, LaneMask, Splat, arrays};
use core::arch::x86_64::__m128i;
use core::array::from_fn;
use core::mem::transmute;

pub use wide::{u32x8, usizex8};

/// Calls an instruction.
macro_rules! call {
    ($name:ident($($argument:expr),*)) => {
        // SAFETY: the program is compiled for processors that have it, and it touches no memory.
        unsafe { core::arch::x86_64::$name($($argument),*) }
    };
}

/// Lanes in so many registers, and the instructions for the bits of one.
macro_rules! registers {
    (
        $register:ident $and:ident $or:ident $xor:ident:
        $($name:ident: [$lane:ident; $count:literal] in $parts:literal $splat:ident;)*
    ) => {$(
        lanes! {
            $name: [$lane; $count] in [$register; $parts],
            |one| [call!($splat(one.cast_signed() as _)); $parts],
            // SAFETY: both are as many bytes, and each of them may be any.
            |array| unsafe { transmute::<[$lane; $count], [$register; $parts]>(array) },
            // SAFETY: as above.
            |inside| unsafe { transmute::<[$register; $parts], [$lane; $count]>(inside) }
        }
        instructions!($name: BitAnd bitand $and, BitOr bitor $or, BitXor bitxor $xor;);
    )*};
}

/// Operators that are an instruction for each register.
macro_rules! instructions {
    ($($name:ident: $($trait:ident $call:ident $by:ident),*;)*) => {$(
        operators! {
            $name:
            $($trait $call Self, |a, b| from_fn(|k| call!($by(a[k], b[k])));)*
        }
    )*};
}

/// Shifts that are an instruction for each register, by a count in another one.
macro_rules! shifts {
    ($($name:ident: $lane:ident $left:ident $right:ident;)*) => {$(
        operators! {
            $name:
            Shl shl Every<$lane>, |a, count| a.map(|it| call!($left(it, register(count.into()))));
            Shr shr Every<$lane>, |a, count| a.map(|it| call!($right(it, register(count.into()))));
        }
    )*};
}

/// Lanes of several bytes, which lie in a register as their bytes do.
macro_rules! bytes {
    ($($name:ident)*) => {$(
        impl $name {
            #[inline(always)]
            pub fn from_le_bytes(bytes: u8x16) -> Self {
                Self(bytes.0)
            }

            #[inline(always)]
            pub fn to_le_bytes(self) -> u8x16 {
                u8x16(self.0)
            }
        }
    )*};
}

registers! {
    __m128i _mm_and_si128 _mm_or_si128 _mm_xor_si128:
    u8x16: [u8; 16] in 1 _mm_set1_epi8;
    u8x32: [u8; 32] in 2 _mm_set1_epi8;
    u8x64: [u8; 64] in 4 _mm_set1_epi8;
    u16x8: [u16; 8] in 1 _mm_set1_epi16;
    u16x16: [u16; 16] in 2 _mm_set1_epi16;
    u32x4: [u32; 4] in 1 _mm_set1_epi32;
    u64x2: [u64; 2] in 1 _mm_set1_epi64x;
}

instructions! {
    u8x16: Add add _mm_add_epi8, Sub sub _mm_sub_epi8;
    u16x8: Add add _mm_add_epi16, Sub sub _mm_sub_epi16, Mul mul _mm_mullo_epi16;
    u16x16: Add add _mm_add_epi16, Sub sub _mm_sub_epi16, Mul mul _mm_mullo_epi16;
    u32x4: Add add _mm_add_epi32, Sub sub _mm_sub_epi32;
    u64x2: Add add _mm_add_epi64, Sub sub _mm_sub_epi64;
}

shifts! {
    u16x8: u16 _mm_sll_epi16 _mm_srl_epi16;
    u16x16: u16 _mm_sll_epi16 _mm_srl_epi16;
    u32x4: u32 _mm_sll_epi32 _mm_srl_epi32;
    u64x2: u64 _mm_sll_epi64 _mm_srl_epi64;
}

bytes!(u16x8 u32x4 u64x2);

// No instruction shifts bytes. Of two bytes that are shifted as one number, what comes from the other one is cut.
operators! {
    u8x16:
    Shl shl Every<u8>, |bytes, count| {
        let shifted = u16x8(bytes) << Every(count.into());
        (shifted.to_le_bytes() & Self::each(u8::MAX << count)).0
    };
    Shr shr Every<u8>, |bytes, count| {
        let shifted = u16x8(bytes) >> Every(count.into());
        (shifted.to_le_bytes() & Self::each(u8::MAX >> count)).0
    };
}

// (a compiler finds the best instructions for these products)
operators! {
    u32x4:
    Mul mul Self, |a, b| {
        let [a, b] = [a, b].map(|it| arrays::u32x4::from_array(Self(it).to_array()));
        Self::from_array((a * b).to_array()).0
    };
}

lanes! {
    u8x8: [u8; 8] in [u8; 8],
    |one| [one; 8], |array| array, |array| array
}

operators! {
    u8x8:
    BitXor bitxor Self, |a, b| from_fn(|i| a[i] ^ b[i]);
}

methods! {
    u8x16: simd_eq -> LaneMask, |a, b| equal(a, b);
    u8x32: simd_eq -> LaneMask, |a, b| equal(a, b);
    u8x64: simd_eq -> LaneMask, |a, b| equal(a, b);
    u8x16: count_ones -> u8x16, |bytes| ones(Self(bytes)).0;
    u8x16: swizzle_dyn -> u8x16, |lanes, indices| [swizzle(lanes[0], indices[0])];
    u8x8: swizzle_dyn -> u8x8, |lanes, indices| {
        // (there are zeros behind the eight lanes)
        let [lanes, indices] = [lanes, indices].map(|it| register(u64::from_le_bytes(it)));
        call!(_mm_cvtsi128_si64(swizzle(lanes, indices))).to_le_bytes()
    };
}

casts! {
    u8x16 as u16: u16x16, |bytes| {
        let ([bytes], [zeros]) = (bytes, Self::each(0).0);
        [call!(_mm_unpacklo_epi8(bytes, zeros)), call!(_mm_unpackhi_epi8(bytes, zeros))]
    };
    u16x16 as u8: u8x16, |lanes| {
        let [first, last] = (Self(lanes) & Self::each(0xFF)).0;
        [call!(_mm_packus_epi16(first, last))]
    };
}

/// The number, and zeros behind it.
#[inline(always)]
fn register(number: u64) -> __m128i {
    call!(_mm_cvtsi64_si128(number.cast_signed()))
}

/// Which bytes are equal, with a bit for each, the first in the lowest.
#[inline(always)]
fn equal<const N: usize>(a: [__m128i; N], b: [__m128i; N]) -> u64 {
    let mut bits = 0;
    for (k, (a, b)) in a.into_iter().zip(b).enumerate() {
        let equal = call!(_mm_cmpeq_epi8(a, b));
        bits |= u64::from(call!(_mm_movemask_epi8(equal)).cast_unsigned()) << (16 * k);
    }
    bits
}

/// The lanes at the indices, and 0 at an index past the last.
#[cfg(target_feature = "ssse3")]
#[inline(always)]
fn swizzle(lanes: __m128i, indices: __m128i) -> __m128i {
    // The instruction gives 0 at an index that has the top bit, and else reads the low four.
    let indices = call!(_mm_adds_epu8(indices, u8x16::each(128 - 16).0[0]));
    call!(_mm_shuffle_epi8(lanes, indices))
}

/// The same with no instruction for it.
#[cfg(not(target_feature = "ssse3"))]
#[inline(always)]
fn swizzle(lanes: __m128i, indices: __m128i) -> __m128i {
    let equal = |a: u8x16, b: u8x16| u8x16([call!(_mm_cmpeq_epi8(a.0[0], b.0[0]))]);
    let indices = u8x16([indices]);
    // Each bit of an index takes one of each two lanes that are left.
    let mut left = u8x16([lanes]).to_array().map(u8x16::each);
    for place in 0..4 {
        let bit = u8x16::each(1 << place);
        let is_set = equal(indices & bit, bit);
        for k in 0..8 >> place {
            left[k] = left[2 * k] ^ ((left[2 * k] ^ left[2 * k + 1]) & is_set);
        }
    }
    (left[0] & equal(indices & u8x16::each(0xF0), u8x16::each(0))).0[0]
}

/// How many bits of each byte are set, by a table of those of four bits.
#[cfg(target_feature = "ssse3")]
#[inline(always)]
fn ones(bytes: u8x16) -> u8x16 {
    let [table] = u8x16::from_array([0, 1, 1, 2, 1, 2, 2, 3, 1, 2, 2, 3, 2, 3, 3, 4]).0;
    let of = |fours: u8x16| u8x16([call!(_mm_shuffle_epi8(table, fours.0[0]))]);
    of(bytes & u8x16::each(15)) + of(bytes >> Every(4))
}

/// The same with no instruction for it: of each two bits, of each four, and of all.
#[cfg(not(target_feature = "ssse3"))]
#[inline(always)]
fn ones(bytes: u8x16) -> u8x16 {
    let twos = bytes - ((bytes >> Every(1)) & u8x16::each(0x55));
    let fours = (twos & u8x16::each(0x33)) + ((twos >> Every(2)) & u8x16::each(0x33));
    (fours + (fours >> Every(4))) & u8x16::each(0x0F)
}

#[cfg(target_feature = "avx2")]
mod wide {
    //! The lanes that gain by the registers of AVX2.

    use super::{Cast, Every, Splat, from_fn, register, transmute, u8x8};
    use core::arch::x86_64::__m256i;

    registers! {
        __m256i _mm256_and_si256 _mm256_or_si256 _mm256_xor_si256:
        u32x8: [u32; 8] in 1 _mm256_set1_epi32;
        usizex8: [usize; 8] in 2 _mm256_set1_epi64x;
    }

    instructions! {
        u32x8: Add add _mm256_add_epi32;
        usizex8: Add add _mm256_add_epi64;
    }

    casts! {
        u8x8 as u32: u32x8, |bytes| {
            [call!(_mm256_cvtepu8_epi32(register(u64::from_le_bytes(bytes))))]
        };
        u8x8 as usize: usizex8, |bytes| {
            let (fours, _) = bytes.as_chunks();
            from_fn(|k| {
                let four = call!(_mm_cvtsi32_si128(i32::from_le_bytes(fours[k])));
                call!(_mm256_cvtepu8_epi64(four))
            })
        };
    }

    methods! {
        u32x8: swizzle_dyn -> u32x8, |lanes, indices| {
            let ([lanes], [indices], [past]) = (lanes, indices, Self::each(8).0);
            // The instruction reads the low three bits of an index.
            let made = call!(_mm256_permutevar8x32_epi32(lanes, indices));
            let least = call!(_mm256_max_epu32(indices, past));
            let is_past = call!(_mm256_cmpeq_epi32(indices, least));
            [call!(_mm256_andnot_si256(is_past, made))]
        };
    }
}

#[cfg(not(target_feature = "avx2"))]
mod wide {
    //! The same lanes in registers of SSE2, or in arrays.

    use super::{__m128i, Cast, Every, Splat, arrays, from_fn, register, transmute, u8x8, u8x16};

    pub use arrays::u32x8;

    registers! {
        __m128i _mm_and_si128 _mm_or_si128 _mm_xor_si128:
        usizex8: [usize; 8] in 4 _mm_set1_epi64x;
    }

    instructions!(usizex8: Add add _mm_add_epi64;);

    casts! {
        u8x8 as u32: u32x8, |bytes| bytes.map(u32::from);
        u8x8 as usize: usizex8, |bytes| {
            let [zeros] = u8x16::each(0).0;
            let pairs = call!(_mm_unpacklo_epi8(register(u64::from_le_bytes(bytes)), zeros));
            let first = call!(_mm_unpacklo_epi16(pairs, zeros));
            let last = call!(_mm_unpackhi_epi16(pairs, zeros));
            [
                call!(_mm_unpacklo_epi32(first, zeros)),
                call!(_mm_unpackhi_epi32(first, zeros)),
                call!(_mm_unpacklo_epi32(last, zeros)),
                call!(_mm_unpackhi_epi32(last, zeros)),
            ]
        };
    }
}
