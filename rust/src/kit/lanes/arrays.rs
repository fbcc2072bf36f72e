//! Lanes in arrays, for every processor. A compiler makes vectors of them where it can.

use super::{Cast, Every, LaneMask, Splat};
use core::array::from_fn;

macro_rules! arrays {
    ($($name:ident: [$lane:ident; $count:literal];)*) => {$(
        lanes! {
            $name: [$lane; $count] in [$lane; $count],
            |one| [one; $count], |array| array, |array| array
        }
        operators! {
            $name:
            Add add Self, |a, b| from_fn(|i| a[i].wrapping_add(b[i]));
            Sub sub Self, |a, b| from_fn(|i| a[i].wrapping_sub(b[i]));
            Mul mul Self, |a, b| from_fn(|i| a[i].wrapping_mul(b[i]));
            BitAnd bitand Self, |a, b| from_fn(|i| a[i] & b[i]);
            BitOr bitor Self, |a, b| from_fn(|i| a[i] | b[i]);
            BitXor bitxor Self, |a, b| from_fn(|i| a[i] ^ b[i]);
            Shl shl Every<$lane>, |a, count| a.map(|lane| lane << count);
            Shr shr Every<$lane>, |a, count| a.map(|lane| lane >> count);
        }
    )*};
}

arrays! {
    u8x8: [u8; 8];
    u8x16: [u8; 16];
    u8x32: [u8; 32];
    u8x64: [u8; 64];
    u16x8: [u16; 8];
    u16x16: [u16; 16];
    u32x4: [u32; 4];
    u32x8: [u32; 8];
    u64x2: [u64; 2];
    usizex8: [usize; 8];
}

casts! {
    u8x8 as u32: u32x8, |lanes| lanes.map(u32::from);
    u8x8 as usize: usizex8, |lanes| lanes.map(usize::from);
    u8x16 as u16: u16x16, |lanes| lanes.map(u16::from);
    u16x16 as u8: u8x16, |lanes| lanes.map(|lane| lane.to_le_bytes()[0]);
}

methods! {
    u8x8: swizzle_dyn -> u8x8, |lanes, indices| swizzle(lanes, indices.map(usize::from));
    u8x16: swizzle_dyn -> u8x16, |lanes, indices| swizzle(lanes, indices.map(usize::from));
    u32x8: swizzle_dyn -> u32x8, |lanes, indices| swizzle(lanes, indices.map(|i| i as usize));
    u8x16: simd_eq -> LaneMask, |a, b| equal(a, b);
    u8x32: simd_eq -> LaneMask, |a, b| equal(a, b);
    u8x64: simd_eq -> LaneMask, |a, b| equal(a, b);
    u8x16: count_ones -> u8x16, |lanes| lanes.map(|lane| lane.count_ones().to_le_bytes()[0]);
}

/// The lanes at the indices, and 0 at an index past the last. There are at most 16.
#[inline(always)]
fn swizzle<L: Copy + Default, const N: usize>(lanes: [L; N], indices: [usize; N]) -> [L; N] {
    // (with a 0 behind the lanes, nothing branches)
    let mut room = [L::default(); 17];
    room[..N].copy_from_slice(&lanes);
    indices.map(|i| room[i.min(N)])
}

/// Which bytes are equal, with a bit for each, the first in the lowest. There are whole eights of them, and at most 64.
#[inline(always)]
fn equal<const N: usize>(a: [u8; N], b: [u8; N]) -> u64 {
    let equal: [u8; N] = from_fn(|i| u8::from(a[i] == b[i]));
    let mut bits = 0;
    for (k, eight) in equal.as_chunks().0.iter().enumerate() {
        // (the top byte of the product has a bit of each)
        let byte = u64::from_le_bytes(*eight).wrapping_mul(0x0102_0408_1020_4080) >> 56;
        bits |= byte << (8 * k);
    }
    bits
}

macro_rules! bytes {
    ($($name:ident: $lane:ident;)*) => {$(
        impl $name {
            #[inline(always)]
            pub fn from_le_bytes(bytes: u8x16) -> Self {
                let (lanes, _) = bytes.0.as_chunks();
                Self(from_fn(|i| $lane::from_le_bytes(lanes[i])))
            }

            #[inline(always)]
            pub fn to_le_bytes(self) -> u8x16 {
                let mut bytes = [0; 16];
                for (bytes, lane) in bytes.as_chunks_mut().0.iter_mut().zip(self.0) {
                    *bytes = lane.to_le_bytes();
                }
                u8x16(bytes)
            }
        }
    )*};
}

bytes! {
    u16x8: u16;
    u32x4: u32;
    u64x2: u64;
}
