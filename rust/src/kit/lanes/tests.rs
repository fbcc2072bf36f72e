//! Each call on the lanes that this program has, beside that on arrays, and that beside a loop over plain numbers.

#![allow(clippy::cast_possible_truncation, reason = "numbers are cut to lanes")]
#![allow(clippy::cast_lossless, clippy::unnecessary_cast, reason = "lanes are of several types")]

use super::arrays;
use crate::kit::lanes;
use std::array::from_fn;
use std::panic::catch_unwind;

/// Numbers at which something changes in lanes of some width, whole or cut to it.
#[rustfmt::skip]
const EDGES: [u64; 36] = [
    0, 1, 2, 3, 4, 7, 8, 9, 15, 16, 17, 31, 0x55, 0x7F, 0x80, 0xAA, 0xFE, 0xFF, 0x100, 0x108, 0x7FFF, 0x8000, 0xFF00,
    0xFFFE, 0xFFFF, 0x1_0000, 0x7FFF_FFFF, 0x8000_0000, 0x8000_0003, 0xFFFF_FFFE, 0xFFFF_FFFF, 0x1_0000_0000,
    u64::MAX / 2, u64::MAX / 2 + 1, u64::MAX - 1, u64::MAX,
];

/// Two rows of numbers: each pair of edges in each lane, each pair of bytes in each lane, and 10,000 of random numbers.
fn pairs<const N: usize>() -> impl Iterator<Item = [[u64; N]; 2]> {
    let count = EDGES.len();
    let edges = (0..count * count).map(move |k| {
        [
            from_fn(|i| EDGES[(k / count + i) % count]),
            from_fn(|i| EDGES[(k % count + 5 * i) % count]),
        ]
    });
    let bytes = (0..0x1_0000)
        .map(|k| [from_fn(|i| (k / 0x100 + i) as u64), from_fn(|i| (k % 0x100 + 7 * i) as u64)]);
    let mut random = Random(0x2545_F491_4F6C_DD1D);
    let randoms = (0..10_000).map(move |_| from_fn(|_| from_fn(|_| random.number())));
    edges.chain(bytes).chain(randoms)
}

/// Numbers by an xorshift.
struct Random(u64);

impl Random {
    fn number(&mut self) -> u64 {
        self.0 ^= self.0 << 13;
        self.0 ^= self.0 >> 7;
        self.0 ^= self.0 << 17;
        self.0
    }
}

/// What is made of lanes has to be what is made of lanes in arrays, and that what a loop makes of their numbers. In the
/// first expression, `form` is the module of the lanes.
macro_rules! agree {
    (
        $form:ident $name:ident [$lane:ident; $count:literal]:
        |$a:pat_param, $b:pat_param| $made:expr, |$x:pat_param, $y:pat_param| $by_loop:expr
    ) => {
        for pair in pairs::<$count>() {
            let [a, b] = pair.map(|numbers| numbers.map(|number| number as $lane));
            let by_loop = {
                let ($x, $y) = (a, b);
                $by_loop
            };
            let by_arrays = {
                use arrays as form;
                let ($a, $b) = (form::$name::from_array(a), form::$name::from_array(b));
                $made
            };
            let made = {
                use $form as form;
                let ($a, $b) = (form::$name::from_array(a), form::$name::from_array(b));
                $made
            };
            assert_eq!(by_arrays, by_loop, "by arrays, of {a:?} and {b:?}");
            assert_eq!(made, by_arrays, "of {a:?} and {b:?}");
        }
    };
}

/// The same of an operator: a loop goes over two lanes' numbers, where a lane has so many values.
macro_rules! operator {
    (
        $form:ident $name:ident [$lane:ident; $count:literal]:
        |$a:pat_param, $b:pat_param| $made:expr, $of:expr
    ) => {
        let of: fn(u128, u128, u128) -> u128 = $of;
        agree!($form $name [$lane; $count]: |$a, $b| $made.to_array(), |a, b| {
            let mut made = [0; $count];
            for i in 0..$count {
                made[i] = of(a[i] as u128, b[i] as u128, 1 << $lane::BITS) as $lane;
            }
            made
        });
    };
}

macro_rules! operator_named {
    (add $($of:tt)*) => { operator!($($of)*: |a, b| (a + b), |a, b, end| (a + b) % end) };
    (sub $($of:tt)*) => { operator!($($of)*: |a, b| (a - b), |a, b, end| (end + a - b) % end) };
    (mul $($of:tt)*) => { operator!($($of)*: |a, b| (a * b), |a, b, end| a * b % end) };
    (and $($of:tt)*) => { operator!($($of)*: |a, b| (a & b), |a, b, _| a & b) };
    (or $($of:tt)*) => { operator!($($of)*: |a, b| (a | b), |a, b, _| a | b) };
    (xor $($of:tt)*) => { operator!($($of)*: |a, b| (a ^ b), |a, b, _| a ^ b) };
    (not $($of:tt)*) => { operator!($($of)*: |a, _| (!a), |a, _, end| end - 1 - a) };
    (xor_assign $($of:tt)*) => { operator!($($of)*: |mut a, b| { a ^= b; a }, |a, b, _| a ^ b) };
    (shl $form:ident $name:ident [$lane:ident; $count:literal]) => {
        agree!($form $name [$lane; $count]: |a, b| {
            (a << form::$name::every(b.to_array()[0] % $lane::BITS as $lane)).to_array()
        }, |a, b| {
            a.map(|lane| ((lane as u128) << (b[0] as u32 % $lane::BITS)) as $lane)
        });
    };
    (shr $form:ident $name:ident [$lane:ident; $count:literal]) => {
        agree!($form $name [$lane; $count]: |a, b| {
            (a >> form::$name::every(b.to_array()[0] % $lane::BITS as $lane)).to_array()
        }, |a, b| {
            a.map(|lane| (lane as u128 / (1 << (b[0] as u32 % $lane::BITS))) as $lane)
        });
    };
}

/// Tests of operators, of those on arrays alone where the form is `arrays`.
macro_rules! operators {
    ($tests:ident of $form:ident: $($name:ident $kind:tt: $($of:ident)*;)*) => {
        mod $tests {$(
            mod $name {
                use super::super::*;

                $(
                    #[test]
                    fn $of() {
                        operator_named!($of $form $name $kind);
                    }
                )*
            }
        )*}
    };
}

operators! {
    operators of lanes:
    u8x8 [u8; 8]: xor not xor_assign;
    u8x16 [u8; 16]: add sub and or xor not xor_assign shl shr;
    u8x32 [u8; 32]: and or xor not xor_assign;
    u8x64 [u8; 64]: and or xor not xor_assign;
    u16x8 [u16; 8]: add sub mul and or xor not xor_assign shl shr;
    u16x16 [u16; 16]: add sub mul and or xor not xor_assign shl shr;
    u32x4 [u32; 4]: add sub mul and or xor not xor_assign shl shr;
    u32x8 [u32; 8]: add and or xor not xor_assign;
    u64x2 [u64; 2]: add sub and or xor not xor_assign shl shr;
    usizex8 [usize; 8]: add and or xor not xor_assign;
}

operators! {
    operators_of_arrays_alone of arrays:
    u8x8 [u8; 8]: add sub mul and or shl shr;
    u8x16 [u8; 16]: mul;
    u8x32 [u8; 32]: add sub mul shl shr;
    u8x64 [u8; 64]: add sub mul shl shr;
    u32x8 [u32; 8]: sub mul shl shr;
    u64x2 [u64; 2]: mul;
    usizex8 [usize; 8]: sub mul shl shr;
}

/// Tests of calls.
macro_rules! calls {
    ($(
        $test:ident: $name:ident $kind:tt,
        |$a:pat_param, $b:pat_param| $made:expr, |$x:pat_param, $y:pat_param| $by_loop:expr;
    )*) => {$(
        #[test]
        fn $test() {
            agree!(lanes $name $kind: |$a, $b| $made, |$x, $y| $by_loop);
        }
    )*};
}

// Indices are of any size, and then not far past the last. Lanes are seldom equal, and then half of them.
calls! {
    swizzle_8_bytes: u8x8 [u8; 8],
    |a, b| a.swizzle_dyn(b).to_array(),
    |a, b| swizzled(a, b.map(usize::from));

    swizzle_16_bytes: u8x16 [u8; 16],
    |a, b| a.swizzle_dyn(b).to_array(),
    |a, b| swizzled(a, b.map(usize::from));

    swizzle_16_bytes_near: u8x16 [u8; 16],
    |a, b| a.swizzle_dyn(b & form::u8x16::splat(31)).to_array(),
    |a, b| swizzled(a, b.map(|i| i as usize % 32));

    swizzle_8_numbers: u32x8 [u32; 8],
    |a, b| a.swizzle_dyn(b).to_array(),
    |a, b| swizzled(a, b.map(|i| i as usize));

    swizzle_8_numbers_near: u32x8 [u32; 8],
    |a, b| a.swizzle_dyn(b & form::u32x8::splat(15)).to_array(),
    |a, b| swizzled(a, b.map(|i| i as usize % 16));

    equal_16_bytes: u8x16 [u8; 16],
    |a, b| a.simd_eq(b).to_bitmask(),
    |a, b| equal(a, b);

    half_equal_16_bytes: u8x16 [u8; 16],
    |a, b| a.simd_eq(a ^ (b & form::u8x16::splat(1))).to_bitmask(),
    |_, b| equal(b.map(|lane| lane % 2), [0; 16]);

    equal_32_bytes: u8x32 [u8; 32],
    |a, b| a.simd_eq(b).to_bitmask(),
    |a, b| equal(a, b);

    half_equal_32_bytes: u8x32 [u8; 32],
    |a, b| a.simd_eq(a ^ (b & form::u8x32::splat(4))).to_bitmask(),
    |_, b| equal(b.map(|lane| lane / 4 % 2), [0; 32]);

    equal_64_bytes: u8x64 [u8; 64],
    |a, b| a.simd_eq(b).to_bitmask(),
    |a, b| equal(a, b);

    half_equal_64_bytes: u8x64 [u8; 64],
    |a, b| a.simd_eq(a ^ (b & form::u8x64::splat(128))).to_bitmask(),
    |_, b| equal(b.map(|lane| lane / 128), [0; 64]);

    count_ones: u8x16 [u8; 16],
    |a, _| a.count_ones().to_array(),
    |a, _| a.map(|lane| (0..8).map(|place| lane >> place & 1).sum());

    cast_8_bytes_to_32_bits: u8x8 [u8; 8],
    |a, _| a.cast::<u32>().to_array(),
    |a, _| a.map(u32::from);

    cast_8_bytes_to_usize: u8x8 [u8; 8],
    |a, _| a.cast::<usize>().to_array(),
    |a, _| a.map(usize::from);

    cast_16_bytes_to_16_bits: u8x16 [u8; 16],
    |a, _| a.cast::<u16>().to_array(),
    |a, _| a.map(u16::from);

    cast_16_bits_to_bytes: u16x16 [u16; 16],
    |a, _| a.cast::<u8>().to_array(),
    |a, _| a.map(|lane| (lane % 256) as u8);

    bytes_of_16_bits: u16x8 [u16; 8],
    |a, _| a.to_le_bytes().to_array(),
    |a, _| from_fn(|k| (a[k / 2] >> (8 * (k % 2))) as u8);

    bytes_of_32_bits: u32x4 [u32; 4],
    |a, _| a.to_le_bytes().to_array(),
    |a, _| from_fn(|k| (a[k / 4] >> (8 * (k % 4))) as u8);

    bytes_of_64_bits: u64x2 [u64; 2],
    |a, _| a.to_le_bytes().to_array(),
    |a, _| from_fn(|k| (a[k / 8] >> (8 * (k % 8))) as u8);

    bytes_to_16_bits: u8x16 [u8; 16],
    |a, _| form::u16x8::from_le_bytes(a).to_array(),
    |a, _| from_fn(|i| number(&a[2 * i..2 * i + 2]) as u16);

    bytes_to_32_bits: u8x16 [u8; 16],
    |a, _| form::u32x4::from_le_bytes(a).to_array(),
    |a, _| from_fn(|i| number(&a[4 * i..4 * i + 4]) as u32);

    bytes_to_64_bits: u8x16 [u8; 16],
    |a, _| form::u64x2::from_le_bytes(a).to_array(),
    |a, _| from_fn(|i| number(&a[8 * i..8 * i + 8]));
}

fn swizzled<L: Copy + Default, const N: usize>(lanes: [L; N], indices: [usize; N]) -> [L; N] {
    indices.map(|i| if i < N { lanes[i] } else { L::default() })
}

fn equal<const N: usize>(a: [u8; N], b: [u8; N]) -> u64 {
    (0..N).filter(|&i| a[i] == b[i]).map(|i| 1 << i).sum()
}

fn number(bytes: &[u8]) -> u64 {
    bytes.iter().rev().fold(0, |number, byte| 256 * number + u64::from(*byte))
}

/// Tests of what lanes of each type are made of, and of the counts to shift them by.
macro_rules! types {
    ($($name:ident [$lane:ident; $count:literal];)*) => {
        mod splat {$(
            #[test]
            fn $name() {
                use super::*;
                agree!(lanes $name [$lane; $count]: |a, _| {
                    let all: form::$name = form::$name::splat(a.to_array()[$count - 1]);
                    all.to_array()
                }, |a, _| [a[$count - 1]; $count]);
            }
        )*}

        mod from_slice {$(
            #[test]
            fn $name() {
                use super::*;
                agree!(lanes $name [$lane; $count]: |a, b| {
                    let both = [a.to_array(), b.to_array()].concat();
                    [0, 1, $count].map(|start| form::$name::from_slice(&both[start..]).to_array())
                }, |a, b| [a, from_fn(|i| if i + 1 < $count { a[i + 1] } else { b[0] }), b]);
                let short = [0; $count - 1];
                assert!(catch_unwind(|| arrays::$name::from_slice(&short)).is_err());
                assert!(catch_unwind(|| lanes::$name::from_slice(&short)).is_err());
            }
        )*}

        mod count {$(
            // (debug assertions tell of one that is too large, and else it is taken modulo the lane's bits)
            #[test]
            fn $name() {
                use super::*;
                let bits = $lane::BITS as $lane;
                for count in (0..bits + 4).chain([$lane::MAX]) {
                    let by_rule = (count < bits || !cfg!(debug_assertions)).then_some(count % bits);
                    let by_arrays = catch_unwind(|| arrays::$name::every(count).0);
                    let made = catch_unwind(|| lanes::$name::every(count).0);
                    assert_eq!(by_arrays.ok(), by_rule, "by arrays, of {count}");
                    assert_eq!(made.ok(), by_rule, "of {count}");
                }
            }
        )*}
    };
}

types! {
    u8x8 [u8; 8];
    u8x16 [u8; 16];
    u8x32 [u8; 32];
    u8x64 [u8; 64];
    u16x8 [u16; 8];
    u16x16 [u16; 16];
    u32x4 [u32; 4];
    u32x8 [u32; 8];
    u64x2 [u64; 2];
    usizex8 [usize; 8];
}
