//! Counts and choices beside plain loops, in a program that Bochs boots without a system: it has AVX-512's VBMI2 and
//! VPOPCNTDQ, which qemu lacks. A processor's instructions are counted by its clock, which ticks once for each in Bochs.
#![no_std]
#![no_main]

extern crate alloc;

mod machine;

use alloc::vec::Vec;
use core::arch::x86_64::{__cpuid_count, _rdtsc};
use core::fmt::{Debug, Write};
use core::hint::black_box;
use machine::{MEMORY_LEFT, Serial};
use row_mask::{Bitmap, BitmapBuf, Mask, Row};

macro_rules! say {
    ($($words:tt)*) => { writeln!(Serial, $($words)*).expect("it is written") };
}

/// Numbers that look random.
struct Numbers(u64);

impl Numbers {
    fn next(&mut self) -> u64 {
        self.0 ^= self.0 << 13;
        self.0 ^= self.0 >> 7;
        self.0 ^= self.0 << 17;
        self.0
    }

    /// So many values, of which so many in a hundred are true.
    fn values(&mut self, len: usize, share: u64) -> Vec<bool> {
        (0..len).map(|_| self.next() % 100 < share).collect()
    }
}

/// Rows are those that a loop over the values chooses, and nothing is written behind them: so many were compared.
fn chosen<T: Row + PartialEq + Debug>(
    a: Bitmap<'_>,
    values: &[bool],
    row: impl Fn(usize) -> T,
) -> usize {
    let rows: Vec<T> = (0..a.len()).map(&row).collect();
    let wanted: Vec<T> =
        rows.iter().zip(values).filter(|(_, value)| **value).map(|(row, _)| *row).collect();
    assert_eq!(a.choose(&rows).as_deref(), Ok(&wanted[..]));
    assert_eq!(Mask::from(a.to_buf()).choose(&rows), wanted);
    for more in [0, 70] {
        let mut out: Vec<T> = (0..wanted.len() + more).map(|_| row(5)).collect();
        assert_eq!(a.choose_into(&rows, &mut out), Ok(wanted.len()));
        assert_eq!(out[..wanted.len()], wanted);
        assert!(out[wanted.len()..].iter().all(|it| *it == row(5)));
    }
    4 * wanted.len()
}

/// The true values of a list are as many as a loop counts.
fn counted(a: Bitmap<'_>, values: &[bool], other: &[bool]) -> usize {
    let ones = |values: &[bool]| values.iter().filter(|value| **value).count();
    let both: Vec<bool> = values.iter().zip(other).map(|(a, b)| *a && *b).collect();
    let (from, to) = (values.len() / 5, values.len() - values.len() / 7);
    assert_eq!(a.count(), ones(values));
    assert_eq!(Mask::from(a.to_buf()).true_count(), ones(values));
    assert_eq!(a.and_count(&BitmapBuf::from(other)), Ok(ones(&both)));
    assert_eq!(a.count_range(from..to), Ok(ones(&values[from..to])));
    4
}

#[allow(clippy::cast_possible_truncation, reason = "rows are any bits")]
fn compared(numbers: &mut Numbers, len: usize, share: u64, offset: usize) -> usize {
    MEMORY_LEFT.forget();
    let (all, other) = (numbers.values(len + offset, share), numbers.values(len, 33));
    let bits = BitmapBuf::from(&all[..]);
    let (a, values) = (bits.as_bitmap().slice(offset..).expect("within"), &all[offset..]);
    let mixed = |i: usize| i.wrapping_mul(0x9E37_79B9_7F4A_7C15);
    counted(a, values, &other)
        + chosen(a, values, |i| (mixed(i) >> 56) as u8)
        + chosen(a, values, |i| i.is_multiple_of(3))
        + chosen(a, values, |i| (mixed(i) >> 48) as u16)
        + chosen(a, values, |i| [(i >> 8) as u8, i as u8])
        + chosen(a, values, |i| (mixed(i) >> 32) as u32)
        + chosen(a, values, mixed)
}

fn instructions<T>(call: impl Fn() -> T) -> u64 {
    const TURNS: u64 = 10;
    black_box(call());
    // SAFETY: each processor of x86-64 has it.
    let start = unsafe { _rdtsc() };
    (0..TURNS).for_each(|_| drop(black_box(call())));
    // SAFETY: as above.
    (unsafe { _rdtsc() } - start) / TURNS
}

#[allow(clippy::cast_possible_truncation, reason = "rows are any bits")]
fn tell(numbers: &mut Numbers, len: usize) {
    MEMORY_LEFT.forget();
    let bytes: Vec<u8> = (0..len).map(|i| i as u8).collect();
    let twos: Vec<u16> = (0..len).map(|i| i as u16).collect();
    for share in [10, 25, 50, 90] {
        let a = BitmapBuf::from(&numbers.values(len, share)[..]);
        let of_bytes = instructions(|| a.choose(&bytes));
        let of_twos = instructions(|| a.choose(&twos));
        say!(
            "{len} rows, {share}% true: choose of 1 byte {of_bytes}, of 2 bytes {of_twos} instructions"
        );
    }
    let (a, b) = (
        BitmapBuf::from(&numbers.values(len, 50)[..]),
        BitmapBuf::from(&numbers.values(len, 50)[..]),
    );
    let (one, both) = (instructions(|| a.count()), instructions(|| a.and_count(&b)));
    say!("{len} rows: count {one}, and_count {both} instructions");
}

#[unsafe(no_mangle)]
extern "C" fn run() -> ! {
    Serial::begin();
    let has = __cpuid_count(7, 0).ecx;
    say!("the processor has VBMI2: {}, VPOPCNTDQ: {}", has >> 6 & 1 == 1, has >> 14 & 1 == 1);
    let compiled = (cfg!(target_feature = "avx512vbmi2"), cfg!(target_feature = "avx512vpopcntdq"));
    say!("compiled for VBMI2: {}, VPOPCNTDQ: {}", compiled.0, compiled.1);
    let mut numbers = Numbers(88_172_645_463_325_252);
    let mut comparisons = 0;
    let lengths = [
        0, 1, 63, 64, 65, 100, 127, 128, 129, 191, 192, 200, 256, 1_000, 1_024, 4_095, 8_191, 8_192,
    ];
    for len in lengths {
        for share in [0, 2, 10, 13, 20, 38, 50, 75, 90, 98, 100] {
            for offset in [0, 3, 8, 13] {
                comparisons += compared(&mut numbers, len, share, offset);
            }
        }
    }
    [100, 1_024, 8_192, 65_536].into_iter().for_each(|len| tell(&mut numbers, len));
    say!("{comparisons} comparisons");
    machine::end()
}
