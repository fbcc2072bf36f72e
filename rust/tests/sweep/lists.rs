//! Numbers and plain lists that calls are held to.

use row_mask::BitmapBuf;
use std::ops::Range;

/// Numbers that look random and are the same in each run (`SplitMix64`).
pub struct Generator(pub u64);

impl Generator {
    pub fn word(&mut self) -> u64 {
        self.0 = self.0.wrapping_add(0x9E37_79B9_7F4A_7C15);
        let mut word = self.0;
        word = (word ^ (word >> 30)).wrapping_mul(0xBF58_476D_1CE4_E5B9);
        word = (word ^ (word >> 27)).wrapping_mul(0x94D0_49BB_1331_11EB);
        word ^ (word >> 31)
    }

    /// True for `share` of 256.
    pub fn value(&mut self, share: u64) -> bool {
        self.word() % 256 < share
    }

    pub fn below(&mut self, end: usize) -> usize {
        usize::try_from(self.word() % (end as u64).max(1)).unwrap()
    }

    pub fn list(&mut self, len: usize, share: u64) -> Vec<bool> {
        (0..len).map(|_| self.value(share)).collect()
    }

    /// Bytes that have a list from a bit on, among random bits.
    pub fn packed(&mut self, list: &[bool], offset: usize) -> Vec<u8> {
        let size = (offset + list.len()).div_ceil(8) + self.below(3);
        let mut bytes: Vec<u8> = (0..size).map(|_| self.word().to_le_bytes()[0]).collect();
        for (i, value) in list.iter().enumerate() {
            let (byte, bit) = ((offset + i) / 8, (offset + i) % 8);
            bytes[byte] = bytes[byte] & !(1 << bit) | u8::from(*value) << bit;
        }
        bytes
    }
}

/// Counts what it compares.
#[derive(Default)]
pub struct Comparisons(pub usize);

impl Comparisons {
    #[track_caller]
    #[expect(clippy::needless_pass_by_value, reason = "calls read better")]
    pub fn same<T: PartialEq + std::fmt::Debug>(&mut self, got: T, want: T) {
        assert_eq!(got, want);
        self.0 += 1;
    }

    #[track_caller]
    pub fn same_list(&mut self, got: &BitmapBuf, want: &[bool]) {
        assert!(got.iter().eq(want.iter().copied()), "{got} for {want:?}");
        assert_eq!(got.as_bytes(), packed(want), "{got}");
        self.0 += 2;
    }
}

/// Just the bytes that a list takes, with zeros behind it.
pub fn packed(list: &[bool]) -> Vec<u8> {
    let byte =
        |part: &[bool]| part.iter().rev().fold(0, |byte, value| byte << 1 | u8::from(*value));
    list.chunks(8).map(byte).collect()
}

pub fn indices_of(list: &[bool]) -> Vec<usize> {
    (0..list.len()).filter(|i| list[*i]).collect()
}

pub fn count_of(list: &[bool]) -> usize {
    list.iter().filter(|value| **value).count()
}

pub fn runs_of(list: &[bool]) -> Vec<Range<usize>> {
    let mut runs: Vec<Range<usize>> = Vec::new();
    for i in indices_of(list) {
        match runs.last_mut() {
            Some(run) if run.end == i => run.end += 1,
            _ => runs.push(i..i + 1),
        }
    }
    runs
}

pub fn narrowed(list: &[bool], ranks: &[bool]) -> Vec<bool> {
    let mut narrowed = vec![false; list.len()];
    for (i, rank) in indices_of(list).iter().zip(ranks) {
        narrowed[*i] = *rank;
    }
    narrowed
}

pub fn chosen<T: Copy>(rows: &[T], list: &[bool]) -> Vec<T> {
    indices_of(list).iter().map(|i| rows[*i]).collect()
}
