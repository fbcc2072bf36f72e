//! Lists that look random and are the same in each run, and bitmaps of them.

use row_mask::BitmapBuf;
use std::hint::black_box;

/// How many of 1,000 values are true.
pub type Share = u64;

/// What calls are timed on: a bitmap, another of its length, one with a value for each true value, and rows.
pub struct Lists {
    _before: Vec<u8>,
    pub len: usize,
    pub list: Vec<bool>,
    pub other: Vec<bool>,
    pub ranks: Vec<bool>,
    pub packed: Packed,
    pub rows: Vec<u64>,
    /// Below 1,000, and below the share where the value is true.
    pub column: Vec<u32>,
    pub share: u32,
    /// Rows below 1,000, and bits of which nine in ten are set.
    pub amounts: Vec<i64>,
    pub there: Vec<u64>,
    /// The indices of the true values.
    pub indices: Vec<u32>,
    /// Strings of 0 to 15 bytes: where they begin, and where the last one ends, and their bytes.
    pub texts: (Vec<u32>, Vec<u8>),
}

/// The predicates of the scan over the rows that are left: of amounts about half meet it, and of strings about two
/// in three.
pub fn is_small(amount: i64) -> bool {
    amount < 500
}

pub fn is_named(text: &[u8]) -> bool {
    text.first().is_some_and(|byte| *byte < 180)
}

/// The lists as words from bit 0 on, with two more behind `ranks`, and the first two as bytes from `OFFSETS` on. Loops by
/// hand and `row-mask` read them where they lie here, since the time of a short loop depends on the place.
pub struct Packed {
    pub list: Vec<u64>,
    pub copy: Vec<u64>,
    pub other: Vec<u64>,
    pub ranks: Vec<u64>,
    pub moved: (Vec<u8>, Vec<u8>),
}

pub const OFFSETS: (usize, usize) = (3, 6);

impl Packed {
    fn new(list: &[bool], other: &[bool], ranks: &[bool]) -> Packed {
        let mut packed = Packed {
            list: words(list),
            copy: words(list),
            other: words(other),
            ranks: words(ranks),
            moved: (bytes_from(list, OFFSETS.0), bytes_from(other, OFFSETS.1)),
        };
        packed.ranks.extend([0; 2]);
        packed
    }
}

impl Lists {
    /// Lists of so many rows, which lie elsewhere in each round.
    pub fn new(len: usize, share: Share, round: usize) -> Lists {
        let before = black_box(vec![0; 24 + 16 * round]);
        let mut state = 0x2545_F491_4F6C_DD1D_u64;
        let mut number = || {
            state ^= state << 13;
            state ^= state >> 7;
            state ^= state << 17;
            u32::try_from((state >> 20) % 1000).unwrap()
        };
        let share = u32::try_from(share).unwrap();
        let mut column: Vec<u32> = (0..len).map(|_| number()).collect();
        put_ends(&mut column, [0, 0], [999, 999]);
        let list: Vec<bool> = column.iter().map(|it| *it < share).collect();
        let mut other: Vec<bool> = (0..len).map(|_| number() < share).collect();
        put_ends(&mut other, [true, false], [true, false]);
        let count = list.iter().filter(|value| **value).count();
        let mut ranks: Vec<bool> = (0..count).map(|_| number() < 500).collect();
        put_ends(&mut ranks, [false], [true]);
        let packed = Packed::new(&list, &other, &ranks);
        let rows = (0..len as u64).collect();
        let indices = (0_u32..).zip(&list).filter(|(_, value)| **value).map(|(i, _)| i).collect();
        let amounts = (0..len).map(|_| i64::from(number())).collect();
        let there = words(&(0..len).map(|_| number() < 900).collect::<Vec<_>>());
        let mut texts = (vec![0], vec![]);
        for _ in 0..len {
            let size = number() % 16;
            texts.1.extend((0..size).map(|_| number().to_le_bytes()[0]));
            texts.0.push(texts.0[texts.0.len() - 1] + size);
        }
        Lists {
            _before: before,
            len,
            list,
            other,
            ranks,
            packed,
            rows,
            column,
            share,
            amounts,
            there,
            indices,
            texts,
        }
    }

    /// Half of the number of true values, and the index of the last one of these.
    pub fn half(&self) -> (usize, usize) {
        let count = self.indices.len() / 2;
        (count, self.indices[count - 1] as usize)
    }
}

/// What the first and the last values are, so that of few rows too each list has both values, and so has what a call
/// makes of two: a mask of one value is held as its length alone.
fn put_ends<T: Copy, const N: usize>(list: &mut [T], first: [T; N], last: [T; N]) {
    let from = list.len() - N;
    list[..N].copy_from_slice(&first);
    list[from..].copy_from_slice(&last);
}

fn words(list: &[bool]) -> Vec<u64> {
    BitmapBuf::from(list).as_bitmap().to_words()
}

/// The bytes of a list from a bit on, with 16 more behind them, so that a loop by hand reads past its end.
fn bytes_from(list: &[bool], offset: usize) -> Vec<u8> {
    let mut moved = vec![false; offset];
    moved.extend_from_slice(list);
    let mut bytes = BitmapBuf::from(&moved[..]).into_bytes();
    bytes.extend([0; 16]);
    bytes
}
