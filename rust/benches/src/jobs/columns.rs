//! The columns and bitmaps that the jobs work on, which look random and are the same in each run.

use row_mask::BitmapBuf;
use std::hint::black_box;

/// How many bits behind its place a part lies in the bitmap that it comes from.
pub const MOVED: usize = 3;

/// A table of so many rows, and bitmaps over them. A bitmap is in words from bit 0 on, with one more word behind them.
pub struct Columns {
    _before: Vec<u8>,
    pub len: usize,
    /// Below 1,000, and below `limit` in the share of the rows.
    pub amounts: Vec<u32>,
    pub limit: u32,
    /// Below 1,000: half of them are below 500.
    pub prices: Vec<i64>,
    /// Below 1,000: nine in ten are below 900.
    pub days: Vec<i32>,
    /// True in the share of the rows.
    pub chosen: Vec<u64>,
    /// Half true.
    pub other: Vec<u64>,
    /// Nine in ten true.
    pub valid: (Vec<u64>, Vec<u64>),
    /// A value for each row that isn't chosen, of which one in ten is true.
    pub ranks: Vec<u64>,
    pub ranks_len: usize,
    /// The indices of the chosen rows.
    pub indices: Vec<u32>,
    /// Rows of each page, and the pages that statistics don't rule out: the share of them.
    pub page_rows: usize,
    pub pages: Vec<bool>,
}

impl Columns {
    /// Columns in which `share` of 1,000 rows are chosen. They lie elsewhere in each round.
    pub fn new(len: usize, share: u32, round: usize) -> Columns {
        let before = black_box(vec![0; 24 + 16 * round]);
        let mut state = 0x2545_F491_4F6C_DD1D_u64;
        let mut number = || {
            state ^= state << 13;
            state ^= state >> 7;
            state ^= state << 17;
            u32::try_from((state >> 20) % 1000).unwrap()
        };
        let amounts: Vec<u32> = (0..len).map(|_| number()).collect();
        let prices = (0..len).map(|_| i64::from(number())).collect();
        let days = (0..len).map(|_| number().cast_signed()).collect();
        let list: Vec<bool> = amounts.iter().map(|it| *it < share).collect();
        let mut drawn = |len, share| words((0..len).map(|_| number() < share).collect());
        let (other, valid) = (drawn(len, 500), (drawn(len, 900), drawn(len, 900)));
        let ranks_len = list.iter().filter(|it| !**it).count();
        let ranks = drawn(ranks_len, 100);
        let page_rows = if len > 1024 { 1024 } else { 64 };
        let pages = (0..len.div_ceil(page_rows)).map(|_| number() < share).collect();
        let indices = (0_u32..).zip(&list).filter(|(_, it)| **it).map(|(i, _)| i).collect();
        Columns {
            _before: before,
            len,
            amounts,
            limit: share,
            prices,
            days,
            chosen: words(list),
            other,
            valid,
            ranks,
            ranks_len,
            indices,
            page_rows,
            pages,
        }
    }
}

fn words(list: Vec<bool>) -> Vec<u64> {
    let mut words = BitmapBuf::from_iter(list).as_bitmap().to_words();
    words.push(0);
    words
}
