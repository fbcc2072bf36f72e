//! A scan: three predicates over nullable columns, the last over strings, each of the rows that the ones
//! before it left; then the columns of the rows that are left, one of them nullable
//! strings. The same by plain loops gives the same rows, and the times stand beside.

use row_mask::{BitmapBuf, Error, Selection, Strings};
use std::time::{Duration, Instant};

const ROWS: usize = 1_000_000;

/// Columns as Arrow has them: values, and bits that say which are there.
struct Columns {
    prices: (Vec<u64>, BitmapBuf),
    amounts: (Vec<i32>, BitmapBuf),
    names: (Texts, BitmapBuf),
    notes: (Texts, BitmapBuf),
}

/// Bytes one after another, and where each string begins.
#[derive(PartialEq)]
struct Texts {
    offsets: Vec<u32>,
    bytes: Vec<u8>,
}

/// The columns of the rows that are left. All but notes are there in each of them.
#[derive(PartialEq)]
struct Left {
    prices: Vec<u64>,
    amounts: Vec<i32>,
    names: Texts,
    notes: (Texts, BitmapBuf),
}

fn cheap(price: u64) -> bool {
    price < 400
}

fn large(amount: i32) -> bool {
    amount > 20
}

fn named(name: &[u8]) -> bool {
    name.first() == Some(&b'k')
}

fn main() -> Result<(), Error> {
    let columns = Columns::new();
    let (left, took) = least(|| by_bitmaps(&columns));
    let (plain, took_plain) = least(|| by_plain_loops(&columns));
    let left = left?;
    assert!(left == plain, "the rows differ");
    println!("{} of {ROWS} rows, the same by plain loops", left.prices.len());
    println!("bitmaps {took:.1?}, plain loops {took_plain:.1?}");
    Ok(())
}

/// What a scan gives, and the least time of some runs.
fn least<T>(scan: impl Fn() -> T) -> (T, Duration) {
    let timed = || {
        let began = Instant::now();
        (scan(), began.elapsed())
    };
    (0..9).fold(timed(), |(_, before), _| {
        let (left, took) = timed();
        (left, took.min(before))
    })
}

fn by_bitmaps(columns: &Columns) -> Result<Left, Error> {
    let (prices, has_price) = &columns.prices;
    let (amounts, has_amount) = &columns.amounts;
    let (names, has_name) = &columns.names;
    let mut mask = BitmapBuf::from_rows(prices, |price| cheap(*price));
    for there in [has_price, has_amount, has_name] {
        mask.and_with(there)?;
    }
    mask.retain_rows(amounts, |amount| large(*amount))?;
    mask.retain(|i| named(names.get(i)));
    let selection = Selection::new(&mask);
    let (notes, has_note) = &columns.notes;
    Ok(Left {
        prices: selection.choose(prices)?,
        amounts: selection.choose(amounts)?,
        names: names.chosen(&selection)?,
        notes: (notes.chosen(&selection)?, selection.choose_bits(has_note)?),
    })
}

fn by_plain_loops(columns: &Columns) -> Left {
    let (prices, has_price) = &columns.prices;
    let (amounts, has_amount) = &columns.amounts;
    let (names, has_name) = &columns.names;
    let (notes, has_note) = &columns.notes;
    let has = |bits: &BitmapBuf, i: usize| bits.as_bytes()[i / 8] >> (i % 8) & 1 == 1;
    let mut left = Left {
        prices: vec![],
        amounts: vec![],
        names: Texts::none(),
        notes: (Texts::none(), BitmapBuf::default()),
    };
    let mut there = vec![];
    for i in 0..ROWS {
        if has(has_price, i)
            && cheap(prices[i])
            && has(has_amount, i)
            && large(amounts[i])
            && has(has_name, i)
            && named(names.get(i))
        {
            left.prices.push(prices[i]);
            left.amounts.push(amounts[i]);
            left.names.push(names.get(i));
            left.notes.0.push(notes.get(i));
            there.push(has(has_note, i));
        }
    }
    left.notes.1 = BitmapBuf::from(&there[..]);
    left
}

impl Texts {
    fn none() -> Texts {
        Texts { offsets: vec![0], bytes: vec![] }
    }

    fn get(&self, i: usize) -> &[u8] {
        &self.bytes[self.offsets[i] as usize..self.offsets[i + 1] as usize]
    }

    fn push(&mut self, string: &[u8]) {
        self.bytes.extend_from_slice(string);
        self.offsets.push(u32::try_from(self.bytes.len()).expect("few bytes"));
    }

    fn chosen(&self, selection: &Selection) -> Result<Texts, Error> {
        let (offsets, bytes) = Strings::new(&self.offsets, &self.bytes)?.choose(selection)?;
        Ok(Texts { offsets, bytes })
    }

    fn random(random: &mut Random) -> Texts {
        let mut made = Texts::none();
        for _ in 0..ROWS {
            let letters = |_| b'a' + u8::try_from(random.below(26)).expect("a letter");
            let string: [u8; 12] = std::array::from_fn(letters);
            let len = usize::try_from(random.below(12)).expect("small");
            made.push(&string[..len]);
        }
        made
    }
}

struct Random(u64);

impl Random {
    fn below(&mut self, end: u64) -> u64 {
        self.0 ^= self.0 << 13;
        self.0 ^= self.0 >> 7;
        self.0 ^= self.0 << 17;
        (self.0 >> 16) % end
    }

    /// True for nine rows of ten.
    fn bits(&mut self) -> BitmapBuf {
        BitmapBuf::from_fn(ROWS, |_| self.below(10) > 0)
    }
}

impl Columns {
    fn new() -> Columns {
        let mut random = Random(0x9E37_79B9_7F4A_7C15);
        let prices = (0..ROWS).map(|_| random.below(1000)).collect();
        let amounts = (0..ROWS).map(|_| i32::try_from(random.below(100)).expect("small")).collect();
        Columns {
            prices: (prices, random.bits()),
            amounts: (amounts, random.bits()),
            names: (Texts::random(&mut random), random.bits()),
            notes: (Texts::random(&mut random), random.bits()),
        }
    }
}
