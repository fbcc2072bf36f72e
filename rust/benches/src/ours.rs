//! The calls of `row-mask`.

mod masks;

use crate::Call;
use crate::lists::{Lists, OFFSETS, Packed, is_named, is_small};
use row_mask::{Bitmap, BitmapBuf, Error, Selection, Strings};

/// The bitmaps of the lists, from bit 0 on, and the first two from other bits on.
pub struct Ours<'a>(pub &'a Lists);

impl Ours<'_> {
    pub fn call(&self, name: &str) -> Option<Call<'_>> {
        let (lists, Packed { list, other, copy, ranks, moved }) = (self.0, &self.0.packed);
        let (len, rows) = (lists.len, &lists.rows[..]);
        let of = |words, len| Bitmap::from_words(words, len).unwrap();
        let (a, b, copy, ranks) =
            (of(list, len), of(other, len), of(copy, len), of(ranks, lists.ranks.len()));
        let a_moved = Bitmap::new(&moved.0, OFFSETS.0, len).unwrap();
        let b_moved = Bitmap::new(&moved.1, OFFSETS.1, len).unwrap();
        let last = |made: BitmapBuf| made.as_bytes().last().copied().map_or(0, u64::from);
        Some(match name {
            "count" => Box::new(move || a.count() as u64),
            "and" => Box::new(move || last(a.and(b).unwrap())),
            "and, at odd bits" => Box::new(move || last(a_moved.and(b_moved).unwrap())),
            "==" => Box::new(move || u64::from(a == copy)),
            "==, at odd bits" => Box::new(move || u64::from(a_moved == copy)),
            "rank intersection" | "rank intersection, no pdep" => {
                Box::new(move || last(a.intersect_by_rank(ranks).unwrap()))
            }
            "choose" => Box::new(move || a.choose(rows).unwrap().last().copied().unwrap_or(0)),
            "choose, of 4 bytes" => Box::new(move || {
                a.choose(&lists.column).unwrap().last().map_or(0, |it| (*it).into())
            }),
            "choose bits, by pext" | "choose bits, no pext" | "choose bits, of Vec<bool>" => {
                Box::new(move || last(a.choose_bits(b).unwrap()))
            }
            "choose, by a selection" => {
                let chosen = Selection::new(a);
                Box::new(move || chosen.choose(rows).unwrap().last().copied().unwrap_or(0))
            }
            "choose, of 4 bytes, by a selection" => {
                let chosen = Selection::new(a);
                Box::new(move || {
                    chosen.choose(&lists.column).unwrap().last().map_or(0, |it| (*it).into())
                })
            }
            "choose bits, by a selection" => {
                let chosen = Selection::new(a);
                Box::new(move || last(chosen.choose_bits(b).unwrap()))
            }
            "choose strings, by a selection" => {
                let chosen = Selection::new(a);
                let texts = Strings::new(&lists.texts.0, &lists.texts.1).unwrap();
                Box::new(move || digest(&texts.choose(&chosen).unwrap()))
            }
            "for over indices" => Box::new(move || sum_of_rows(a, rows)),
            "sum of indices" => Box::new(move || a.indices().sum::<usize>() as u64),
            "for over values" => {
                let mut places = Vec::with_capacity(lists.len);
                Box::new(move || found(a, rows, &mut places))
            }
            "from_rows of a predicate" => {
                Box::new(move || last(BitmapBuf::from_rows(&lists.column, |it| *it < lists.share)))
            }
            "retain by a predicate" => Box::new(move || {
                let mut left = a.to_buf();
                left.retain(|i| rows[i] % 4 != 0);
                last(left)
            }),
            "scan" => {
                let texts = Strings::new(&lists.texts.0, &lists.texts.1).unwrap();
                Box::new(move || scan(lists, texts).unwrap())
            }
            "collect a predicate" => Box::new(move || {
                last(lists.column.iter().map(|it| *it < lists.share).collect::<BitmapBuf>())
            }),
            "from_fn of a predicate" => Box::new(move || {
                last(BitmapBuf::from_fn(lists.len, |i| lists.column[i] < lists.share))
            }),
            _ => return masks::call(lists, name),
        })
    }

    /// What the call of a name does so that it can be made again, whose time is taken off.
    pub fn beside(&self, name: &str) -> Option<Call<'_>> {
        masks::beside(self.0, name)
    }
}

/// A predicate over a column, the validity of a nullable one, a predicate over the rows that are left of it, and one over
/// the strings that are left then. Of the rows that are left in the end, two columns, the strings, and the validity of
/// another column.
fn scan(lists: &Lists, texts: Strings<'_, u32>) -> Result<u64, Error> {
    let of = |words| Bitmap::from_words(words, lists.len);
    let mut left = BitmapBuf::from_rows(&lists.column, |it| *it < lists.share);
    left.and_with(of(&lists.there)?)?;
    left.retain(|i| is_small(lists.amounts[i]));
    left.retain(|i| texts.get(i).is_some_and(is_named));
    let chosen = Selection::new(left.as_bitmap());
    let rows = chosen.choose(&lists.rows)?;
    let column = chosen.choose(&lists.column)?;
    let names = texts.choose(&chosen)?;
    let valid = chosen.choose_bits(of(&lists.packed.other)?)?;
    Ok(digest_of_scan(&rows, &column, &names, valid.len()))
}

/// Of a scan: how many rows there are, the last of them, and the strings.
pub fn digest_of_scan(
    rows: &[u64],
    column: &[u32],
    names: &(Vec<u32>, Vec<u8>),
    count: usize,
) -> u64 {
    let last = rows.last().copied().unwrap_or(0) ^ u64::from(column.last().copied().unwrap_or(0));
    ((count as u64) << 32 ^ last) ^ digest(names)
}

/// Of a list of indices or runs: how many there are, and the last index, or where the last run ends.
pub fn listed(count: usize, last: usize) -> u64 {
    (count as u64) << 32 | last as u64
}

/// Of chosen strings: how many there are, and how many bytes.
pub fn digest((offsets, bytes): &(Vec<u32>, Vec<u8>)) -> u64 {
    (offsets.len() as u64) << 32 | bytes.len() as u64
}

fn sum_of_rows(a: Bitmap<'_>, rows: &[u64]) -> u64 {
    let mut sum = 0;
    for i in a.indices() {
        sum += rows[i];
    }
    sum
}

fn found(a: Bitmap<'_>, rows: &[u64], found: &mut Vec<u64>) -> u64 {
    found.clear();
    for (value, row) in a.iter().zip(rows) {
        if value {
            found.push(*row);
        }
    }
    found.len() as u64
}
