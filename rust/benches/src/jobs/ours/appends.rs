//! A bitmap made of parts, each behind the last.

use crate::columns::{Columns, MOVED};
use row_mask::{Bitmap, BitmapBuf};

/// Parts of so many values, each from `MOVED` bits behind its place on.
fn appended(columns: &Columns, part: usize) -> BitmapBuf {
    let source = Bitmap::from_words(&columns.chosen, columns.len + MOVED).unwrap();
    let mut all = BitmapBuf::with_capacity(columns.len);
    for start in (0..columns.len).step_by(part) {
        let end = (start + part).min(columns.len);
        all.append(source.slice(start + MOVED..end + MOVED).unwrap());
    }
    all
}

/// Parts of ten values.
pub fn tens(columns: &Columns) -> BitmapBuf {
    appended(columns, 10)
}

/// Parts of 1,000 values.
pub fn thousands(columns: &Columns) -> BitmapBuf {
    appended(columns, 1000)
}
