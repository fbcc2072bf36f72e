//! A bitmap as a list of row numbers, and back.

use super::bitmap;
use crate::columns::Columns;
use row_mask::BitmapBuf;

pub fn indices(columns: &Columns) -> Vec<u32> {
    bitmap(&columns.chosen, columns.len).to_indices_u32().unwrap()
}

pub fn from_indices(columns: &Columns) -> BitmapBuf {
    BitmapBuf::from_indices_u32(columns.len, &columns.indices).unwrap()
}

/// Rows of 8 bytes at a list of row numbers.
pub fn take(columns: &Columns) -> Vec<i64> {
    row_mask::take(&columns.indices, &columns.prices).unwrap()
}
