//! Sums over a column with nulls and over the rows chosen, and `AND` of two predicates with nulls.

use super::bitmap;
use crate::columns::Columns;
use row_mask::{BitmapBuf, NullableBitmap};

/// The sum of the prices that are valid.
pub fn sum(columns: &Columns) -> u64 {
    let chosen = bitmap(&columns.chosen, columns.len);
    let add = |sum, price: &i64, is_chosen| sum + if is_chosen { *price } else { 0 };
    chosen.fold_rows(&columns.prices, 0, add).unwrap().cast_unsigned()
}

/// The sum where few rows are chosen.
pub fn sum_of_few(columns: &Columns) -> u64 {
    let chosen = bitmap(&columns.chosen, columns.len);
    chosen.fold_chosen(&columns.prices, 0, |sum, price| sum + price).unwrap().cast_unsigned()
}

/// `AND` of two predicates with nulls: values, and validity.
pub fn and_kleene(columns: &Columns) -> (BitmapBuf, BitmapBuf) {
    let of = |words| bitmap(words, columns.len);
    let a = NullableBitmap::new(of(&columns.chosen), Some(of(&columns.valid.0))).unwrap();
    let b = NullableBitmap::new(of(&columns.other), Some(of(&columns.valid.1))).unwrap();
    let both = a.and_kleene(b).unwrap();
    let (values, validity) = both.into_parts();
    (values, validity.unwrap())
}
