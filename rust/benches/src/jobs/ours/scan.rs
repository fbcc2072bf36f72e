//! Three predicates over a table, and two columns of the rows that are left.

use crate::columns::Columns;
use row_mask::BitmapBuf;

pub fn scan(columns: &Columns) -> (Vec<i64>, Vec<u32>) {
    let mut left = BitmapBuf::from_rows(&columns.amounts, |amount| *amount < columns.limit);
    left.retain_rows(&columns.prices, |price| *price < 500).unwrap();
    left.retain_rows(&columns.days, |day| *day < 900).unwrap();
    (left.choose(&columns.prices).unwrap(), left.choose(&columns.amounts).unwrap())
}
