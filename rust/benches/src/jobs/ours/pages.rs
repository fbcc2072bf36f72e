//! A predicate over the pages of a column that statistics don't rule out.

use crate::columns::Columns;
use row_mask::BitmapBuf;

pub fn pages(columns: &Columns) -> BitmapBuf {
    let mut rows = BitmapBuf::all_false(columns.len);
    let mut part = BitmapBuf::default();
    let pages = (0..).step_by(columns.page_rows).zip(columns.prices.chunks(columns.page_rows));
    for ((start, page), is_kept) in pages.zip(&columns.pages) {
        if *is_kept {
            BitmapBuf::from_rows_into(page, |price| *price < 500, &mut part).unwrap();
            rows.write_at(start, &part).unwrap();
        }
    }
    rows
}
