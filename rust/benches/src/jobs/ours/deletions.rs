//! Deletion vectors: one over another, deletions by the ranks of the rows that were left, and bits of the rows left.

use super::bitmap;
use crate::columns::Columns;
use row_mask::BitmapBuf;

/// The rows that either deletes.
pub fn merged(columns: &Columns) -> BitmapBuf {
    bitmap(&columns.chosen, columns.len).or(bitmap(&columns.other, columns.len)).unwrap()
}

/// The rows that are deleted, and those that are deleted by their rank among the rows left.
pub fn deleted_by_ranks(columns: &Columns) -> BitmapBuf {
    let deleted = bitmap(&columns.chosen, columns.len);
    let mut left = deleted.to_buf();
    left.negate();
    let mut all = left.intersect_by_rank(bitmap(&columns.ranks, columns.ranks_len)).unwrap();
    all.or_with(deleted).unwrap();
    all
}

/// The bits of the rows left, one behind another.
pub fn renumbered(columns: &Columns) -> BitmapBuf {
    let mut left = bitmap(&columns.chosen, columns.len).to_buf();
    left.negate();
    left.choose_bits(bitmap(&columns.other, columns.len)).unwrap()
}
