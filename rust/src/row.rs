//! Rows that are chosen.

/// A value that [`Bitmap::choose`](crate::Bitmap::choose) and [`Selection::choose`](crate::Selection::choose) copy: a
/// number, a `bool`, a `char`, an array of these, and what a caller says is one.
///
/// ```
/// use row_mask::{Bitmap, Row};
///
/// #[derive(Clone, Copy, Debug, PartialEq)]
/// struct Cents(i64);
/// // SAFETY: it is a number, and nothing else.
/// unsafe impl Row for Cents {}
///
/// let rows = Bitmap::new(&[0b101], 0, 3)?;
/// assert_eq!(rows.choose(&[Cents(5), Cents(7), Cents(9)])?, [Cents(5), Cents(9)]);
/// # Ok::<(), row_mask::Error>(())
/// ```
///
/// # Safety
/// A value is plain bytes, each of them written: there is no padding between its fields or after the last one.
#[diagnostic::on_unimplemented(
    message = "a bitmap can't choose rows of `{Self}`",
    label = "`{Self}` isn't known to be plain bytes",
    note = "rows are numbers, `bool`, `char`, arrays of these, and types of one's own by `unsafe impl Row`",
    note = "of any `Copy` type, `row_mask::Mask::choose` chooses rows: `Mask::from(bitmap).choose(&rows)`",
    note = "strings are chosen by `row_mask::Strings`; of other types, collect `bitmap.indices().map(|i| rows[i].clone())`"
)]
pub unsafe trait Row: Copy {}

macro_rules! rows {
    ($($row:ty),+) => {$(
        // SAFETY: each byte is one of the number's.
        unsafe impl Row for $row {}
    )+};
}

rows!(u8, i8, bool, u16, i16, u32, i32, f32, char, u64, i64, f64, usize, isize, u128, i128);

// SAFETY: nothing lies between the items of an array.
unsafe impl<T: Row, const N: usize> Row for [T; N] {}
