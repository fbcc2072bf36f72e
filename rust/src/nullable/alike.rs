//! What lists with nulls print.

use super::{NullableBitmap, NullableBitmapBuf};
use crate::bitmap::alike::PRINTED;
use core::fmt::{self, Write};

/// `1` for each true value, `0` for each false one, and `?` for a null, in their order.
impl fmt::Display for NullableBitmap<'_> {
    fn fmt(&self, f: &mut fmt::Formatter<'_>) -> fmt::Result {
        print_first(*self, self.len(), f)
    }
}

/// `1` for each true value, `0` for each false one, and `?` for a null, in their order.
impl fmt::Display for NullableBitmapBuf {
    fn fmt(&self, f: &mut fmt::Formatter<'_>) -> fmt::Result {
        self.as_bitmap().fmt(f)
    }
}

/// The values, `?` for a null, or of more than 64 the first of them and the length.
impl fmt::Debug for NullableBitmap<'_> {
    fn fmt(&self, f: &mut fmt::Formatter<'_>) -> fmt::Result {
        describe("NullableBitmap", *self, f)
    }
}

/// The values, `?` for a null, or of more than 64 the first of them and the length.
impl fmt::Debug for NullableBitmapBuf {
    fn fmt(&self, f: &mut fmt::Formatter<'_>) -> fmt::Result {
        describe("NullableBitmapBuf", self.as_bitmap(), f)
    }
}

pub(crate) fn describe(
    name: &str,
    list: NullableBitmap<'_>,
    f: &mut fmt::Formatter<'_>,
) -> fmt::Result {
    write!(f, "{name}(")?;
    print_first(list, list.len().min(PRINTED), f)?;
    if list.len() > PRINTED {
        write!(f, ".., len={}", list.len())?;
    }
    f.write_str(")")
}

fn print_first(list: NullableBitmap<'_>, count: usize, f: &mut fmt::Formatter<'_>) -> fmt::Result {
    (0..count).filter_map(|i| list.get(i)).try_for_each(|value| {
        f.write_char(match value {
            None => '?',
            Some(false) => '0',
            Some(true) => '1',
        })
    })
}
