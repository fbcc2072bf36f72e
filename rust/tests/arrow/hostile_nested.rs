//! Views, lists and dictionaries that say what can't be, as those in `hostile`.

use super::hostile::{Lent, ZEROS, too_deep};
use row_mask::Error;
use row_mask::arrow::ArrowError;
use std::ffi::{CStr, c_void};
use std::ptr::{null, null_mut};

fn zeros() -> *const c_void {
    ZEROS.as_ptr().cast()
}

fn unaligned() -> *const c_void {
    ZEROS.as_ptr().cast::<u8>().wrapping_add(1).cast()
}

#[test]
fn sizes_of_the_bytes_of_views() {
    let mut sizes = [0_i64, 8, 0];
    let at = sizes.as_mut_ptr();
    // SAFETY: there are three.
    let set = |size| unsafe { at.write(size) };
    let mut column = Lent::new(c"vu", vec![null(), zeros(), null(), zeros(), at.cast()]);
    column.is_filtered();
    column.buffers[3] = null();
    column.is_bad("buffer");
    column.buffers[3] = zeros();
    set(-1);
    column.is_bad("buffer");
    column.buffers[2] = zeros();
    set(i64::MIN);
    column.is_bad("buffer");
    column.buffers[4] = unaligned();
    column.is_bad("buffer");
    for count in [1 << 31, 1 << 32, i64::MAX, -1] {
        column.array.n_buffers = count;
        column.is_bad("number of buffers");
    }
}

fn tries_lists(format: &'static CStr, bad: [*const c_void; 2], good: *const c_void) {
    let mut column = Lent::new(format, vec![null(), null()]).with(Lent::numbers(), 1);
    column.is_bad("buffer");
    column.array.length = 0;
    column.is_filtered();
    column.array.length = 4;
    for (offsets, at) in bad.into_iter().zip([2, 0]) {
        column.buffers[1] = offsets;
        column.is_refused(&Error::UnsortedOffsets { at }.into());
    }
    column.buffers[1] = unaligned();
    column.is_bad("buffer");
    column.buffers[1] = good;
    column.is_filtered();
    column.child.as_mut().unwrap().array.length = 3;
    column.is_bad("length or offset");
    column.child.as_mut().unwrap().array.length = 4;
    let (schemas, arrays) = (column.schemas.repeat(2), column.arrays.repeat(2));
    column.set_children(schemas, arrays);
    column.is_bad("number of children");
    column.set_children(Vec::new(), Vec::new());
    column.is_bad("number of children");
    (column.schema.n_children, column.array.n_children) = (1, 1);
    (column.schema.children, column.array.children) = (null_mut(), null_mut());
    column.is_bad("number of children");
}

#[test]
fn offsets_of_lists() {
    let [good, falling, negative] = [[0, 1, 1, 3, 4], [0, 1, 0, 3, 4], [-1, 0, 0, 0, 0]];
    tries_lists(
        c"+l",
        [(&raw const falling).cast(), (&raw const negative).cast()],
        (&raw const good).cast::<c_void>(),
    );
    let [good, falling, negative] = [good, falling, negative].map(|list| list.map(i64::from));
    tries_lists(
        c"+L",
        [(&raw const falling).cast(), (&raw const negative).cast()],
        (&raw const good).cast::<c_void>(),
    );
}

#[test]
fn lists_in_lists() {
    let nested = |format, lists| {
        let around = |child, _| Lent::new(format, vec![null(), zeros()]).with(child, 1);
        (0..lists).fold(Lent::numbers(), around)
    };
    nested(c"+l", 64).is_filtered();
    nested(c"+L", 65).is_refused(&too_deep());
}

/// Keys that are zeros, with such a dictionary.
fn keys(mut values: Box<Lent>) -> Box<Lent> {
    let mut made = Lent::new(c"i", vec![null(), zeros()]);
    made.schema.dictionary = &raw mut values.schema;
    made.array.dictionary = &raw mut values.array;
    made.child = Some(values);
    made
}

#[test]
fn dictionaries_that_are_none() {
    let values = || Lent::new(c"l", vec![null(), zeros()]);
    let with = |change: fn(&mut Lent)| {
        let mut made = keys(values());
        change(&mut made);
        made
    };
    keys(values()).is_filtered();
    with(|keys| keys.array.dictionary = null_mut()).is_bad("dictionary");
    with(|keys| keys.schema.dictionary = null_mut()).is_bad("dictionary");
    for format in [c"b", c"f", c"tdD", c"w:4", c"u", c"vu"] {
        let mut column = keys(values());
        column.schema.format = format.as_ptr();
        if matches!(format.to_bytes(), [b'u' | b'v', ..]) {
            column.buffers.push(zeros());
            (column.array.n_buffers, column.array.buffers) = (3, column.buffers.as_mut_ptr());
        }
        column.is_bad("dictionary");
    }
    let with_values = |change: fn(&mut Lent)| {
        let mut values = values();
        change(&mut values);
        keys(values)
    };
    with_values(|values| values.array.release = None).is_bad("dictionary");
    with_values(|values| values.schema.release = None).is_bad("dictionary");
    let other = with_values(|values| values.schema.format = c"+r".as_ptr());
    let refusal = ArrowError::NotSupported { column: "a".into(), format: "+r".into() };
    other.is_refused_by(false, &refusal);
    other.is_filtered_by(true);
    let bad = ArrowError::BadArray { column: "a".into(), what: "length or offset" };
    with_values(|values| values.array.length = -1).is_refused_by(false, &bad);
    // (and no memory is asked for so many)
    let bad = ArrowError::BadArray { column: "a".into(), what: "buffer" };
    with_values(|values| (values.array.length, values.buffers[1]) = (1 << 58, null()))
        .is_refused_by(false, &bad);
    with(|keys| keys.buffers[1] = null()).is_bad("buffer");
    let own = with(|keys| {
        keys.schema.dictionary = &raw mut keys.schema;
        keys.array.dictionary = &raw mut keys.array;
    });
    own.is_refused_by(false, &too_deep());
}

/// Keys of keys.
#[test]
fn dictionaries_in_dictionaries() {
    let nested = |times| (0..times).fold(Lent::numbers(), |values, _| keys(values));
    nested(64).is_filtered();
    let column = nested(65);
    column.is_refused_by(false, &too_deep());
    column.is_filtered_by(true);
}
