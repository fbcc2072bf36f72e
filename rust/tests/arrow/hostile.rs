//! Arrays that say what can't be: more rows than memory can have, children or formats that aren't there, structs that
//! lie in themselves. Each is refused. What is just within the limits is filtered. Each is tried by both calls. The
//! C library's test of this name tries the same ones, in the same order, and behind them those of `hostile_nested`.

use super::lent::{release_array, release_schema};
use row_mask::arrow::{ArrowArray, ArrowError, ArrowSchema, filter, filter_moved};
use row_mask::{Bitmap, BitmapBuf, Selection};
use std::ffi::{CStr, c_void};
use std::ptr::{null, null_mut};

static NUMBERS: [i32; 4] = [1, 2, 3, 4];

/// Bytes that are offsets of empty strings, too, and empty views, and a validity by which each row is null.
pub static ZEROS: [u64; 9] = [0; 9];

/// A column that is lent, with what its structs point to.
pub struct Lent {
    pub schema: ArrowSchema,
    pub array: ArrowArray,
    pub buffers: Vec<*const c_void>,
    pub schemas: Vec<*mut ArrowSchema>,
    pub arrays: Vec<*mut ArrowArray>,
    pub child: Option<Box<Lent>>,
}

impl Lent {
    /// Four rows, or what the buffers have.
    pub fn new(format: &'static CStr, buffers: Vec<*const c_void>) -> Box<Lent> {
        let schema = ArrowSchema {
            format: format.as_ptr(),
            name: c"a".as_ptr(),
            metadata: null(),
            flags: 2,
            n_children: 0,
            children: null_mut(),
            dictionary: null_mut(),
            release: Some(release_schema),
            private_data: null_mut(),
        };
        let array = ArrowArray {
            length: 4,
            null_count: 0,
            offset: 0,
            n_buffers: buffers.len() as i64,
            n_children: 0,
            buffers: null_mut(),
            children: null_mut(),
            dictionary: null_mut(),
            release: Some(release_array),
            private_data: null_mut(),
        };
        let (schemas, arrays) = (Vec::new(), Vec::new());
        let mut made = Box::new(Lent { schema, array, buffers, schemas, arrays, child: None });
        made.array.buffers = made.buffers.as_mut_ptr();
        made
    }

    pub fn numbers() -> Box<Lent> {
        Lent::new(c"i", vec![null(), NUMBERS.as_ptr().cast()])
    }

    /// A struct that has this child so many times.
    fn around(child: Box<Lent>, times: usize) -> Box<Lent> {
        Lent::new(c"+s", vec![null()]).with(child, times)
    }

    pub fn with(self: Box<Lent>, mut child: Box<Lent>, times: usize) -> Box<Lent> {
        let mut made = self;
        made.set_children(vec![&raw mut child.schema; times], vec![&raw mut child.array; times]);
        made.child = Some(child);
        made
    }

    pub fn set_children(&mut self, schemas: Vec<*mut ArrowSchema>, arrays: Vec<*mut ArrowArray>) {
        (self.schemas, self.arrays) = (schemas, arrays);
        (self.schema.n_children, self.array.n_children) =
            (self.schemas.len() as i64, self.arrays.len() as i64);
        (self.schema.children, self.array.children) =
            (self.schemas.as_mut_ptr(), self.arrays.as_mut_ptr());
    }

    /// Numbers in so many structs, each of which has the next one so many times.
    fn nested(structs: usize, times: usize) -> Box<Lent> {
        (0..structs).fold(Lent::numbers(), |child, _| Lent::around(child, times))
    }

    /// The rows 0, 2 and 3, of the array itself or of a copy that is moved.
    fn filtered(&self, moves: bool) -> Result<ArrowArray, ArrowError> {
        let len = self.array.length.try_into().unwrap();
        let rows = Selection::new(Bitmap::new(&[0b1101], 0, len).unwrap());
        // SAFETY: what is there is as Arrow says, and the rest is refused before it is read.
        unsafe {
            if !moves {
                return filter(&self.schema, &self.array, &rows);
            }
            let mut own = (&raw const self.array).read();
            let was_there = own.release.is_some();
            let answer = filter_moved(&self.schema, &mut own, &rows);
            assert_eq!(own.release.is_some(), was_there && answer.is_err());
            answer
        }
    }

    #[track_caller]
    pub fn is_filtered_by(&self, moves: bool) {
        let mut made = self.filtered(moves).unwrap();
        assert_eq!(made.length, if self.array.length == 0 { 0 } else { 3 });
        // SAFETY: it is released once.
        unsafe { made.release() };
        assert!(made.release.is_none());
    }

    #[track_caller]
    pub fn is_filtered(&self) {
        self.is_filtered_by(false);
        self.is_filtered_by(true);
    }

    #[track_caller]
    pub fn is_refused_by(&self, moves: bool, refusal: &ArrowError) {
        assert_eq!(&self.filtered(moves).unwrap_err(), refusal);
    }

    #[track_caller]
    pub fn is_refused(&self, refusal: &ArrowError) {
        self.is_refused_by(false, refusal);
        self.is_refused_by(true, refusal);
    }

    #[track_caller]
    pub fn is_bad(&self, what: &'static str) {
        self.is_refused(&ArrowError::BadArray { column: "a".into(), what });
    }
}

/// Format, length, offset, null count, buffers, of which one is there where its letter is '+', and what is bad. A column
/// is filtered where nothing is.
type Says = (&'static CStr, i64, i64, i64, &'static str, Option<&'static str>);

const LAST: i64 = i64::MAX - 4;
const ROWS: Option<&str> = Some("length or offset");
const BUFFER: Option<&str> = Some("buffer");
const NULLS: Option<&str> = Some("null count");

const COLUMNS: [Says; 46] = [
    (c"i", 4, 0, 0, "-+", None),
    // rows that end past what memory can have
    (c"i", 4, LAST, 0, "-+", ROWS),
    (c"s", 4, LAST, 0, "-+", ROWS),
    (c"l", 4, LAST, 0, "-+", ROWS),
    (c"d:19,10", 4, LAST, 0, "-+", ROWS),
    (c"w:3", 4, LAST, 0, "-+", ROWS),
    (c"u", 4, LAST, 0, "-++", ROWS),
    (c"Z", 4, LAST, 0, "-++", ROWS),
    (c"i", 4, LAST, 0, "--", BUFFER),
    (c"u", 4, LAST, 0, "--+", BUFFER),
    (c"b", 4, LAST, 0, "--", BUFFER),
    (c"i", 4, i64::MAX, 0, "-+", ROWS),
    (c"w:1073741824", 4, (1 << 34) - 4, 0, "-+", ROWS),
    (c"w:1073741824", 4, (1 << 34) - 4, 0, "--", BUFFER),
    // no rows, at the last place where one may end, and at the next one
    (c"i", 0, (1 << 61) - 1, 0, "--", None),
    (c"i", 0, 1 << 61, 0, "--", ROWS),
    (c"l", 0, (1 << 60) - 1, 0, "--", None),
    (c"l", 0, 1 << 60, 0, "--", ROWS),
    (c"w:1073741824", 0, (1 << 33) - 1, 0, "--", None),
    (c"w:1073741824", 0, 1 << 33, 0, "--", ROWS),
    (c"u", 0, (1 << 61) - 2, 0, "---", None),
    (c"u", 0, (1 << 61) - 1, 0, "---", ROWS),
    (c"Z", 0, (1 << 60) - 2, 0, "---", None),
    (c"Z", 0, (1 << 60) - 1, 0, "---", ROWS),
    (c"b", 0, i64::MAX, 0, "--", None),
    (c"C", 0, i64::MAX, 0, "--", None),
    (c"+s", 0, i64::MAX, 0, "-", None),
    // buffers of views, of which one is there that has no size
    (c"vu", 4, 0, 0, "-++", None),
    (c"vu", 4, 0, 0, "-+-", None),
    (c"vz", 4, 0, 0, "-+++", None),
    (c"vz", 4, 0, 0, "-+-+", None),
    (c"vz", 4, 0, 0, "-++-", BUFFER),
    (c"vz", 0, 0, 0, "-++-", BUFFER),
    (c"vu", 4, 0, 0, "--+", BUFFER),
    (c"vu", 4, 0, 0, "-+", Some("number of buffers")),
    (c"vu", 4, LAST, 0, "-++", ROWS),
    (c"vu", 0, (1 << 59) - 1, 0, "---", None),
    (c"vu", 0, 1 << 59, 0, "---", ROWS),
    // numbers of nulls
    (c"i", 4, 0, -1, "-+", None),
    (c"i", 4, 0, 4, "++", None),
    (c"i", 4, 0, -2, "++", NULLS),
    (c"i", 4, 0, i64::MIN, "-+", NULLS),
    (c"i", 4, 0, 1, "-+", NULLS),
    (c"b", 4, 0, 1, "-+", NULLS),
    (c"u", 4, 0, i64::MAX, "-++", NULLS),
    (c"+s", 4, 0, 1, "-", NULLS),
];

#[test]
fn numbers_that_no_column_can_have() {
    for (format, length, offset, null_count, buffers, what) in COLUMNS {
        let zeros = |it| if it == '+' { ZEROS.as_ptr().cast() } else { null() };
        let mut column = Lent::new(format, buffers.chars().map(zeros).collect());
        (column.array.length, column.array.offset) = (length, offset);
        column.array.null_count = null_count;
        match what {
            Some(what) => column.is_bad(what),
            None => column.is_filtered(),
        }
    }
}

/// 2^34 rows of 2^30 bytes, of which one is chosen: as a number of 64 bits, their product is 0. (It takes 2 GiB.)
#[test]
#[cfg(all(target_os = "linux", target_arch = "x86_64"))]
fn rows_whose_bytes_wrap() {
    let many = BitmapBuf::try_all_false(1 << 34).and_then(|mut many| {
        many.set(7, true)?;
        Selection::try_new(many.as_bitmap())
    });
    let Ok(rows) = many else { return };
    for (data, what) in [(null(), "buffer"), (ZEROS.as_ptr().cast(), "length or offset")] {
        let mut column = Lent::new(c"w:1073741824", vec![null(), data]);
        column.array.length = 1 << 34;
        // SAFETY: as above.
        let answer = unsafe { filter(&column.schema, &column.array, &rows) };
        assert_eq!(answer.unwrap_err(), ArrowError::BadArray { column: "a".into(), what });
    }
}

#[test]
fn what_is_missing() {
    let mut column = Lent::numbers();
    column.schema.format = null();
    column.is_bad("format");
    column = Lent::numbers();
    column.array.buffers = null_mut();
    column.is_bad("number of buffers");
    column.array.release = None;
    column.is_refused(&ArrowError::Released);
    column = Lent::numbers();
    column.schema.release = None;
    column.is_refused(&ArrowError::Released);
    let text = "the array, or its schema, was released or moved";
    assert_eq!(ArrowError::Released.to_string(), text);
}

#[test]
fn children_that_are_none() {
    let one = || Lent::around(Lent::numbers(), 1);
    one().is_filtered();
    let mut column = one();
    column.array.children = null_mut();
    column.is_bad("number of children");
    column = one();
    column.schema.children = null_mut();
    column.is_bad("number of children");
    column = one();
    column.arrays[0] = null_mut();
    column.is_bad("child");
    column = one();
    column.schemas[0] = null_mut();
    column.is_bad("child");
    let with = |change: fn(&mut Lent)| {
        let mut child = Lent::numbers();
        change(&mut child);
        Lent::around(child, 1)
    };
    with(|child| child.array.release = None).is_bad("child");
    with(|child| child.schema.release = None).is_bad("child");
    with(|child| child.schema.format = null()).is_bad("format");
    with(|child| child.array.offset = LAST).is_bad("length or offset");
    let wide: fn(&mut Lent) = |child| {
        (child.schema.format, child.array.length) = (c"w:1073741824".as_ptr(), 1 << 34);
    };
    with(wide).is_bad("length or offset");
    let mut absent = with(wide);
    absent.child.as_mut().unwrap().buffers[1] = null();
    absent.is_bad("buffer");
}

pub fn too_deep() -> ArrowError {
    ArrowError::NestedTooDeep { column: "a".into() }
}

fn too_many() -> ArrowError {
    ArrowError::TooManyColumns { column: "a".into() }
}

#[test]
fn a_struct_that_is_its_own_child() {
    for times in [1, 2] {
        let mut column = Lent::new(c"+s", vec![null()]);
        let (schema, array) = (&raw mut column.schema, &raw mut column.array);
        column.set_children(vec![schema; times], vec![array; times]);
        column.is_refused(&too_deep());
    }
    let text = "column 'a' is nested too deep: its children lie in more than 64 others";
    assert_eq!(too_deep().to_string(), text);
}

#[test]
fn structs_in_structs() {
    Lent::nested(64, 1).is_filtered();
    Lent::nested(65, 1).is_refused(&too_deep());
    // 65,534 columns in structs, and twice as many
    Lent::nested(15, 2).is_filtered();
    Lent::nested(16, 2).is_refused(&too_many());
    Lent::nested(64, 2).is_refused(&too_many());
    Lent::nested(1, 65_536).is_filtered();
    Lent::nested(1, 65_537).is_refused(&too_many());
    let text = "too many columns: with the children of column 'a' more than 65536 lie in others";
    assert_eq!(too_many().to_string(), text);
}

/// The numbers in the last of 64 structs are the chosen ones, and stay where these are released.
#[test]
fn the_deepest_child() {
    let mut made = Lent::nested(64, 1).filtered(false).unwrap();
    let mut deepest = &raw mut made;
    // SAFETY: each struct has a child. It is moved, as Arrow says, and each is released once.
    unsafe {
        for _ in 0..64 {
            deepest = *(*deepest).children;
        }
        let mut moved = deepest.read();
        (*deepest).release = None;
        made.release();
        let numbers = (*moved.buffers.add(1)).cast::<[i32; 3]>();
        assert_eq!((moved.length, *numbers), (3, [1, 3, 4]));
        moved.release();
    }
}
