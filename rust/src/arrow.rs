//! Rows of arrays of Arrow's C data interface, which is how programs of several languages lend columns to each other.

mod chosen;
mod column;
mod error;
mod format;
mod made;

pub use error::ArrowError;

use crate::{Error, Selection};
use column::{Column, is_there};
use core::cell::Cell;
use core::ffi::{c_char, c_void};
use core::ptr;
use made::keep_moved;

// How many structs, lists and dictionaries that are copied a column may lie in, and how many columns of a call do. So
// a struct that lies in itself has an end, and so has one child of many structs.
const MOST_NESTED: usize = 64;
const MOST_COLUMNS: usize = 65_536;

// Whether a call moves arrays into its result where that saves a copy, and how many columns it has met that lie in others.
struct Call {
    moves: bool,
    met: Cell<usize>,
}

/// Arrow's struct of this name: the type of a column.
#[repr(C)]
#[derive(Debug)]
#[allow(missing_docs, reason = "the page of Arrow says what each is")]
pub struct ArrowSchema {
    pub format: *const c_char,
    pub name: *const c_char,
    pub metadata: *const c_char,
    pub flags: i64,
    pub n_children: i64,
    pub children: *mut *mut ArrowSchema,
    pub dictionary: *mut ArrowSchema,
    pub release: Option<unsafe extern "C" fn(*mut ArrowSchema)>,
    pub private_data: *mut c_void,
}

/// Arrow's struct of this name: the values of a column. It is plain data, which nothing releases but a call of its
/// callback, such as [`release`](ArrowArray::release).
#[repr(C)]
#[derive(Debug)]
#[allow(missing_docs, reason = "the page of Arrow says what each is")]
pub struct ArrowArray {
    pub length: i64,
    pub null_count: i64,
    pub offset: i64,
    pub n_buffers: i64,
    pub n_children: i64,
    pub buffers: *mut *const c_void,
    pub children: *mut *mut ArrowArray,
    pub dictionary: *mut ArrowArray,
    pub release: Option<unsafe extern "C" fn(*mut ArrowArray)>,
    pub private_data: *mut c_void,
}

impl ArrowArray {
    /// Releases what it has, unless that was done, or it was moved.
    ///
    /// # Safety
    ///
    /// It is as whoever made it left it, and nobody else releases it. What it has isn't read after that.
    pub unsafe fn release(&mut self) {
        if let Some(release) = self.release {
            // SAFETY: what the caller owes.
            unsafe { release(self) };
        }
    }
}

/// The chosen rows of an array, as an array of the same schema: with an offset of 0, its number of nulls, and memory of
/// its own. Its owner releases it, and may move it or its children, as Arrow says.
///
/// Formats are those whose rows have a fixed width: `c`, `C`, `s`, `S`, `i`, `I`, `l`, `L`, `e`, `f`, `g`, `w:N`, `d:..`,
/// and those that begin with `t`; `b`; `u`, `U`, `z` and `Z`; `vu` and `vz`; `+l`, `+L` and `+s` of these; and keys of a
/// dictionary of these. Buffers may be absent where an array has no values, and the one of validity where it has no null.
/// Columns may lie in up to 64 structs, lists and dictionaries, and up to 65,536 columns of a call do: a child of two
/// structs counts twice.
///
/// A dictionary is copied whole, and so are all bytes that views are of: [`filter_moved`] copies neither. Keys and views
/// are not read, and fit their dictionary or their bytes as they did.
///
/// Other packages have the two structs by other names. They have the same layout, so a pointer to one can be cast.
///
/// ```
/// use row_mask::{Bitmap, Selection, arrow};
/// use std::ptr::null_mut;
///
/// // What another library lends: a column of four numbers, the second of them null.
/// let (numbers, validity) = ([5_i32, 0, 7, 9], [0b1101_u8]);
/// let mut buffers = [validity.as_ptr().cast(), numbers.as_ptr().cast()];
/// # unsafe extern "C" fn release_schema(schema: *mut arrow::ArrowSchema) { unsafe { (*schema).release = None } }
/// # unsafe extern "C" fn release_array(array: *mut arrow::ArrowArray) { unsafe { (*array).release = None } }
/// # let schema = arrow::ArrowSchema {
/// #     format: c"i".as_ptr(), name: c"n".as_ptr(), metadata: std::ptr::null(), flags: 2, n_children: 0,
/// #     children: null_mut(), dictionary: null_mut(), release: Some(release_schema), private_data: null_mut(),
/// # };
/// # let column = arrow::ArrowArray {
/// #     length: 4, null_count: 1, offset: 0, n_buffers: 2, n_children: 0, buffers: buffers.as_mut_ptr(),
/// #     children: null_mut(), dictionary: null_mut(), release: Some(release_array), private_data: null_mut(),
/// # };
/// // (its `schema` and `column` say so)
/// let chosen = Selection::try_new(Bitmap::new(&[0b1010], 0, 4)?)?;
/// // SAFETY: the buffers are as long as the array says.
/// let mut made = unsafe { arrow::filter(&schema, &column, &chosen) }?;
/// assert_eq!((made.length, made.null_count), (2, 1));
/// // SAFETY: it is released once, by its owner.
/// unsafe { made.release() };
/// # Ok::<(), Box<dyn std::error::Error>>(())
/// ```
///
/// # Safety
///
/// Schema and array are as Arrow says: texts end with a 0, there are as many children and buffers as they say, and a
/// buffer that is there has what its format, the length and the offset ask for. Nobody writes to these during the call.
///
/// # Errors
///
/// - [`ArrowError::Released`] where the array or its schema was released or moved, and so has no callback.
/// - [`ArrowError::NotSupported`] of another format, with its column. [`ArrowError::NestedTooDeep`] and
///   [`ArrowError::TooManyColumns`] of more columns, or these in more others, than are said above.
/// - [`ArrowError::BadArray`] where the array of a column doesn't fit its schema, as this table says.
/// - [`ArrowError::Refused`] with [`Error::RowsDiffer`] where the selection is of another number of rows, with
///   [`Error::UnsortedOffsets`], and with [`Error::OutOfMemory`].
///
/// | What is bad | Why |
/// |---|---|
/// | `format` | there is none |
/// | `length or offset` | one is negative, a child has fewer rows than its struct or lists, or no memory could have all rows |
/// | `number of buffers` | the format has another, or there are none |
/// | `null count` | it is below -1, or above 0 and there is no validity |
/// | `number of children` | the format or the schema has another, or there are none |
/// | `child` | it isn't there, or was released or moved |
/// | `dictionary` | so, or its keys are no whole numbers |
/// | `buffer` | it isn't there, or has offsets that aren't aligned, or sizes of the bytes of views that aren't, or are negative |
pub unsafe fn filter(
    schema: &ArrowSchema,
    array: &ArrowArray,
    rows: &Selection,
) -> Result<ArrowArray, ArrowError> {
    filtered(schema, ptr::from_ref(array).cast_mut(), rows, false)
}

/// The same, but it takes the array over, whose callback is `None` then. What it makes has all that the array had for
/// views, and its dictionaries, which may be of any format: these are moved, as Arrow says, not copied or read. All else
/// is released.
///
/// ```
/// use row_mask::{Bitmap, Selection, arrow};
/// use std::ptr::null_mut;
///
/// // What another library gives away: four keys of a dictionary of two numbers.
/// let (keys, numbers) = ([0_u8, 1, 1, 0], [2.5_f64, 9.0]);
/// # unsafe extern "C" fn release_schema(schema: *mut arrow::ArrowSchema) { unsafe { (*schema).release = None } }
/// # unsafe extern "C" fn release_array(array: *mut arrow::ArrowArray) { unsafe { (*array).release = None } }
/// # let schema_of = |format: &'static std::ffi::CStr, dictionary| arrow::ArrowSchema {
/// #     format: format.as_ptr(), name: c"n".as_ptr(), metadata: std::ptr::null(), flags: 2, n_children: 0,
/// #     children: null_mut(), dictionary, release: Some(release_schema), private_data: null_mut(),
/// # };
/// # let array_of = |length, buffers, dictionary| arrow::ArrowArray {
/// #     length, null_count: 0, offset: 0, n_buffers: 2, n_children: 0, buffers, children: null_mut(), dictionary,
/// #     release: Some(release_array), private_data: null_mut(),
/// # };
/// # let mut buffers = [[std::ptr::null(), keys.as_ptr().cast()], [std::ptr::null(), numbers.as_ptr().cast()]];
/// # let [of_keys, of_numbers] = &mut buffers;
/// # let mut schema_of_numbers = schema_of(c"g", null_mut());
/// # let mut dictionary = array_of(2, of_numbers.as_mut_ptr(), null_mut());
/// # let schema = schema_of(c"C", &raw mut schema_of_numbers);
/// # let mut column = array_of(4, of_keys.as_mut_ptr(), &raw mut dictionary);
/// // (its `schema` and `column` say so)
/// let chosen = Selection::try_new(Bitmap::new(&[0b1010], 0, 4)?)?;
/// // SAFETY: the buffers are as long as the array says, and it is nobody else's.
/// let mut made = unsafe { arrow::filter_moved(&schema, &mut column, &chosen) }?;
/// assert!(column.release.is_none());
/// // SAFETY: there are two rows, and a dictionary.
/// unsafe {
///     assert_eq!(*(*made.buffers.add(1)).cast::<[u8; 2]>(), [1, 0]);
///     assert_eq!((*made.dictionary).buffers, of_numbers.as_mut_ptr());
///     made.release();
/// }
/// # Ok::<(), Box<dyn std::error::Error>>(())
/// ```
///
/// # Safety
///
/// As of [`filter`], and the array is as whoever made it left it, and nobody else releases it.
///
/// # Errors
///
/// As of [`filter`], and the array is as it was. So a child or dictionary that would be moved may not be in it twice.
pub unsafe fn filter_moved(
    schema: &ArrowSchema,
    array: &mut ArrowArray,
    rows: &Selection,
) -> Result<ArrowArray, ArrowError> {
    let place = ptr::from_mut(array);
    let made = filtered(schema, place, rows, true)?;
    // SAFETY: it was made just now, and what was not moved out of the array goes.
    unsafe {
        keep_moved(&raw const made);
        (*place).release();
    }
    Ok(made)
}

fn filtered(
    schema: &ArrowSchema,
    place: *mut ArrowArray,
    rows: &Selection,
    moves: bool,
) -> Result<ArrowArray, ArrowError> {
    let call = &Call { moves, met: Cell::new(0) };
    let column = Column { schema, place, start: 0, len: rows.len(), nested: 0, call };
    if !is_there(schema, column.array()) {
        return Err(ArrowError::Released);
    }
    if usize::try_from(column.array().length) != Ok(rows.len()) {
        let columns = usize::try_from(column.array().length).unwrap_or(0);
        return Err(Error::RowsDiffer { rows: columns, len: rows.len() }.into());
    }
    let (column, format) = column.checked()?;
    column.chosen(format, rows)
}
