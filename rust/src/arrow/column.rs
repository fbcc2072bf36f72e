//! A column that is filtered, or the struct of all columns: what is refused of it, and what is read.

use super::format::Format;
use super::{ArrowArray, ArrowError, ArrowSchema, Call, MOST_COLUMNS, MOST_NESTED};
use crate::Bitmap;
use crate::kit::Text;
use alloc::string::String;
use core::ffi::{CStr, c_void};
use core::slice;

/// The `len` rows of an array from `start` on. All that is unsafe here rests on what the caller of `filter` owes: schema
/// and array are as Arrow says.
#[derive(Clone, Copy)]
pub(super) struct Column<'a> {
    pub schema: &'a ArrowSchema,
    /// The array. Of a call that moves nothing it is only read.
    pub place: *mut ArrowArray,
    pub start: usize,
    pub len: usize,
    /// How many columns it lies in.
    pub nested: usize,
    pub call: &'a Call,
}

impl<'a> Column<'a> {
    // ---- what is refused ----

    /// The same rows, counted from the front of the buffers, and what is in these. All that the array says fits its
    /// schema, but for its children, and its offsets.
    pub(super) fn checked(self) -> Result<(Column<'a>, Format), ArrowError> {
        let (array, format) = (self.array(), self.format()?);
        let start = self.first_row().ok_or_else(|| self.bad("length or offset"))?;
        if !format.takes_buffers(array.n_buffers) || array.buffers.is_null() {
            return Err(self.bad("number of buffers"));
        }
        if array.null_count < -1 || (array.null_count > 0 && self.is_absent(0)) {
            return Err(self.bad("null count"));
        }
        self.has_children(format)?;
        if !self.has_good_dictionary() {
            return Err(self.bad("dictionary"));
        }
        if format != Format::Struct && self.len > 0 && self.is_absent(1) {
            return Err(self.bad("buffer"));
        }
        // (so no product of a width and some of these rows is too large)
        if self.end().and_then(|end| format.size(end)).is_none() {
            return Err(self.bad("length or offset"));
        }
        self.meets_others()?;
        Ok((Column { start, ..self }, format))
    }

    fn format(self) -> Result<Format, ArrowError> {
        if self.schema.format.is_null() {
            return Err(self.bad("format"));
        }
        let named = || ArrowError::NotSupported { column: self.name(), format: own(self.text()) };
        Format::of(self.text().to_bytes()).ok_or_else(named)
    }

    fn first_row(self) -> Option<usize> {
        let end = self.end()?;
        let length = usize::try_from(self.array().length).ok()?;
        (self.start.checked_add(self.len)? <= length).then_some(self.start + (end - length))
    }

    /// The row behind its last one, counted from the front of the buffers.
    fn end(self) -> Option<usize> {
        let length = usize::try_from(self.array().length).ok()?;
        let offset = usize::try_from(self.array().offset).ok()?;
        length.checked_add(offset).filter(|end| *end <= isize::MAX.cast_unsigned())
    }

    fn has_children(self, format: Format) -> Result<(), ArrowError> {
        let (array, schema) = (self.array(), self.schema);
        let has_lists = !array.children.is_null() && !schema.children.is_null();
        let fits = format.takes_children(array.n_children) && (array.n_children == 0 || has_lists);
        if !fits || array.n_children != schema.n_children {
            return Err(self.bad("number of children"));
        }
        Ok(())
    }

    /// Whether there is no dictionary, or one with keys that are whole numbers.
    fn has_good_dictionary(self) -> bool {
        let is_whole = matches!(
            self.text().to_bytes(),
            [b'c' | b'C' | b's' | b'S' | b'i' | b'I' | b'l' | b'L']
        );
        self.has_no_dictionary() || (is_whole && self.dictionary().is_some())
    }

    /// Tests that there are no more columns in this one than a call takes.
    fn meets_others(self) -> Result<(), ArrowError> {
        let copies_dictionary = !self.has_no_dictionary() && !self.call.moves;
        let others = if copies_dictionary { 1 } else { self.children() };
        if others > 0 && self.nested == MOST_NESTED {
            return Err(ArrowError::NestedTooDeep { column: self.name() });
        }
        self.call.met.set(self.call.met.get().saturating_add(others));
        if self.call.met.get() > MOST_COLUMNS {
            return Err(ArrowError::TooManyColumns { column: self.name() });
        }
        Ok(())
    }

    pub(super) fn bad(self, what: &'static str) -> ArrowError {
        ArrowError::BadArray { column: self.name(), what }
    }

    fn name(self) -> String {
        if self.schema.name.is_null() {
            return String::new();
        }
        // SAFETY: a text ends with a 0.
        own(unsafe { CStr::from_ptr(self.schema.name) })
    }

    fn text(self) -> &'a CStr {
        // SAFETY: a text ends with a 0.
        unsafe { CStr::from_ptr(self.schema.format) }
    }

    // ---- what is read ----

    /// The array, until it is moved.
    pub(super) fn array(self) -> &'a ArrowArray {
        // SAFETY: it is there.
        unsafe { &*self.place }
    }

    pub(super) fn children(self) -> usize {
        usize::try_from(self.array().n_children).unwrap_or(0)
    }

    pub(super) fn buffers(self) -> usize {
        usize::try_from(self.array().n_buffers).unwrap_or(0)
    }

    /// So many rows of a child.
    pub(super) fn child(
        self,
        i: usize,
        start: usize,
        len: usize,
    ) -> Result<Column<'a>, ArrowError> {
        // SAFETY: there are as many as both say, which is the same.
        let (schema, place) =
            unsafe { (*self.schema.children.add(i), *self.array().children.add(i)) };
        self.within(schema, place, start, len).ok_or_else(|| self.bad("child"))
    }

    /// All values that keys are of, as both say that there are.
    pub(super) fn dictionary(self) -> Option<Column<'a>> {
        let place = self.array().dictionary;
        let values = self.within(self.schema.dictionary, place, 0, 0)?;
        // (a length below 0 is refused there)
        Some(Column { len: usize::try_from(values.array().length).unwrap_or(0), ..values })
    }

    /// Whether neither says that there is one.
    pub(super) fn has_no_dictionary(self) -> bool {
        self.schema.dictionary.is_null() && self.array().dictionary.is_null()
    }

    fn within(
        self,
        schema: *mut ArrowSchema,
        place: *mut ArrowArray,
        start: usize,
        len: usize,
    ) -> Option<Column<'a>> {
        // SAFETY: what isn't null is there.
        let (schema, array) = unsafe { (schema.as_ref()?, place.as_ref()?) };
        let column = Column { schema, place, start, len, nested: self.nested + 1, call: self.call };
        is_there(schema, array).then_some(column)
    }

    /// Where a buffer is.
    pub(super) fn buffer(self, buffer: usize) -> *const c_void {
        // SAFETY: there are as many buffers as its format asks for.
        unsafe { *self.array().buffers.add(buffer) }
    }

    pub(super) fn is_absent(self, buffer: usize) -> bool {
        self.buffer(buffer).is_null()
    }

    /// The items of a buffer from item `first` on. There may be no buffer for none, and none is unaligned.
    pub(super) fn items<T>(
        self,
        buffer: usize,
        first: usize,
        count: usize,
    ) -> Result<&'a [T], ArrowError> {
        if count == 0 {
            return Ok(&[]);
        }
        let items = self.buffer(buffer).cast::<T>();
        if items.is_null() || !items.is_aligned() {
            return Err(self.bad("buffer"));
        }
        // SAFETY: there are so many items in it.
        Ok(unsafe { slice::from_raw_parts(items.add(first), count) })
    }

    pub(super) fn bitmap(self, buffer: usize) -> Result<Bitmap<'a>, ArrowError> {
        let start = if self.len == 0 { 0 } else { self.start };
        let bytes = self.items(buffer, 0, (start + self.len).div_ceil(8))?;
        Ok(Bitmap::new(bytes, start, self.len)?)
    }
}

/// Whether neither was released or moved. What they point to may be gone then.
pub(super) fn is_there(schema: &ArrowSchema, array: &ArrowArray) -> bool {
    schema.release.is_some() && array.release.is_some()
}

/// A text of its own, or an empty one where it is not of UTF-8, or there is no memory for it.
fn own(text: &CStr) -> String {
    text.to_str().ok().and_then(|text| String::from_str(text).ok()).unwrap_or_default()
}
