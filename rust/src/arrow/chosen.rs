//! The chosen rows of a column that was checked.

use super::column::Column;
use super::format::Format;
use super::made::{Buffer, Made, room};
use super::{ArrowArray, ArrowError};
use crate::{BitmapBuf, Error, Offset, Row, Selection, Strings};
use alloc::vec::Vec;
use core::ptr::copy_nonoverlapping;

impl<'a> Column<'a> {
    /// The chosen ones of its rows, of which there are as many as the selection is of.
    pub(super) fn chosen(self, format: Format, rows: &Selection) -> Result<ArrowArray, ArrowError> {
        let mut made = Made::new(self.buffers(), self.children())?;
        let null_count = self.validity(rows, &mut made)?;
        match format {
            Format::Bits => self.bits(rows, &mut made)?,
            Format::Rows(1) => self.rows::<u8>(rows, &mut made)?,
            Format::Rows(2) => self.rows::<u16>(rows, &mut made)?,
            Format::Rows(4) => self.rows::<u32>(rows, &mut made)?,
            Format::Rows(8) => self.rows::<u64>(rows, &mut made)?,
            Format::Rows(16) => self.rows::<u128>(rows, &mut made)?,
            Format::Rows(width) => self.any_rows(width, rows, &mut made)?,
            Format::Strings => self.strings::<i32>(rows, &mut made)?,
            Format::LargeStrings => self.strings::<i64>(rows, &mut made)?,
            Format::Views => self.views(rows, &mut made)?,
            Format::Lists => self.lists::<i32>(rows, &mut made)?,
            Format::LargeLists => self.lists::<i64>(rows, &mut made)?,
            Format::Struct => {
                for i in 0..self.children() {
                    let (child, format) = self.child(i, self.start, self.len)?.checked()?;
                    made.push(child.chosen(format, rows)?);
                }
            }
        }
        if !self.has_no_dictionary() {
            self.values_of_keys(&mut made)?;
        }
        Ok(made.finish(rows.count(), null_count)?)
    }

    /// Makes the bitmap that says which rows are null, and returns how many.
    fn validity(self, rows: &Selection, made: &mut Made) -> Result<usize, ArrowError> {
        if self.array().null_count == 0 || self.is_absent(0) {
            return Ok(0);
        }
        let chosen = rows.choose_bits(self.bitmap(0)?)?;
        let nulls = chosen.len() - chosen.as_bitmap().count();
        made.buffers[0] = Buffer::from(chosen.into_bytes());
        Ok(nulls)
    }

    fn bits(self, rows: &Selection, made: &mut Made) -> Result<(), ArrowError> {
        made.buffers[1] = Buffer::from(rows.choose_bits(self.bitmap(1)?)?.into_bytes());
        Ok(())
    }

    fn rows<T: Row>(self, rows: &Selection, made: &mut Made) -> Result<(), ArrowError> {
        if !self.buffer(1).cast::<T>().is_aligned() {
            return self.any_rows(size_of::<T>(), rows, made);
        }
        made.buffers[1] = Buffer::from(rows.choose(self.items::<T>(1, self.start, self.len)?)?);
        Ok(())
    }

    /// Rows of any width, anywhere in memory, by the runs of those that are chosen.
    fn any_rows(self, width: usize, rows: &Selection, made: &mut Made) -> Result<(), ArrowError> {
        let from = self.items::<u8>(1, width * self.start, width * self.len)?;
        let mut list = room::<u64>((width * rows.count()).div_ceil(8))?;
        let mut to = list.as_mut_ptr().cast::<u8>();
        for run in rows.as_bitmap().runs() {
            let run = &from[width * run.start..width * run.end];
            // SAFETY: there is memory for the bytes of all rows that are chosen.
            unsafe {
                copy_nonoverlapping(run.as_ptr(), to, run.len());
                to = to.add(run.len());
            }
        }
        made.buffers[1] = Buffer::from(list);
        Ok(())
    }

    // ---- strings ----

    /// Where each row begins, and the last one ends. (Offsets that descend are refused where they are read.)
    fn offsets<'b, O: Offset>(self, none: &'b [O; 1]) -> Result<&'b [O], ArrowError>
    where
        'a: 'b,
    {
        if self.len == 0 { Ok(none) } else { self.items(1, self.start, self.len + 1) }
    }

    fn strings<O: Offset>(self, rows: &Selection, made: &mut Made) -> Result<(), ArrowError> {
        let none = [O::default()];
        let offsets = self.offsets(&none)?;
        let end: usize = offsets[self.len].try_into().unwrap_or(0);
        if end > 0 && self.is_absent(2) {
            return self.empty_strings(offsets, rows, made);
        }
        let strings = Strings::new(offsets, self.items(2, 0, end)?)?;
        let (offsets, bytes) = strings.choose(rows)?;
        (made.buffers[1], made.buffers[2]) = (Buffer::from(offsets), Buffer::from(bytes));
        Ok(())
    }

    /// Strings that lie behind bytes which are absent: each has to be empty.
    fn empty_strings<O: Offset>(
        self,
        offsets: &[O],
        rows: &Selection,
        made: &mut Made,
    ) -> Result<(), ArrowError> {
        if offsets.iter().any(|offset| *offset != offsets[0]) {
            return Err(self.bad("buffer"));
        }
        let none = Buffer::from(zeros::<O>(rows.count() + 1)?);
        (made.buffers[1], made.buffers[2]) = (none, Buffer::from(Vec::<u8>::new()));
        Ok(())
    }

    // ---- what an array shares ----

    fn views(self, rows: &Selection, made: &mut Made) -> Result<(), ArrowError> {
        let (first, last) = (2, self.buffers() - 1);
        let sizes = self.items::<i64>(last, 0, last - first)?;
        for (buffer, size) in (first..).zip(sizes) {
            if isize::try_from(*size).is_err() || *size < 0 || (*size > 0 && self.is_absent(buffer))
            {
                return Err(self.bad("buffer"));
            }
        }
        self.rows::<[u64; 2]>(rows, made)?;
        if self.call.moves {
            for buffer in first..=last {
                made.buffers[buffer] = Buffer::of_another(self.buffer(buffer));
            }
            // SAFETY: it was not moved yet, and all that is read of it was read.
            unsafe { made.move_from(self.place) };
            return Ok(());
        }
        for (buffer, size) in (first..).zip(sizes) {
            let bytes = self.items::<u8>(buffer, 0, usize::try_from(*size).unwrap_or(0))?;
            made.buffers[buffer] = Buffer::from(copied(bytes)?);
        }
        made.buffers[last] = Buffer::from(copied(sizes)?);
        Ok(())
    }

    /// The dictionary of keys: that of the array, which is moved, or a copy.
    fn values_of_keys(self, made: &mut Made) -> Result<(), ArrowError> {
        // (where two columns have it, it was moved before)
        let values = self.dictionary().ok_or_else(|| self.bad("dictionary"))?;
        made.has_dictionary = true;
        if self.call.moves {
            // SAFETY: it was not moved yet, and nothing of it is read.
            unsafe { made.move_from(values.place) };
            return Ok(());
        }
        let (values, format) = values.checked()?;
        let all = Selection::of(BitmapBuf::try_all_true(values.len)?)?;
        made.keep(values.chosen(format, &all)?);
        Ok(())
    }

    // ---- lists ----

    fn lists<O: Offset>(self, rows: &Selection, made: &mut Made) -> Result<(), ArrowError> {
        let none = [O::default()];
        let offsets = self.offsets(&none)?;
        let mut chosen = zeros::<O>(rows.count() + 1)?;
        rows.choose_offsets(offsets, &mut chosen)?;
        let (first, end) = (offsets[0].get(), offsets[self.len].get());
        let (child, format) = self.child(0, first, end - first)?.checked()?;
        let ranges = rows.as_bitmap().runs();
        let ranges =
            ranges.map(|run| offsets[run.start].get() - first..offsets[run.end].get() - first);
        let within = Selection::of(BitmapBuf::from_ranges(end - first, ranges)?)?;
        made.buffers[1] = Buffer::from(chosen);
        made.push(child.chosen(format, &within)?);
        Ok(())
    }
}

fn zeros<T: Copy + Default>(count: usize) -> Result<Vec<T>, Error> {
    let mut list = room(count)?;
    list.resize(count, T::default());
    Ok(list)
}

fn copied<T: Copy>(items: &[T]) -> Result<Vec<T>, Error> {
    let mut list = room(items.len())?;
    list.extend_from_slice(items);
    Ok(list)
}
