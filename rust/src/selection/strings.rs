//! Strings at the chosen rows.

use super::{Kept, copy_runs};
use crate::bitmap::room::{as_items, first_of, list_of};
use crate::proved::mask_c::{put_ends, put_strings, take_offsets};
use crate::strings::are_sorted;
use crate::{Error, Offset, Selection, Strings};
use alloc::vec::Vec;

impl Selection {
    /// Writes where the chosen values begin and end to the front of `out`, from 0 on, and returns how many bytes they
    /// have. Value `i` of the column has the bytes from `offsets[i]` to `offsets[i + 1]`. No bytes are given here, so an
    /// offset past them isn't seen, and the answer may be huge: test the last one before you ask for so much memory. It
    /// reads all offsets, to test their order. [`Strings`] are tested once for any number of calls.
    ///
    /// # Errors
    /// [`Error::OffsetsDiffer`] where the column has not one offset more than [`len`](Selection::len) rows,
    /// [`Error::UnsortedOffsets`] where one is negative or below the one before it, and [`Error::RoomTooSmall`] where
    /// `out` has not one item more than [`count`](Selection::count).
    pub fn choose_offsets<O: Offset>(&self, offsets: &[O], out: &mut [O]) -> Result<usize, Error> {
        self.of_offsets(offsets)?;
        are_sorted(offsets)?;
        Ok(self.offsets_to(offsets, first_of(out, self.count + 1)?))
    }

    /// Writes the bytes of the chosen values to the front of `out`, and returns how many. It reads all offsets.
    ///
    /// # Errors
    /// As [`choose_strings`](Selection::choose_strings), but [`Error::RoomTooSmall`] where `out` has not so many bytes.
    pub fn choose_bytes<O: Offset>(
        &self,
        offsets: &[O],
        bytes: &[u8],
        out: &mut [u8],
    ) -> Result<usize, Error> {
        self.of_offsets(offsets)?;
        Strings::new(offsets, bytes)?.choose_bytes(self, out)
    }

    /// The chosen values, as offsets and bytes of their own. It reads all offsets.
    ///
    /// # Errors
    /// [`Error::OffsetsDiffer`] and [`Error::UnsortedOffsets`] as of [`choose_offsets`](Selection::choose_offsets),
    /// [`Error::OffsetOutOfBounds`] where the last offset is past the end of `bytes`, and [`Error::OutOfMemory`].
    pub fn choose_strings<O: Offset>(
        &self,
        offsets: &[O],
        bytes: &[u8],
    ) -> Result<(Vec<O>, Vec<u8>), Error> {
        self.of_offsets(offsets)?;
        Strings::new(offsets, bytes)?.choose(self)
    }

    fn of_offsets<O>(&self, offsets: &[O]) -> Result<(), Error> {
        let differ = Error::OffsetsDiffer { offsets: offsets.len(), len: self.len() };
        differ.unless(offsets.len().checked_sub(1) == Some(self.len()))
    }

    // Writes each place, and returns how many bytes the chosen values have. The offsets are those of a column, and
    // there is one place more than rows are chosen.
    fn offsets_to<O: Offset>(&self, offsets: &[O], out: &mut [O]) -> usize {
        let (mut end, mut at) = (take_offsets(&[], offsets, out), 1);
        if let Kept::Runs(runs) = &self.kept {
            for run in runs {
                let (from, ends) = (offsets[run.0].get(), &offsets[run.0 + 1..=run.1]);
                let places = out[at..].iter_mut().zip(ends);
                places.for_each(|(place, it)| *place = O::of(end + (it.get() - from)));
                (end, at) = (end + (offsets[run.1].get() - from), at + ends.len());
            }
            return end;
        }
        self.by_blocks(|block| {
            end = put_ends(block, offsets, end, out, at);
            at += block.len();
        });
        end
    }
}

impl<O: Offset> Strings<'_, O> {
    /// The chosen values, as offsets and bytes of their own. Just the offsets of these are read.
    ///
    /// # Errors
    /// [`Error::RowsDiffer`] where there are not [`Selection::len`] values, and [`Error::OutOfMemory`].
    pub fn choose(self, selection: &Selection) -> Result<(Vec<O>, Vec<u8>), Error> {
        selection.has_one_for_each(self.len())?;
        let (offsets, mut size) = (self.offsets(), 0);
        // SAFETY: each place is written.
        unsafe {
            let write = |out: &mut [_]| size = selection.offsets_to(offsets, as_items(out));
            let offsets = list_of(selection.count + 1, write)?;
            Ok((offsets, list_of(size, |out| self.bytes_to(selection, as_items(out)))?))
        }
    }

    /// As [`Selection::choose_offsets`] does. Just the offsets of the chosen values are read.
    ///
    /// # Errors
    /// [`Error::RowsDiffer`] as of [`choose`](Strings::choose), and [`Error::RoomTooSmall`] as there.
    pub fn choose_offsets(self, selection: &Selection, out: &mut [O]) -> Result<usize, Error> {
        selection.has_one_for_each(self.len())?;
        Ok(selection.offsets_to(self.offsets(), first_of(out, selection.count + 1)?))
    }

    /// Writes the bytes of the chosen values to the front of `out`, and returns how many these are.
    ///
    /// # Errors
    /// [`Error::RowsDiffer`] as of [`choose`](Self::choose), and [`Error::RoomTooSmall`] where `out` has fewer bytes.
    pub fn choose_bytes(self, selection: &Selection, out: &mut [u8]) -> Result<usize, Error> {
        selection.has_one_for_each(self.len())?;
        let (offsets, mut size) = (self.offsets(), 0);
        let mut add = |start: usize, end: usize| size += offsets[end].get() - offsets[start].get();
        match &selection.kept {
            Kept::Runs(runs) => runs.iter().for_each(|run| add(run.0, run.1)),
            _ => selection.by_blocks(|block| block.iter().for_each(|i| add(*i, i + 1))),
        }
        self.bytes_to(selection, first_of(out, size)?);
        Ok(size)
    }

    // Writes each place. There are as many values as the selection is of, and a place for each byte of the chosen ones.
    fn bytes_to(self, selection: &Selection, out: &mut [u8]) {
        let (offsets, bytes, mut at) = (self.offsets(), self.bytes(), 0);
        match &selection.kept {
            Kept::Runs(runs) => {
                let parts = runs.iter().map(|run| offsets[run.0].get()..offsets[run.1].get());
                copy_runs(bytes, parts, out);
            }
            _ => selection.by_blocks(|block| at = put_strings(block, offsets, bytes, out, at)),
        }
    }
}
