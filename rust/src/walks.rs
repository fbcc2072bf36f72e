//! Walks over a bitmap. That over runs is the proved one. The proved walks over values and indices go from the
//! front alone, and a step of them isn't inlined, so `Values` and `Indices` have theirs by hand.
#![allow(clippy::inline_always, reason = "a call would keep the fields of a walk in memory")]

use crate::Bitmap;
use crate::proved::mask_bits::SetSlices;
use core::fmt;
use core::iter::FusedIterator;
use core::ops::Range;

mod indices;
mod values;

pub use indices::Indices;
pub use values::Values;

/// The maximal ranges of true values of a [`Bitmap`], ascending.
pub struct Runs<'a> {
    bitmap: Bitmap<'a>,
    // the end of the run that was given last, and the runs of the values from `first` on
    next: usize,
    first: usize,
    walk: SetSlices<'a>,
}

impl<'a> Runs<'a> {
    #[inline]
    pub(crate) fn new(bitmap: Bitmap<'a>) -> Runs<'a> {
        Runs { bitmap, next: 0, first: 0, walk: SetSlices::new(bitmap.chunks()) }
    }
}

impl Iterator for Runs<'_> {
    type Item = Range<usize>;

    #[inline(always)]
    fn next(&mut self) -> Option<Range<usize>> {
        let run = self.walk.next().map(|(start, end)| self.first + start..self.first + end);
        self.next = run.as_ref().map_or(self.bitmap.len(), |run| run.end);
        run
    }

    #[inline]
    fn size_hint(&self) -> (usize, Option<usize>) {
        (0, Some((self.bitmap.len() - self.next).div_ceil(2)))
    }
}

impl FusedIterator for Runs<'_> {}

// (the proved walk has no clone: another one begins behind the last run)
impl Clone for Runs<'_> {
    fn clone(&self) -> Self {
        let rest = self.bitmap.part(self.next..self.bitmap.len());
        Runs { first: self.next, walk: SetSlices::new(rest.chunks()), ..*self }
    }
}

impl fmt::Debug for Runs<'_> {
    fn fmt(&self, f: &mut fmt::Formatter<'_>) -> fmt::Result {
        f.debug_struct("Runs").field("bitmap", &self.bitmap).field("next", &self.next).finish()
    }
}
