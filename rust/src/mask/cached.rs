//! Lists that a mask makes once, and lends from then on: behind a `&`, for all its clones, and from any thread. What is kept
//! is what a proved call makes of the mask's own values (`index_list`, `runs`).

use crate::conditions::need_above;
use crate::memory::granted;
use crate::proved::vortex_mask::{AllOr, Mask, MaskError, MaskIter, MaskValues};

/// How a threshold needs its parts: as the proved calls say it.
const NEEDS_PARTS: [&str; 2] = ["`threshold_iter` needs `den > 0`: ", " is not above "];

impl Mask {
    /// `All`, `None`, or the indices of the true values, ascending, of a mask that has both. The list is made once, for this
    /// mask and its clones.
    ///
    /// ```
    /// use row_mask::{AllOr, Mask};
    ///
    /// let mask: Mask = [true, false, true].into_iter().collect();
    /// assert_eq!(mask.indices(), AllOr::Some(&[0, 2][..]));
    /// assert_eq!(Mask::new_true(3).indices(), AllOr::All);
    /// ```
    #[inline]
    #[must_use]
    pub fn indices(&self) -> AllOr<&[usize]> {
        self.all_or(MaskValues::indices)
    }

    /// As [`indices`](Mask::indices), with an error where there is no memory for the list.
    ///
    /// # Errors
    /// [`MaskError::Memory`], and then nothing is kept.
    #[inline]
    pub fn try_indices(&self) -> Result<AllOr<&[usize]>, MaskError> {
        self.try_all_or(MaskValues::try_indices)
    }

    /// `All`, `None`, or the runs of true values, ascending, of a mask that has both. A run is its first index and the index
    /// past its last, and no two touch. The list is made once, for this mask and its clones.
    ///
    /// ```
    /// use row_mask::{AllOr, Mask};
    ///
    /// let mask: Mask = [true, true, false, true].into_iter().collect();
    /// assert_eq!(mask.slices(), AllOr::Some(&[(0, 2), (3, 4)][..]));
    /// ```
    #[inline]
    #[must_use]
    pub fn slices(&self) -> AllOr<&[(usize, usize)]> {
        self.all_or(MaskValues::slices)
    }

    /// As [`slices`](Mask::slices), with an error where there is no memory for the list.
    ///
    /// # Errors
    /// [`MaskError::Memory`], and then nothing is kept.
    #[inline]
    pub fn try_slices(&self) -> Result<AllOr<&[(usize, usize)]>, MaskError> {
        self.try_all_or(MaskValues::try_slices)
    }

    /// `All`, `None`, or a list of a mask that has both: its runs where the share of true values is at least `threshold`, and
    /// else its indices.
    ///
    /// ```
    /// use row_mask::{AllOr, Mask, MaskIter};
    ///
    /// let mask: Mask = [true, true, false, true].into_iter().collect();
    /// assert!(matches!(mask.threshold_iter(0.5), AllOr::Some(MaskIter::Slices(&[(0, 2), (3, 4)]))));
    /// assert!(matches!(mask.threshold_iter(0.8), AllOr::Some(MaskIter::Indices(&[0, 1, 3]))));
    /// ```
    #[inline]
    #[must_use]
    pub fn threshold_iter(&self, threshold: f64) -> AllOr<MaskIter<'_>> {
        self.all_or(|values| values.threshold_iter(threshold))
    }

    /// As [`threshold_iter`](Mask::threshold_iter), with the threshold `num / den`, which is compared exactly, and an error
    /// where there is no memory for the list.
    ///
    /// # Errors
    /// [`MaskError::Memory`], and then nothing is kept.
    ///
    /// # Panics
    /// Where `den` is 0.
    #[inline]
    #[track_caller]
    pub fn try_threshold_iter(
        &self,
        num: usize,
        den: usize,
    ) -> Result<AllOr<MaskIter<'_>>, MaskError> {
        need_above(den, 0, &NEEDS_PARTS);
        self.try_all_or(|values| values.try_threshold_iter(num, den))
    }

    /// The share of true values: 1 of a mask that is `AllTrue`, and 0 of one that is `AllFalse`, also where it is empty.
    ///
    /// [`share`](Mask::share) is the same as a fraction, which is exact.
    ///
    /// ```
    /// use row_mask::Mask;
    ///
    /// assert_eq!(Mask::from_indices(4, [1]).density(), 0.25);
    /// ```
    #[inline]
    #[must_use]
    pub fn density(&self) -> f64 {
        match self {
            Mask::AllTrue(_) => 1.0,
            Mask::AllFalse(_) => 0.0,
            Mask::Values(values) => values.density(),
        }
    }

    // What is lent of a mixed mask.
    #[inline]
    fn all_or<'a, T>(&'a self, of: impl FnOnce(&'a MaskValues) -> T) -> AllOr<T> {
        match self {
            Mask::AllTrue(_) => AllOr::All,
            Mask::AllFalse(_) => AllOr::None,
            Mask::Values(values) => AllOr::Some(of(values)),
        }
    }

    #[inline]
    fn try_all_or<'a, T>(
        &'a self,
        of: impl FnOnce(&'a MaskValues) -> Result<T, MaskError>,
    ) -> Result<AllOr<T>, MaskError> {
        Ok(match self {
            Mask::AllTrue(_) => AllOr::All,
            Mask::AllFalse(_) => AllOr::None,
            Mask::Values(values) => AllOr::Some(of(values)?),
        })
    }
}

impl MaskValues {
    /// The indices of the true values, ascending. The list is made once.
    #[inline]
    #[must_use]
    pub fn indices(&self) -> &[usize] {
        // (a list that is there is lent without a `Result` in between)
        self.cached_indices().unwrap_or_else(|| granted(self.try_indices(), self.len()))
    }

    /// As [`indices`](MaskValues::indices), with an error where there is no memory for the list.
    ///
    /// # Errors
    /// [`MaskError::Memory`], and then nothing is kept.
    #[inline]
    pub fn try_indices(&self) -> Result<&[usize], MaskError> {
        Ok(self.indices.get_or_make(|| self.index_list())?)
    }

    /// The runs of true values, ascending. A run is its first index and the index past its last, and no two touch. The list
    /// is made once.
    #[inline]
    #[must_use]
    pub fn slices(&self) -> &[(usize, usize)] {
        self.cached_slices().unwrap_or_else(|| granted(self.try_slices(), self.len()))
    }

    /// As [`slices`](MaskValues::slices), with an error where there is no memory for the list.
    ///
    /// # Errors
    /// [`MaskError::Memory`], and then nothing is kept.
    #[inline]
    pub fn try_slices(&self) -> Result<&[(usize, usize)], MaskError> {
        Ok(self.slices.get_or_make(|| self.runs())?)
    }

    /// The runs where the share of true values is at least `threshold`, and else the indices.
    #[inline]
    #[must_use]
    pub fn threshold_iter(&self, threshold: f64) -> MaskIter<'_> {
        if self.density() >= threshold {
            MaskIter::Slices(self.slices())
        } else {
            MaskIter::Indices(self.indices())
        }
    }

    /// As [`threshold_iter`](MaskValues::threshold_iter), with the threshold `num / den`, which is compared exactly, and an
    /// error where there is no memory for the list.
    ///
    /// # Errors
    /// [`MaskError::Memory`], and then nothing is kept.
    ///
    /// # Panics
    /// Where `den` is 0.
    #[inline]
    #[track_caller]
    pub fn try_threshold_iter(&self, num: usize, den: usize) -> Result<MaskIter<'_>, MaskError> {
        need_above(den, 0, &NEEDS_PARTS);
        if self.reaches_share(num, den) {
            self.try_slices().map(MaskIter::Slices)
        } else {
            self.try_indices().map(MaskIter::Indices)
        }
    }

    /// The share of true values.
    #[inline]
    #[must_use]
    #[allow(clippy::cast_precision_loss, reason = "`share` is exact")]
    pub fn density(&self) -> f64 {
        self.true_count() as f64 / self.len() as f64
    }
}
