//! What a bitmap can be written into.

use crate::kit::List;
use crate::native::MORE;
use crate::proved::mask_c;
use crate::{BitmapBuf, Error};
use alloc::vec::Vec;
use core::mem::MaybeUninit;
use core::slice;

/// What the calls named `.._into` write a bitmap into, from bit 0 on: bytes of the caller, or a [`BitmapBuf`], which
/// then has just these values and keeps the memory that it has.
///
/// Of bytes just the first `(len + 7) / 8` are written, where `len` is the length of what is written, and the bits
/// after the last value are cleared in the last of them.
///
/// Bytes that are too few are refused by [`Error::RoomTooSmall`], and a [`BitmapBuf`] that finds no memory by
/// [`Error::OutOfMemory`]. Neither is changed then.
///
/// ```
/// use row_mask::{Bitmap, BitmapBuf};
///
/// let rows = Bitmap::new(&[0b0_1101], 0, 5)?;
/// let (mut turned, mut bytes) = (BitmapBuf::default(), [0xFF; 2]);
/// rows.not_into(&mut turned)?;
/// rows.not_into(&mut bytes[..])?;
/// assert_eq!(turned.to_string(), "01001");
/// assert_eq!(bytes, [0b1_0010, 0xFF]);
/// # Ok::<(), row_mask::Error>(())
/// ```
#[diagnostic::on_unimplemented(
    message = "no bitmap can be written into `{Self}`",
    note = "a bitmap is written into a `BitmapBuf` or into bytes: pass `&mut bytes[..]` for a `Vec<u8>` or an array",
    note = "a list of `bool` is made by `bitmap.iter().collect()`"
)]
pub trait Room: sealed::Room {}

impl Room for BitmapBuf {}
impl Room for [u8] {}

pub(crate) mod sealed {
    use crate::Error;

    pub trait Room {
        /// Has room for `len` values, or is refused. The values stay as they are.
        fn make_room(&mut self, len: usize) -> Result<(), Error>;

        /// Writes `len` values by what gets the bytes that they take.
        ///
        /// # Safety
        /// `fill` writes each byte that it gets, and reads none before.
        unsafe fn write(&mut self, len: usize, fill: impl FnOnce(&mut [u8])) -> Result<(), Error>;

        /// Forgets the values from the first `len` on, where it knows how many there are.
        fn keep(&mut self, _len: usize) {}
    }
}

impl sealed::Room for BitmapBuf {
    fn make_room(&mut self, len: usize) -> Result<(), Error> {
        self.try_reserve(len.saturating_sub(self.len))
    }

    unsafe fn write(&mut self, len: usize, fill: impl FnOnce(&mut [u8])) -> Result<(), Error> {
        let bytes = mask_c::row_mask_room(len);
        if bytes > self.bytes.capacity() {
            self.make_room(len)?;
        }
        self.clear();
        // SAFETY: each place is written before it is read, as is asked here too.
        fill(unsafe { as_items(&mut self.bytes.spare_capacity_mut()[..bytes]) });
        // SAFETY: so many have room, and were written.
        unsafe { self.bytes.set_len(bytes) };
        self.len = len;
        Ok(())
    }

    fn keep(&mut self, len: usize) {
        self.truncate(len);
    }
}

impl sealed::Room for [u8] {
    fn make_room(&mut self, len: usize) -> Result<(), Error> {
        first_of(self, mask_c::row_mask_room(len)).map(|_| ())
    }

    unsafe fn write(&mut self, len: usize, fill: impl FnOnce(&mut [u8])) -> Result<(), Error> {
        fill(first_of(self, mask_c::row_mask_room(len))?);
        Ok(())
    }
}

/// Room for just what is written, made when it is. (An empty bitmap before that would be kept in memory for its drop.)
pub(crate) struct New(Option<BitmapBuf>);

impl Room for New {}

impl sealed::Room for New {
    fn make_room(&mut self, _len: usize) -> Result<(), Error> {
        Ok(())
    }

    #[inline]
    unsafe fn write(&mut self, len: usize, fill: impl FnOnce(&mut [u8])) -> Result<(), Error> {
        // SAFETY: this is what is asked here too.
        let bytes = unsafe { list_of(mask_c::row_mask_room(len), |out| fill(as_items(out)))? };
        self.0 = Some(BitmapBuf { bytes, len });
        Ok(())
    }
}

/// What a call writes, as a bitmap of its own.
#[inline]
pub(crate) fn made<T>(
    write: impl FnOnce(&mut New) -> Result<T, Error>,
) -> Result<BitmapBuf, Error> {
    let mut new = New(None);
    write(&mut new)?;
    Ok(new.0.unwrap_or_default())
}

/// Writes `len` values into each of two, and into neither where one of them has no room.
///
/// # Safety
/// `fill` writes each byte that it gets, and reads none before.
pub(crate) unsafe fn write_both(
    one: &mut (impl Room + ?Sized),
    other: &mut (impl Room + ?Sized),
    len: usize,
    fill: impl FnOnce(&mut [u8], &mut [u8]),
) -> Result<(), Error> {
    one.make_room(len)?;
    other.make_room(len)?;
    // SAFETY: this is what is asked here too, and where the second is refused nothing of the first is kept.
    unsafe {
        one.write(len, |out| {
            other.write(len, |more| fill(out, more)).expect("it has room");
        })
    }
}

/// The first `needed` items.
pub(crate) fn first_of<T>(out: &mut [T], needed: usize) -> Result<&mut [T], Error> {
    let room = out.len();
    out.get_mut(..needed).ok_or(Error::RoomTooSmall { room, needed })
}

/// Adds `count` items behind those of a list, if there is memory. They are written by what gets their places.
///
/// # Safety
/// `fill` writes each place that it gets.
#[inline]
pub(crate) unsafe fn append_to<T>(
    list: &mut Vec<T>,
    count: usize,
    fill: impl FnOnce(&mut [MaybeUninit<T>]),
) -> Result<(), Error> {
    reserve(list, count)?;
    fill(&mut list.spare_capacity_mut()[..count]);
    // SAFETY: so many places were reserved, and are written.
    unsafe { list.set_len(list.len() + count) };
    Ok(())
}

/// The same of rows that are chosen: what writes them gets all that the list has room for, and their number.
///
/// # Safety
/// `fill` writes the first places, so many.
#[inline]
pub(crate) unsafe fn append_rows<T>(
    list: &mut Vec<T>,
    count: usize,
    fill: impl FnOnce(&mut [MaybeUninit<T>], usize),
) -> Result<(), Error> {
    reserve(list, count)?;
    fill(list.spare_capacity_mut(), count);
    // SAFETY: so many places were reserved, and are written.
    unsafe { list.set_len(list.len() + count) };
    Ok(())
}

/// A list of just such rows, with room for some more.
///
/// # Safety
/// As above.
#[inline]
pub(crate) unsafe fn rows_of<T>(
    count: usize,
    fill: impl FnOnce(&mut [MaybeUninit<T>], usize),
) -> Result<Vec<T>, Error> {
    let mut list = Vec::new();
    if count > 0 {
        reserve(&mut list, count.saturating_add(MORE))?;
    }
    // SAFETY: this is what is asked here too.
    unsafe { append_rows(&mut list, count, fill)? };
    Ok(list)
}

/// A list of just such items.
///
/// # Safety
/// As above.
#[inline]
pub(crate) unsafe fn list_of<T>(
    count: usize,
    fill: impl FnOnce(&mut [MaybeUninit<T>]),
) -> Result<Vec<T>, Error> {
    let mut list = Vec::new();
    // SAFETY: this is what is asked here too.
    unsafe { append_to(&mut list, count, fill)? };
    Ok(list)
}

/// Has memory for `count` items more, if there is some: in a list that has none, for just these.
#[inline]
pub(crate) fn reserve<T>(list: &mut Vec<T>, count: usize) -> Result<(), Error> {
    let made = if list.capacity() == 0 {
        Vec::with_room(count).map(|made| *list = made).is_ok()
    } else {
        list.try_reserve(count).is_ok()
    };
    let bytes = list.len().saturating_add(count).saturating_mul(size_of::<T>());
    Error::OutOfMemory { bytes }.unless(made)
}

/// Items as cells that may be written or not, for loops that copy from them.
pub(crate) fn as_cells<T>(items: &[T]) -> &[MaybeUninit<T>] {
    // SAFETY: it is the same slice, and each of its cells is written.
    unsafe { slice::from_raw_parts(items.as_ptr().cast(), items.len()) }
}

/// Items of the caller as cells.
///
/// # Safety
/// Nothing but values is written into them.
pub(crate) unsafe fn as_places<T: Copy>(out: &mut [T]) -> &mut [MaybeUninit<T>] {
    // SAFETY: it is the same borrowed slice, and the rest is asked here.
    unsafe { slice::from_raw_parts_mut(out.as_mut_ptr().cast(), out.len()) }
}

/// Cells as numbers, for a loop that writes each of them and reads none before.
///
/// # Safety
/// Each cell is written before it is read.
pub(crate) unsafe fn as_items<T: Copy>(out: &mut [MaybeUninit<T>]) -> &mut [T] {
    // SAFETY: it is the same borrowed slice, and the rest is asked here.
    unsafe { slice::from_raw_parts_mut(out.as_mut_ptr().cast(), out.len()) }
}

/// Tests that each item is fit to stand behind the one before it. Else it is the place of the first that isn't.
pub(crate) fn are_fit<T>(items: &[T], is_fit: impl Fn(&T, &T) -> bool) -> Result<(), usize> {
    let mut pairs = items.windows(2).map(|pair| is_fit(&pair[0], &pair[1]));
    // (a way out of the loop would stop each step)
    if pairs.clone().fold(true, |all, fit| all & fit) {
        return Ok(());
    }
    pairs.position(|fit| !fit).map_or(Ok(()), |at| Err(at + 1))
}
