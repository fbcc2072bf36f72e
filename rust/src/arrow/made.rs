//! The memory of an array that is made.

use super::ArrowArray;
use crate::Error;
use alloc::alloc::dealloc;
use alloc::boxed::Box;
use alloc::vec::Vec;
use core::alloc::Layout;
use core::ffi::c_void;
use core::mem::{self, ManuallyDrop};
use core::ptr;

/// The memory of a list, whatever its items are.
pub(super) struct Buffer {
    start: *mut u8,
    layout: Layout,
}

impl Buffer {
    /// A buffer that is another array's, or absent.
    pub(super) const fn of_another(start: *const c_void) -> Buffer {
        Buffer { start: start.cast_mut().cast(), layout: Layout::new::<()>() }
    }
}

impl<T: Copy> From<Vec<T>> for Buffer {
    fn from(list: Vec<T>) -> Buffer {
        let mut list = ManuallyDrop::new(list);
        let layout = Layout::for_value(list.spare_capacity_mut());
        // SAFETY: a list's memory is as large as its items are and its room for more.
        let layout = unsafe {
            Layout::from_size_align_unchecked(
                layout.size() + size_of_val(&list[..]),
                layout.align(),
            )
        };
        Buffer { start: list.as_mut_ptr().cast(), layout }
    }
}

impl Drop for Buffer {
    fn drop(&mut self) {
        if self.layout.size() > 0 {
            // SAFETY: it was a list's, which was asked for in this way.
            unsafe { dealloc(self.start, self.layout) };
        }
    }
}

/// What an array is made of. It lies at the array's `private_data`.
pub(super) struct Made {
    pub buffers: Vec<Buffer>,
    starts: Vec<*const c_void>,
    children: Vec<ArrowArray>,
    places: Vec<*mut ArrowArray>,
    /// A dictionary, or whose bytes views are of, if it has a callback.
    kept: ArrowArray,
    /// Where that goes back to, as long as the call may fail.
    moved_from: *mut ArrowArray,
    pub has_dictionary: bool,
}

impl Made {
    /// An array with so many buffers, which are absent, no child yet, and room for so many children.
    pub(super) fn new(buffers: usize, children: usize) -> Result<Made, Error> {
        let (mut absent, starts) = (room(buffers)?, room(buffers)?);
        absent.resize_with(buffers, || Buffer::of_another(ptr::null()));
        Ok(Made {
            buffers: absent,
            starts,
            children: room(children)?,
            places: room(children)?,
            kept: NONE,
            moved_from: ptr::null_mut(),
            has_dictionary: false,
        })
    }

    /// Adds a child, for which there is room.
    pub(super) fn push(&mut self, child: ArrowArray) {
        self.children.push(child);
    }

    /// Keeps an array that was made for this one.
    pub(super) fn keep(&mut self, array: ArrowArray) {
        self.kept = array;
    }

    /// Keeps an array that is moved from there.
    ///
    /// # Safety
    ///
    /// It is there, was not moved, and has no reference that is used after this.
    pub(super) unsafe fn move_from(&mut self, place: *mut ArrowArray) {
        // SAFETY: what the caller owes.
        unsafe {
            self.kept = place.read();
            (*place).release = None;
        }
        self.moved_from = place;
    }

    /// The array of so many values, of which so many are null.
    pub(super) fn finish(mut self, length: usize, null_count: usize) -> Result<ArrowArray, Error> {
        let mut place = room(1)?;
        self.starts.extend(self.buffers.iter().map(|it| it.start.cast_const().cast::<c_void>()));
        self.places.extend(self.children.iter_mut().map(ptr::from_mut));
        let (n_buffers, n_children) = (self.starts.len(), self.places.len());
        let has_dictionary = self.has_dictionary;
        place.push(self);
        let made = Box::into_raw(place.into_boxed_slice()).cast::<Made>();
        // SAFETY: it is there, and nobody else has it.
        let (starts, places, kept) = unsafe {
            ((*made).starts.as_mut_ptr(), (*made).places.as_mut_ptr(), &raw mut (*made).kept)
        };
        Ok(ArrowArray {
            length: length.cast_signed() as i64,
            null_count: null_count.cast_signed() as i64,
            offset: 0,
            n_buffers: n_buffers.cast_signed() as i64,
            n_children: n_children.cast_signed() as i64,
            buffers: starts,
            children: if n_children == 0 { ptr::null_mut() } else { places },
            dictionary: if has_dictionary { kept } else { ptr::null_mut() },
            release: Some(release),
            private_data: made.cast(),
        })
    }
}

/// What is moved stays where it is: the call didn't fail.
///
/// # Safety
///
/// The array was made here, and nothing in it was moved on.
pub(super) unsafe fn keep_moved(array: *const ArrowArray) {
    // SAFETY: such an array has this as its private data, and so have its children.
    unsafe {
        let made = (*array).private_data.cast::<Made>();
        (*made).moved_from = ptr::null_mut();
        for i in 0..(*made).places.len() {
            keep_moved(*(*made).places.as_ptr().add(i));
        }
    }
}

/// An array that was released.
const NONE: ArrowArray = ArrowArray {
    length: 0,
    null_count: 0,
    offset: 0,
    n_buffers: 0,
    n_children: 0,
    buffers: ptr::null_mut(),
    children: ptr::null_mut(),
    dictionary: ptr::null_mut(),
    release: None,
    private_data: ptr::null_mut(),
};

impl Drop for Made {
    fn drop(&mut self) {
        for child in &mut self.children {
            // SAFETY: it was made here. Where it was moved, it says so.
            unsafe { child.release() };
        }
        if self.moved_from.is_null() {
            // SAFETY: the same of what was made here, or moved here.
            unsafe { self.kept.release() };
        } else {
            // SAFETY: it was moved from there during this call.
            unsafe { self.moved_from.write(mem::replace(&mut self.kept, NONE)) };
        }
    }
}

/// A list with room for so many items.
pub(super) fn room<T>(count: usize) -> Result<Vec<T>, Error> {
    let mut list = Vec::new();
    let bytes = count.saturating_mul(size_of::<T>());
    list.try_reserve_exact(count).map_err(|_| Error::OutOfMemory { bytes })?;
    Ok(list)
}

/// The callback of arrays that are made here.
unsafe extern "C" fn release(array: *mut ArrowArray) {
    // SAFETY: such an array has this as its private data, and is released once.
    unsafe {
        drop(Box::from_raw((*array).private_data.cast::<Made>()));
        (*array).release = None;
    }
}
