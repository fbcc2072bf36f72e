//! Lists whose growth is refused by an error.

use super::AllocError;
use super::byte_list::ByteList;
use alloc::alloc::{Layout, alloc, alloc_zeroed, realloc};
use alloc::vec::Vec;
use core::mem::{self, ManuallyDrop, MaybeUninit};

/// What grows a list, with an error where memory is refused. The list then stays as it was.
pub trait List<T>: Sized {
    /// An empty list with room for so many items.
    ///
    /// # Errors
    /// [`AllocError`] where memory is refused.
    fn with_room(count: usize) -> Result<Self, AllocError>;

    /// The items of a slice.
    ///
    /// # Errors
    /// [`AllocError`] where memory is refused.
    fn from_slice(items: &[T]) -> Result<Self, AllocError>
    where
        T: Copy;

    /// Puts an item behind the others.
    ///
    /// # Errors
    /// [`AllocError`] where memory is refused.
    fn try_push(&mut self, item: T) -> Result<(), AllocError>;

    /// Gives back the room that is left, where that isn't little and there is memory for a list without it.
    fn shrink_or_stay(&mut self)
    where
        T: Copy;

    /// Cuts the list to so many items, or fills it up to them.
    ///
    /// # Errors
    /// [`AllocError`] where memory is refused.
    fn try_resize(&mut self, count: usize, item: T) -> Result<(), AllocError>
    where
        T: Copy;
}

impl<T> List<T> for Vec<T> {
    #[inline]
    fn with_room(count: usize) -> Result<Vec<T>, AllocError> {
        let layout = Layout::array::<T>(count).map_err(|_| AllocError)?;
        if layout.size() == 0 {
            return Ok(Vec::new());
        }
        // (Rust's own call is made for lists that grow, and takes longer)
        // SAFETY: the size isn't 0.
        let items = unsafe { alloc(layout) };
        if items.is_null() {
            return Err(AllocError);
        }
        // SAFETY: the allocator gave them for the layout of so many items, and none is there yet.
        Ok(unsafe { Vec::from_raw_parts(items.cast(), 0, count) })
    }

    #[inline]
    fn from_slice(items: &[T]) -> Result<Vec<T>, AllocError>
    where
        T: Copy,
    {
        let mut list = Vec::with_room(items.len())?;
        list.extend_from_slice(items);
        Ok(list)
    }

    #[inline]
    fn try_push(&mut self, item: T) -> Result<(), AllocError> {
        if self.capacity() == 0 {
            // (Rust's own call asks for room for 4, and takes longer)
            *self = Vec::with_room(8)?;
        } else if self.len() == self.capacity() {
            self.try_reserve(1).map_err(|_| AllocError)?;
        }
        self.push(item);
        Ok(())
    }

    // (Rust's own call ends the program where memory is refused)
    fn shrink_or_stay(&mut self)
    where
        T: Copy,
    {
        let (count, room) = (self.len(), self.capacity());
        // (fewer bytes than a line of the cache aren't worth the call)
        if size_of::<T>() == 0 || count == 0 || (room - count) * size_of::<T>() < 64 {
            return;
        }
        let mut held = ManuallyDrop::new(mem::take(self));
        let items = held.as_mut_ptr();
        let layout = Layout::array::<T>(room).expect("the size of a list that is there");
        // SAFETY: the list lies where the allocator put it, for this layout; the size isn't 0, and less than that.
        let shrunk = unsafe { realloc(items.cast(), layout, count * size_of::<T>()) };
        // SAFETY: of a list that became shorter, the items are at the new place, with room for just them. Else it is as
        // it was.
        *self = unsafe {
            let (items, room) =
                if shrunk.is_null() { (items, room) } else { (shrunk.cast(), count) };
            Vec::from_raw_parts(items, count, room)
        };
    }

    #[inline]
    fn try_resize(&mut self, count: usize, item: T) -> Result<(), AllocError>
    where
        T: Copy,
    {
        self.try_reserve(count.saturating_sub(self.len())).map_err(|_| AllocError)?;
        self.resize(count, item);
        Ok(())
    }
}

/// What puts an item into room that a list has.
pub(crate) trait Reserved<T> {
    /// Puts it behind the others.
    fn push_reserved(&mut self, item: T);
}

impl<T> Reserved<T> for Vec<T> {
    #[allow(clippy::inline_always, reason = "it is a step of loops")]
    #[inline(always)]
    fn push_reserved(&mut self, item: T) {
        debug_assert!(self.len() < self.capacity());
        let count = self.len();
        // SAFETY: the contract of the proved caller: fewer items are there than have room.
        unsafe {
            self.as_mut_ptr().add(count).write(item);
            self.set_len(count + 1);
        }
    }
}

/// A list of so many items that are the same. Bytes that are 0 are asked for as such, so that none is written. Lists of
/// bytes have room for the number of those who will share them.
///
/// # Errors
/// [`AllocError`] where memory is refused.
#[inline]
pub fn filled<T: Fill>(item: T, count: usize) -> Result<T::List, AllocError> {
    item.filled(count)
}

/// Items that lists are filled with.
pub trait Fill: Copy {
    /// A list of them.
    type List;

    /// A list of so many of it.
    ///
    /// # Errors
    /// [`AllocError`] where memory is refused.
    fn filled(self, count: usize) -> Result<Self::List, AllocError>;
}

impl Fill for u8 {
    type List = ByteList;

    #[inline]
    fn filled(self, count: usize) -> Result<ByteList, AllocError> {
        ByteList::filled(self, count)
    }
}

impl Fill for usize {
    type List = Vec<usize>;

    fn filled(self, count: usize) -> Result<Vec<usize>, AllocError> {
        let mut list = Vec::with_room(count)?;
        list.resize(count, self);
        Ok(list)
    }
}

/// So many bytes that are 0, in a list that has no room for more.
///
/// # Errors
/// [`AllocError`] where memory is refused.
pub(crate) fn zeros(count: usize) -> Result<Vec<u8>, AllocError> {
    filled_within(0, count, count)
}

/// So many bytes that aren't written yet, in a list with room for so many.
#[inline]
pub(crate) fn unwritten(count: usize, room: usize) -> Result<Vec<u8>, AllocError> {
    let mut list = Vec::with_room(room.max(count))?;
    // SAFETY: there is room for so many. The proved callers write each byte and read none before, and no clause of theirs
    // depends on what is there.
    unsafe { list.set_len(count) };
    Ok(list)
}

/// So many bytes that are the same, in a list with room for so many.
#[inline]
pub(crate) fn filled_within(byte: u8, count: usize, room: usize) -> Result<Vec<u8>, AllocError> {
    if byte == 0 && count > FEW {
        return zeroed(count, room);
    }
    let mut list = Vec::with_room(room)?;
    let places = &mut list.spare_capacity_mut()[..count];
    match count {
        8..16 => fill_ends::<8>(places, byte),
        16..=32 => fill_ends::<16>(places, byte),
        _ => {
            list.resize(count, byte);
            return Ok(list);
        }
    }
    // SAFETY: each of so many places is among the first or the last ones.
    unsafe { list.set_len(count) };
    Ok(list)
}

/// Writes a byte to the first `N` places and to the last `N`. Of few places these are all, and no function is called.
#[inline]
fn fill_ends<const N: usize>(places: &mut [MaybeUninit<u8>], byte: u8) {
    if let Some(first) = places.first_chunk_mut::<N>() {
        *first = [MaybeUninit::new(byte); N];
    }
    if let Some(last) = places.last_chunk_mut::<N>() {
        *last = [MaybeUninit::new(byte); N];
    }
}

// So few bytes an allocator has at hand, where it may look for those that are 0.
const FEW: usize = 1024;

fn zeroed(count: usize, room: usize) -> Result<Vec<u8>, AllocError> {
    let layout = Layout::array::<u8>(room).map_err(|_| AllocError)?;
    // SAFETY: the layout is of more than no bytes.
    let bytes = unsafe { alloc_zeroed(layout) };
    if bytes.is_null() {
        return Err(AllocError);
    }
    // SAFETY: the allocator gave `room` bytes, at least `count`, for the layout of such a list, and all are 0.
    Ok(unsafe { Vec::from_raw_parts(bytes, count, room) })
}

/// Collects what an iterator yields.
pub trait Collect: Iterator + Sized {
    /// The items in their order.
    ///
    /// # Errors
    /// [`AllocError`] where memory is refused.
    #[inline]
    fn try_collected(self) -> Result<Vec<Self::Item>, AllocError> {
        let (least, most) = self.size_hint();
        let mut list = Vec::with_room(least)?;
        if most == Some(least) {
            // there is room for all
            list.extend(self);
            return Ok(list);
        }
        for item in self {
            list.try_push(item)?;
        }
        Ok(list)
    }
}

impl<I: Iterator> Collect for I {}

/// A slice that is lent, or a list.
#[derive(Debug)]
pub enum CowSlice<'a, T> {
    /// A slice of somebody else.
    Borrowed(&'a [T]),
    /// A list of its own.
    Owned(Vec<T>),
}

impl<T> CowSlice<'_, T> {
    /// The items.
    #[must_use]
    pub fn as_slice(&self) -> &[T] {
        self
    }
}

impl<T> core::ops::Deref for CowSlice<'_, T> {
    type Target = [T];

    fn deref(&self) -> &[T] {
        match self {
            CowSlice::Borrowed(items) => items,
            CowSlice::Owned(items) => items,
        }
    }
}

/// A list of what a slice has.
pub trait ToList<T> {
    /// The items in their order.
    ///
    /// # Errors
    /// [`AllocError`] where memory is refused.
    fn try_to_vec(&self) -> Result<Vec<T>, AllocError>;
}

impl<T: Copy> ToList<T> for [T] {
    fn try_to_vec(&self) -> Result<Vec<T>, AllocError> {
        Vec::from_slice(self)
    }
}

#[cfg(test)]
mod tests {
    use super::filled;

    /// Each place is written, also where other bytes were before.
    #[test]
    fn lists_are_filled() {
        for count in (0..80).chain([1024, 1025]) {
            for byte in [0_u8, 0xFF] {
                drop(filled(!byte, count).unwrap());
                let list = filled(byte, count).unwrap();
                assert_eq!((list.len(), list.iter().all(|it| *it == byte)), (count, true));
            }
        }
    }
}
