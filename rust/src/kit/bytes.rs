//! Bytes that several buffers share.

use super::byte_list::ByteList;
use super::few_bytes::{FEW, FewBytes};
use super::{AllocError, TryClone};
use alloc::boxed::Box;
use alloc::vec::Vec;
use core::fmt;
use core::hash::{Hash, Hasher};
use core::mem::{self, ManuallyDrop};
use core::ops::Deref;
use core::ptr::{self, NonNull};
use core::slice;
use core::sync::atomic::{AtomicUsize, Ordering};

/// Bytes that never change while they are shared. A clone shares them, but for few: up to 16 each holder has itself.
pub struct Bytes {
    len: usize,
    held: Held,
}

/// The parts of a list of more than few bytes. Each holder has them, and only the last one makes the list of them again, which
/// has one owner. Few bytes lie in the first two parts themselves. (A union is moved as a block, and right after its parts were
/// written a processor waits for that.)
#[derive(Clone, Copy)]
#[repr(C)]
struct Held {
    first: *mut u8,
    capacity: usize,
    // how many holders there are: behind the bytes, where the list has room for that, and else in memory of its own
    holders: *mut AtomicUsize,
}

// SAFETY: bytes that are shared are only read while there are several holders, whose number is atomic.
unsafe impl Send for Bytes {}
// SAFETY: as above.
unsafe impl Sync for Bytes {}

/// So many bytes of a list hold these, and behind them the number of their holders, where they begin at a whole word.
#[inline]
pub(crate) fn room_to_share(count: usize) -> usize {
    if count == 0 {
        0
    } else {
        count.saturating_add(2 * size_of::<AtomicUsize>() - 1) & !(size_of::<AtomicUsize>() - 1)
    }
}

/// Where the number of holders has its place behind the bytes of a list.
#[inline]
fn place_behind(list: &mut Vec<u8>) -> Option<NonNull<AtomicUsize>> {
    let room = list.spare_capacity_mut();
    let before = room.as_ptr().addr().wrapping_neg() % align_of::<AtomicUsize>();
    let place = room.get_mut(before..)?.first_chunk_mut::<{ size_of::<AtomicUsize>() }>()?;
    Some(NonNull::from(place).cast())
}

impl Bytes {
    /// No bytes.
    #[must_use]
    #[inline]
    pub fn new() -> Bytes {
        Bytes::from(FewBytes::first([0; FEW], 0))
    }

    /// The bytes of a list, which aren't copied where they are more than 16.
    ///
    /// # Errors
    /// None: Rust's `Box` aborts where memory is refused for the number of holders.
    #[inline]
    pub fn from_vec(bytes: impl Into<ByteList>) -> Result<Bytes, AllocError> {
        Ok(Bytes::from(bytes.into()))
    }

    /// All bytes.
    #[must_use]
    #[inline]
    pub fn as_slice(&self) -> &[u8] {
        // (both are pointers, so that the compiler needs no branch)
        let first = match self.shared() {
            Some(shared) => shared.first.cast_const(),
            None => (&raw const self.held).cast(),
        };
        // SAFETY: while there is a holder, so many bytes lie there, and nobody changes them or lets go of them. Few lie in
        // the first parts, which are 16 bytes one after the other.
        unsafe { slice::from_raw_parts(first, self.len) }
    }

    // Where more than few bytes lie.
    #[inline]
    fn shared(&self) -> Option<&Held> {
        (self.len > FEW).then_some(&self.held)
    }

    #[inline]
    pub(crate) fn try_into_mut(self) -> Result<BytesMut, Bytes> {
        let bytes = match self.shared() {
            None => {
                let words = [self.held.first.addr(), self.held.capacity].map(usize::to_ne_bytes);
                let mut few = [0; FEW];
                few.copy_from_slice(words.as_flattened());
                ByteList::Few(FewBytes::first(few, self.len))
            }
            // (where there is one, nobody can add another)
            // SAFETY: they are more than few.
            Some(shared) if unsafe { shared.holders() }.load(Ordering::Acquire) != 1 => {
                return Err(self);
            }
            // SAFETY: this is the only holder, and it isn't dropped.
            Some(shared) => ByteList::Many(unsafe { shared.take_list(self.len) }),
        };
        mem::forget(self);
        Ok(BytesMut { bytes, first: 0 })
    }
}

impl Held {
    // Of more than few bytes.
    // SAFETY of a call: they are.
    #[inline]
    unsafe fn holders(&self) -> &AtomicUsize {
        // SAFETY: it is there as long as a holder.
        unsafe { &*self.holders }
    }

    // Takes the list of so many bytes, and lets go of the number of holders.
    // SAFETY of a call: so many they are, there is no other holder, and this one isn't used any more.
    #[inline]
    unsafe fn take_list(&self, len: usize) -> Vec<u8> {
        // SAFETY: these are the parts of a list that nobody has, and nobody makes it again, as is asked.
        let mut list = unsafe { Vec::from_raw_parts(self.first, len, self.capacity) };
        if place_behind(&mut list).is_none() {
            // SAFETY: there was no place for it either when it was made.
            drop(unsafe { Box::from_raw(self.holders) });
        }
        list
    }
}

impl Clone for Bytes {
    #[inline]
    fn clone(&self) -> Bytes {
        if let Some(shared) = self.shared() {
            // SAFETY: they are more than few.
            let before = unsafe { shared.holders() }.fetch_add(1, Ordering::Relaxed);
            // (as `Arc` has it: only a program that forgets clones can come so far)
            assert!(before < usize::MAX / 2, "too many holders");
        }
        Bytes { ..*self }
    }
}

impl Drop for Bytes {
    #[inline]
    fn drop(&mut self) {
        let Some(shared) = self.shared() else { return };
        // (where there is one, nobody can add another)
        // SAFETY: they are more than few.
        let holders = unsafe { shared.holders() };
        if holders.load(Ordering::Acquire) == 1 || holders.fetch_sub(1, Ordering::AcqRel) == 1 {
            // SAFETY: this was the last holder.
            drop(unsafe { shared.take_list(self.len) });
        }
    }
}

/// Bytes that nobody else holds, from one of them on.
pub struct BytesMut {
    bytes: ByteList,
    first: usize,
}

impl Default for Bytes {
    #[inline]
    fn default() -> Bytes {
        Bytes::new()
    }
}

impl PartialEq for Bytes {
    fn eq(&self, other: &Bytes) -> bool {
        self.as_slice() == other.as_slice()
    }
}

impl Eq for Bytes {}

impl Hash for Bytes {
    fn hash<H: Hasher>(&self, state: &mut H) {
        self.as_slice().hash(state);
    }
}

impl From<FewBytes> for Bytes {
    #[inline]
    fn from(bytes: FewBytes) -> Bytes {
        let all = bytes.all();
        let (first, second) = all.split_at(size_of::<usize>());
        let word = |bytes: &[u8]| bytes.first_chunk().map_or(0, |word| usize::from_ne_bytes(*word));
        let (first, capacity) = (ptr::without_provenance_mut(word(first)), word(second));
        Bytes { len: bytes.len(), held: Held { first, capacity, holders: ptr::null_mut() } }
    }
}

impl From<ByteList> for Bytes {
    #[inline]
    fn from(bytes: ByteList) -> Bytes {
        match bytes {
            ByteList::Few(few) => few.into(),
            ByteList::Many(list) => list.into(),
        }
    }
}

/// The bytes, which aren't copied where they are more than 16.
impl From<Vec<u8>> for Bytes {
    #[inline]
    fn from(mut list: Vec<u8>) -> Bytes {
        if let Some(few) = FewBytes::of(&list) {
            return few.into();
        }
        let one = AtomicUsize::new(1);
        let holders = match place_behind(&mut list) {
            Some(place) => {
                // SAFETY: it is room of the list, for just that.
                unsafe { place.write(one) };
                place
            }
            None => NonNull::from(Box::leak(Box::new(one))),
        };
        let mut list = ManuallyDrop::new(list);
        // (a pointer to the slice would be one to no room behind it)
        let (first, capacity) = (list.as_mut_ptr(), list.capacity());
        let held = Held { first, capacity, holders: holders.as_ptr() };
        Bytes { len: list.len(), held }
    }
}

/// A copy of the bytes.
impl From<&[u8]> for Bytes {
    #[inline]
    fn from(bytes: &[u8]) -> Bytes {
        FewBytes::of(bytes).map_or_else(|| Bytes::from(bytes.to_vec()), Bytes::from)
    }
}

/// The bytes, which aren't copied where they are more than 16.
impl From<Box<[u8]>> for Bytes {
    #[inline]
    fn from(bytes: Box<[u8]>) -> Bytes {
        Bytes::from(bytes.into_vec())
    }
}

impl FromIterator<u8> for Bytes {
    #[inline]
    fn from_iter<I: IntoIterator<Item = u8>>(bytes: I) -> Bytes {
        Bytes::from(Vec::from_iter(bytes))
    }
}

impl Deref for Bytes {
    type Target = [u8];

    #[inline]
    fn deref(&self) -> &[u8] {
        self.as_slice()
    }
}

impl AsRef<[u8]> for Bytes {
    #[inline]
    fn as_ref(&self) -> &[u8] {
        self.as_slice()
    }
}

impl fmt::Debug for Bytes {
    fn fmt(&self, f: &mut fmt::Formatter<'_>) -> fmt::Result {
        self.as_slice().fmt(f)
    }
}

impl TryClone for Bytes {
    #[inline]
    fn clone(&self) -> Result<Bytes, AllocError> {
        Ok(Clone::clone(self))
    }
}

impl BytesMut {
    #[inline]
    pub(crate) fn advance(&mut self, count: usize) {
        self.first += count;
    }

    #[inline]
    pub(crate) fn as_mut_slice(&mut self) -> &mut [u8] {
        &mut self.bytes[self.first..]
    }

    // What stands before the first is moved away: a buffer begins at the bytes' own first one.
    #[inline]
    pub(crate) fn freeze(self) -> Result<Bytes, AllocError> {
        Bytes::from_vec(self.into_list())
    }

    // The list of them, from which what stands before the first is moved away.
    #[inline]
    pub(crate) fn into_list(self) -> ByteList {
        match self.bytes {
            ByteList::Few(few) => ByteList::Few(few.from(self.first)),
            ByteList::Many(mut list) => {
                list.drain(..self.first);
                ByteList::Many(list)
            }
        }
    }
}

impl Deref for BytesMut {
    type Target = [u8];

    #[inline]
    fn deref(&self) -> &[u8] {
        &self.bytes[self.first..]
    }
}

#[cfg(test)]
mod tests {
    use super::{Bytes, FEW};
    use alloc::vec::Vec;

    /// Clones lie where the bytes do, and only the last holder gets them to change. Few bytes each holder has itself.
    #[test]
    fn the_last_holder_has_them_alone() {
        for count in 0..=3 * FEW {
            let list: Vec<u8> = (7..).take(count).collect();
            let bytes = Bytes::from(list.clone());
            let (one, other) = (bytes.clone(), bytes.clone().clone());
            assert_eq!((&*one, &one, &other), (&*list, &bytes, &bytes));
            assert_eq!(one.as_ptr() == other.as_ptr(), count > FEW);
            drop(one);
            let mut own = match bytes.try_into_mut() {
                Ok(own) => own,
                Err(shared) => {
                    assert!(count > FEW);
                    drop(other.clone());
                    drop(other);
                    shared.try_into_mut().expect("nobody else holds them")
                }
            };
            for first in 1..=count.min(2) {
                own.advance(1);
                assert_eq!((own.len(), own.first()), (count - first, list.get(first)));
            }
            own.as_mut_slice().fill(1);
            assert_eq!(*own.freeze().unwrap(), *alloc::vec![1; count - count.min(2)]);
        }
        assert_eq!((Bytes::new().clone(), Bytes::new().len()), (Bytes::default(), 0));
    }

    /// A list that has the bytes isn't copied, with room behind them and without.
    #[test]
    fn lists_stay_where_they_are() {
        for room in FEW + 1..4 * FEW {
            let mut list = Vec::with_capacity(room);
            list.extend(0..=16);
            let first = list.as_ptr();
            let bytes = Bytes::from(list);
            assert_eq!(bytes.as_ptr(), first);
            let list = bytes.try_into_mut().ok().map(|own| own.into_list().into_vec());
            assert_eq!(list.map(|it| (it.as_ptr(), it.len())), Some((first, 17)));
        }
    }

    /// Threads that clone at once, before anybody did, agree on one count.
    #[test]
    fn threads_share_them() {
        for round in 0..=u8::MAX {
            let bytes = Bytes::from(&[round; 100][..]);
            let start = std::sync::Barrier::new(3);
            std::thread::scope(|scope| {
                for _ in 0..3 {
                    scope.spawn(|| {
                        start.wait();
                        let clones = [bytes.clone(), bytes.clone()];
                        assert!(clones.iter().all(|it| it[99] == round));
                    });
                }
            });
            let own = bytes.try_into_mut().expect("all clones are gone");
            assert_eq!((own.len(), own[99]), (100, round));
        }
    }
}
