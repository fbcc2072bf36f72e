//! The module `vortex_mask::cached_list` of the proved sources, by hand: lists that a mask makes once. Here one is also made
//! behind a `&`, for all who share it and from any thread. What was made never changes, and isn't dropped before the whole.

use super::{AllocError, TryClone};
use alloc::vec::Vec;

/// A list, if it was made.
pub struct Cached<T> {
    list: Once<Vec<T>>,
}

/// A list that was made, or none.
#[inline]
pub fn cached<T>(list: Option<Vec<T>>) -> Cached<T> {
    Cached { list: list.map_or_else(Once::new, Once::from) }
}

impl<T> Cached<T> {
    /// The list, if it was made.
    #[inline]
    pub(crate) fn as_deref(&self) -> Option<&[T]> {
        self.list.get().map(Vec::as_slice)
    }
}

impl<T: Send> Cached<T> {
    /// The list, which is made where it wasn't yet. Of two threads that make it at once, both get the one that was done
    /// first: each call for a mask makes the same list, by a proved call.
    ///
    /// # Errors
    /// Where making it is refused, or memory to keep it: then it is as before.
    #[inline]
    pub(crate) fn get_or_make(
        &self,
        make: impl FnOnce() -> Result<Vec<T>, AllocError>,
    ) -> Result<&[T], AllocError> {
        match self.as_deref() {
            Some(list) => Ok(list),
            None => self.make(make),
        }
    }

    #[cold]
    fn make(&self, make: impl FnOnce() -> Result<Vec<T>, AllocError>) -> Result<&[T], AllocError> {
        let list = make()?;
        Ok(set_or_get(&self.list, list)?)
    }
}

/// A list that wasn't made isn't made by cloning.
impl<T: TryClone> TryClone for Cached<T> {
    fn clone(&self) -> Result<Cached<T>, AllocError> {
        Ok(cached(self.list.get().map(TryClone::clone).transpose()?))
    }
}

#[cfg(feature = "std")]
use locked::{Once, set_or_get};
#[cfg(not(feature = "std"))]
use race::{Once, set_or_get};

/// With `std` the first who sets a value has a lock for it. (`OnceLock` isn't made with a value: it is set as if others might
/// set it too, which takes as long as a request for memory.)
#[cfg(feature = "std")]
mod locked {
    use super::AllocError;
    use core::cell::UnsafeCell;
    use core::panic::RefUnwindSafe;
    use core::sync::atomic::{AtomicBool, Ordering};
    use std::sync::{Mutex, PoisonError};

    pub(super) struct Once<T> {
        // Written once, by the holder of `SETTING`, before `is_set` says that it is there.
        value: UnsafeCell<Option<T>>,
        is_set: AtomicBool,
    }

    // One for all: it is held while a value is moved, and not while it is made.
    static SETTING: Mutex<()> = Mutex::new(());

    // SAFETY: others see the value only when it doesn't change any more. It may come from one thread and be dropped by another.
    unsafe impl<T: Send + Sync> Sync for Once<T> {}
    // (it is set, or it isn't: nobody sees what is between)
    impl<T: RefUnwindSafe> RefUnwindSafe for Once<T> {}

    impl<T> Once<T> {
        pub(super) const fn new() -> Once<T> {
            Once { value: UnsafeCell::new(None), is_set: AtomicBool::new(false) }
        }

        #[inline]
        pub(super) fn get(&self) -> Option<&T> {
            if !self.is_set.load(Ordering::Acquire) {
                return None;
            }
            // SAFETY: it was set before that was said, and changes and drops only with `self`.
            let value = unsafe { &*self.value.get() };
            // SAFETY: as above.
            Some(unsafe { value.as_ref().unwrap_unchecked() })
        }
    }

    impl<T> From<T> for Once<T> {
        #[inline]
        fn from(value: T) -> Once<T> {
            Once { value: UnsafeCell::new(Some(value)), is_set: AtomicBool::new(true) }
        }
    }

    /// What was set first: this, or what stood there before.
    #[allow(clippy::unnecessary_wraps, reason = "without `std` it takes memory")]
    pub(super) fn set_or_get<T: Send>(once: &Once<T>, value: T) -> Result<&T, AllocError> {
        let mut own = Some(value);
        let setting = SETTING.lock().unwrap_or_else(PoisonError::into_inner);
        if !once.is_set.load(Ordering::Relaxed) {
            // SAFETY: nobody else sets it meanwhile, and nobody sees it before it is said to be there.
            unsafe { *once.value.get() = own.take() };
            once.is_set.store(true, Ordering::Release);
        }
        drop(setting);
        // SAFETY: it was set above, or before that.
        Ok(unsafe { once.get().unwrap_unchecked() })
    }
}

/// Without `std` there is no lock to wait at. So a value that is set behind a `&` has memory of its own, and the first
/// pointer to such stays.
#[cfg(any(not(feature = "std"), test))]
mod race {
    use super::AllocError;
    use alloc::boxed::Box;
    use alloc::vec::Vec;
    use core::marker::PhantomData;
    use core::ptr;
    use core::sync::atomic::{AtomicPtr, Ordering};

    pub(super) struct Once<T> {
        given: Option<T>,
        // Null, or of a box of one value, which is this one's alone.
        set: AtomicPtr<T>,
        owns: PhantomData<T>,
    }

    impl<T> Once<T> {
        pub(super) const fn new() -> Once<T> {
            Once { given: None, set: AtomicPtr::new(ptr::null_mut()), owns: PhantomData }
        }

        #[inline]
        pub(super) fn get(&self) -> Option<&T> {
            if self.given.is_some() {
                return self.given.as_ref();
            }
            let set = self.set.load(Ordering::Acquire);
            // SAFETY: where it isn't null, it was released behind the writing of its value, which changes and drops only
            // with `self`.
            unsafe { set.as_ref() }
        }
    }

    impl<T> From<T> for Once<T> {
        fn from(value: T) -> Once<T> {
            Once { given: Some(value), set: AtomicPtr::default(), owns: PhantomData }
        }
    }

    impl<T> Drop for Once<T> {
        fn drop(&mut self) {
            let set = *self.set.get_mut();
            if !set.is_null() {
                // SAFETY: it is of a box of one value, and nobody else has it.
                drop(unsafe { boxed_again(set) });
            }
        }
    }

    /// The box of one value that `set_or_get` took apart.
    ///
    /// # Safety
    /// The pointer is of one, which isn't a box again yet.
    unsafe fn boxed_again<T>(value: *mut T) -> Box<[T]> {
        // SAFETY: by this function's own condition.
        unsafe { Box::from_raw(ptr::slice_from_raw_parts_mut(value, 1)) }
    }

    /// What was set first: this, or what stood there before.
    pub(super) fn set_or_get<T: Send>(once: &Once<T>, value: T) -> Result<&T, AllocError> {
        let mut own = Vec::new();
        own.try_reserve_exact(1).map_err(|_| AllocError)?;
        own.push(value);
        let own = Box::into_raw(own.into_boxed_slice()).cast::<T>();
        let (null, acquire) = (ptr::null_mut(), Ordering::Acquire);
        let kept = match once.set.compare_exchange(null, own, Ordering::AcqRel, acquire) {
            Ok(_) => own,
            Err(first) => {
                // SAFETY: it was made above, and nobody else has seen it.
                drop(unsafe { boxed_again(own) });
                first
            }
        };
        // SAFETY: it isn't null, was released behind the writing of its value, and changes and drops only with `once`.
        Ok(unsafe { &*kept })
    }
}

#[cfg(test)]
mod tests {
    use super::{AllocError, cached, race};
    use alloc::sync::Arc;
    use alloc::vec;
    use alloc::vec::Vec;
    use std::sync::Barrier;
    use std::thread;

    const THREADS: usize = 8;

    /// What each of several threads gets that call at once.
    fn at_once<R: Send>(call: impl Fn(usize) -> R + Sync) -> Vec<R> {
        let start = Barrier::new(THREADS);
        let asked = |number| {
            start.wait();
            call(number)
        };
        thread::scope(|scope| {
            let asked = &asked;
            let threads: Vec<_> =
                (0..THREADS).map(|number| scope.spawn(move || asked(number))).collect();
            threads.into_iter().map(|it| it.join().unwrap()).collect()
        })
    }

    /// All threads get one list, and the others are dropped.
    #[test]
    fn the_first_list_is_everybodys() {
        for _ in 0..200 {
            let (one, list) = (Arc::new(()), cached::<Arc<()>>(None));
            let got = at_once(|_| {
                let made = list.get_or_make(|| Ok(vec![one.clone(), one.clone()]));
                made.unwrap().as_ptr() as usize
            });
            assert!(got.iter().all(|it| *it == got[0]));
            assert_eq!(Arc::strong_count(&one), 3);
            let same = list.get_or_make(|| unreachable!()).unwrap();
            assert_eq!(same.as_ptr() as usize, got[0]);
            drop(list);
            assert_eq!(Arc::strong_count(&one), 1);
        }
    }

    /// The same without `std`.
    #[test]
    fn the_first_value_is_everybodys() {
        for _ in 0..200 {
            let (counted, once) = (Arc::new(()), race::Once::new());
            let got = at_once(|number| {
                let value = (number, counted.clone());
                let kept = race::set_or_get(&once, value).unwrap();
                assert_eq!(once.get().unwrap().0, kept.0);
                kept.0
            });
            assert!(got.iter().all(|it| *it == got[0]));
            assert_eq!(Arc::strong_count(&counted), 2);
            drop(once);
            assert_eq!(Arc::strong_count(&counted), 1);
        }
        let given = race::Once::from(vec![7]);
        assert_eq!(given.get(), Some(&vec![7]));
    }

    #[test]
    fn a_list_that_is_refused_leaves_nothing() {
        let list = cached::<u8>(None);
        assert_eq!(list.get_or_make(|| Err(AllocError)), Err(AllocError));
        assert_eq!(list.as_deref(), None);
        assert_eq!(list.get_or_make(|| Ok(vec![3])), Ok(&[3][..]));
        assert_eq!(list.as_deref(), Some(&[3][..]));
        assert_eq!(cached(Some(vec![5_u8])).as_deref(), Some(&[5][..]));
    }
}
