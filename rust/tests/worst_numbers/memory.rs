//! A process that may take less than 1 GiB, and what a call asks of it.

use row_mask::Error;
use std::alloc::{GlobalAlloc, Layout, System};
use std::cell::Cell;
use std::fmt::Debug;
use std::sync::{Mutex, MutexGuard, PoisonError};

// What a call may ask for at once by a number that nothing has borne out, in bytes.
pub const LITTLE: usize = 4096;
pub const AHEAD: usize = 1 << 20;

/// The system's memory. It notes the largest request of each thread, refused ones too.
struct Noted;

thread_local! {
    static LARGEST: Cell<usize> = const { Cell::new(0) };
}

fn note(size: usize) {
    LARGEST.set(LARGEST.get().max(size));
}

// SAFETY: the system's memory is given as it is.
unsafe impl GlobalAlloc for Noted {
    unsafe fn alloc(&self, layout: Layout) -> *mut u8 {
        note(layout.size());
        // SAFETY: as is asked here.
        unsafe { System.alloc(layout) }
    }

    unsafe fn alloc_zeroed(&self, layout: Layout) -> *mut u8 {
        note(layout.size());
        // SAFETY: as is asked here.
        unsafe { System.alloc_zeroed(layout) }
    }

    unsafe fn realloc(&self, place: *mut u8, layout: Layout, size: usize) -> *mut u8 {
        note(size);
        // SAFETY: as is asked here.
        unsafe { System.realloc(place, layout, size) }
    }

    unsafe fn dealloc(&self, place: *mut u8, layout: Layout) {
        // SAFETY: as is asked here.
        unsafe { System.dealloc(place, layout) }
    }
}

#[global_allocator]
static NOTED: Noted = Noted;

/// From here on the process may take 1 GiB, its program and its threads with it. One test at a time has that.
pub fn limit() -> MutexGuard<'static, ()> {
    static ALONE: Mutex<()> = Mutex::new(());
    // (as Linux numbers it)
    const ADDRESS_SPACE: i32 = 9;
    unsafe extern "C" {
        fn setrlimit(resource: i32, limits: *const [u64; 2]) -> i32;
    }
    // SAFETY: what is read are two numbers: the limit, and how far it may be raised.
    assert_eq!(unsafe { setrlimit(ADDRESS_SPACE, &[1 << 30; 2]) }, 0);
    let alone = ALONE.lock().unwrap_or_else(PoisonError::into_inner);
    assert!(Vec::<u8>::new().try_reserve_exact(1 << 30).is_err());
    alone
}

/// What a call answers that asks for no more than `most` bytes at once.
#[track_caller]
pub fn within<T>(most: usize, call: impl FnOnce() -> T) -> T {
    LARGEST.set(0);
    let answer = call();
    let asked = LARGEST.get();
    assert!(asked <= most, "{asked} bytes were asked for");
    answer
}

/// What a call is refused with, which asks for little memory.
#[track_caller]
pub fn refused<T: Debug>(call: impl FnOnce() -> Result<T, Error>) -> Error {
    within(LITTLE, call).unwrap_err()
}

/// The call finds no memory for a bitmap of so many values.
#[track_caller]
pub fn lacks<T: Debug>(len: usize, call: impl FnOnce() -> Result<T, Error>) {
    assert_eq!(call().unwrap_err(), Error::OutOfMemory { bytes: len.div_ceil(8) });
}
