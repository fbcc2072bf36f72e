//! The library of `row_mask.h`, of the same proved sources as the shipped ones: as plain Rust, compiled by cargo.
#![cfg_attr(not(feature = "std"), no_std)]

extern crate alloc;

#[cfg(not(target_pointer_width = "64"))]
compile_error!("row_mask.h is for machines of 64 bits");

/// Exports functions of the proved sources. A program for Linux that is compiled for x86-64-v3 calls them by the second
/// name, by which the shipped library has its loops for that.
macro_rules! export {
    ($($name:ident, $v3:ident($($parameter:ident: $kind:ty),*) -> $answer:ty = ($($given:expr),*);)*) => {$(
        #[unsafe(no_mangle)]
        #[inline(never)]
        unsafe extern "C" fn $name($($parameter: $kind),*) -> $answer {
            crate::proved::mask_c::$name($($given),*)
        }

        #[cfg(all(target_os = "linux", target_arch = "x86_64"))]
        #[unsafe(no_mangle)]
        unsafe extern "C" fn $v3($($parameter: $kind),*) -> $answer {
            $name($($parameter),*)
        }
    )*};
}

#[allow(unsafe_op_in_unsafe_fn, reason = "each hands on what its caller owes")]
mod exports;
#[allow(dead_code, unused_imports, unused_macros, reason = "the package of Rust has more of it")]
#[path = "../../rust/src"]
mod rust {
    pub mod conditions;
    pub mod kit;
    pub mod native;
    pub mod proved;
    pub mod stand_ins;
}

use core::slice;
use rust::{conditions, kit, native, proved};

// All that is unsafe here rests on what `row_mask.h` asks of a caller. Each pointer points to as many items as the argument
// behind it says, aligned, and nothing else writes to these during the call. What is written overlaps nothing else that
// is passed. And what the comment of a function asks is so.

/// The items that a pointer points to. Where there are none, it may be null.
unsafe fn read<'a, T>(items: *const T, count: usize) -> &'a [T] {
    // SAFETY: what the caller owes, as above.
    if count == 0 { &[] } else { unsafe { slice::from_raw_parts(items, count) } }
}

/// The same of items that are written.
unsafe fn write<'a, T>(items: *mut T, count: usize) -> &'a mut [T] {
    // SAFETY: as above. They may be uninitialised, but they are numbers, and each is written before it is read.
    if count == 0 { &mut [] } else { unsafe { slice::from_raw_parts_mut(items, count) } }
}

/// What a library without `std` has in its place: no memory, and an end where an index lies out of bounds.
#[cfg(not(feature = "std"))]
mod without_std {
    use core::alloc::{GlobalAlloc, Layout};
    use core::panic::PanicInfo;
    use core::ptr;

    struct NoMemory;

    // SAFETY: it refuses each request, so that nothing is ever given back.
    unsafe impl GlobalAlloc for NoMemory {
        unsafe fn alloc(&self, _: Layout) -> *mut u8 {
            ptr::null_mut()
        }

        unsafe fn dealloc(&self, _: *mut u8, _: Layout) {}
    }

    #[global_allocator]
    static NO_MEMORY: NoMemory = NoMemory;

    // SAFETY: so the C library declares it.
    unsafe extern "C" {
        safe fn abort() -> !;
    }

    #[panic_handler]
    fn end(_: &PanicInfo) -> ! {
        abort()
    }
}
