//! A process that is refused memory.

use super::lent::{Column, Random};
use super::nested::{filtered as filtered_by, refused};
use super::owned::{FORMATS, arrays, make};
use super::{Chosen, filtered};
use row_mask::arrow::{ArrowError, filter};
use row_mask::{BitmapBuf, Error, Selection};
use std::alloc::{GlobalAlloc, Layout, System};
use std::cell::Cell;

/// The system's memory, of which each thread may be refused one request.
struct Refusing;

thread_local! {
    /// How many requests are answered before one is refused, or none if none is.
    static LEFT: Cell<Option<usize>> = const { Cell::new(None) };
}

fn is_refused() -> bool {
    let left = LEFT.get();
    LEFT.set(left.and_then(|left| left.checked_sub(1)));
    left == Some(0)
}

// SAFETY: the system's memory is given as it is, or refused.
unsafe impl GlobalAlloc for Refusing {
    unsafe fn alloc(&self, layout: Layout) -> *mut u8 {
        // SAFETY: as is asked here.
        if is_refused() { std::ptr::null_mut() } else { unsafe { System.alloc(layout) } }
    }

    unsafe fn alloc_zeroed(&self, layout: Layout) -> *mut u8 {
        // SAFETY: as is asked here.
        if is_refused() { std::ptr::null_mut() } else { unsafe { System.alloc_zeroed(layout) } }
    }

    unsafe fn dealloc(&self, place: *mut u8, layout: Layout) {
        // SAFETY: as is asked here.
        unsafe { System.dealloc(place, layout) }
    }
}

#[global_allocator]
static REFUSING: Refusing = Refusing;

#[test]
fn each_request_for_memory_is_refused_in_turn() {
    let mut random = Random(8);
    let column = Column::new(&mut random, "+s", 50, 3, 1);
    let chosen = Chosen::new(&mut random, 50, 128);
    LEFT.set(Some(usize::MAX));
    let mut made = filtered(&column, &chosen);
    let requests = usize::MAX - LEFT.take().unwrap();
    // SAFETY: it is released once.
    unsafe { made.release() };
    for request in 0..requests {
        LEFT.set(Some(request));
        // SAFETY: the column is as Arrow says.
        let answer = unsafe { filter(&column.schema, &column.array, &chosen.rows) };
        let error = answer.unwrap_err();
        assert!(matches!(error, ArrowError::Refused(Error::OutOfMemory { .. })), "{error}");
    }
    assert!(requests > 20, "{requests}");
}

/// A column that was not moved has all that it had.
#[test]
fn each_request_for_what_lies_in_others_is_refused_in_turn() {
    let mut all = 0;
    for (format, moves) in (0..FORMATS.len()).flat_map(|format| [(format, false), (format, true)]) {
        let again = || make(&mut Random(20 + format as u64), format, 50, 0);
        let (mut column, chosen) = (again(), Chosen::new(&mut Random(9), 50, 128));
        LEFT.set(Some(usize::MAX));
        let mut made = filtered_by(&mut column, &chosen, moves).unwrap();
        let requests = usize::MAX - LEFT.take().unwrap();
        // SAFETY: each is released once.
        unsafe {
            made.release();
            column.array.release();
        }
        column = again();
        for request in 0..requests {
            LEFT.set(Some(request));
            let error = refused(&mut column, &chosen, moves);
            assert!(matches!(error, ArrowError::Refused(Error::OutOfMemory { .. })), "{error}");
        }
        // SAFETY: it is released once.
        unsafe { column.array.release() };
        assert_eq!(arrays(), 0);
        all += requests;
    }
    assert!(all > 200, "{all}");
}

/// The requests of a selection are for a copy of its bitmap, and a list beside it.
#[test]
fn each_request_of_a_selection_is_refused_in_turn() {
    let third = |i: usize| i.is_multiple_of(3);
    let rows: [(BitmapBuf, &[usize]); 4] = [
        (BitmapBuf::from_fn(1000, third), &[125, 4 * 334]),
        (BitmapBuf::from_fn(1000, |i| i % 100 > 0), &[125, 16 * 10]),
        (BitmapBuf::from_fn(60, third), &[8]),
        (BitmapBuf::default(), &[]),
    ];
    for (bitmap, sizes) in rows {
        let bitmap = bitmap.as_bitmap();
        for (request, bytes) in sizes.iter().enumerate() {
            LEFT.set(Some(request));
            let error = Selection::try_new(bitmap).unwrap_err();
            assert_eq!(error, Error::OutOfMemory { bytes: *bytes });
        }
        LEFT.set(Some(sizes.len()));
        let selection = Selection::try_new(bitmap).unwrap();
        assert_eq!(LEFT.take(), Some(0));
        let (indices, all) = (bitmap.to_indices(), (0..bitmap.len()).collect::<Vec<_>>());
        assert_eq!(selection.choose(&all).unwrap(), indices);
    }
}
