//! Where the system hands the program its words, and takes its lines: without what Rust does before `main`. That opens
//! outputs which are closed, so that a line which nobody reads would count as written, and aborts where it finds no memory
//! for the arguments.

use row_mask::kit::{List, Text};
use std::ffi::{CStr, c_char, c_int};
use std::fs::File;
use std::io;
use std::mem::ManuallyDrop;
use std::os::fd::{FromRawFd, RawFd};
use std::slice;

const OUT: RawFd = 1;
const ERR: RawFd = 2;

/// What ends a program that writes to a pipe which nobody reads, and what has the write fail in its place.
const SIGPIPE: c_int = 13;
const SIG_IGN: usize = 1;

unsafe extern "C" {
    fn signal(number: c_int, handler: usize) -> usize;
}

#[unsafe(no_mangle)]
extern "C" fn main(count: c_int, words: *const *const c_char) -> c_int {
    // SAFETY: no handler is set, and the system hands over so many words.
    let words = unsafe {
        signal(SIGPIPE, SIG_IGN);
        slice::from_raw_parts(words, usize::try_from(count).unwrap_or(0))
    };
    let texts = read(words.get(1..).unwrap_or_default());
    let status = texts.and_then(|texts| crate::run(&texts, &mut *output(OUT), &mut *output(ERR)));
    status.unwrap_or(crate::NOT_READ_OR_WRITTEN).into()
}

/// The texts of words.
fn read(words: &[*const c_char]) -> io::Result<Vec<String>> {
    let mut texts = Vec::with_room(words.len())?;
    for word in words {
        // SAFETY: the system hands over words that a 0 ends.
        let text = unsafe { CStr::from_ptr(*word) }.to_str();
        texts.push(String::from_str(text.map_err(|_| io::ErrorKind::InvalidInput)?)?);
    }
    Ok(texts)
}

/// An output of the program, which stays open.
fn output(number: RawFd) -> ManuallyDrop<File> {
    // SAFETY: nothing in the program closes it.
    ManuallyDrop::new(unsafe { File::from_raw_fd(number) })
}
