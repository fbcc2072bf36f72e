//! What a system has elsewhere: memory, a serial port, the functions that a compiler calls, and an end.

use core::alloc::{GlobalAlloc, Layout};
use core::arch::{asm, global_asm};
use core::fmt::{self, Write};
use core::panic::PanicInfo;
use core::ptr::{null_mut, read_volatile};
use core::sync::atomic::{AtomicUsize, Ordering::Relaxed};

global_asm!(include_str!("boot.s"), options(att_syntax));

const MEMORY: core::ops::Range<usize> = 16 << 20..1_000 << 20;

/// Memory that is given once. [`Memory::forget`] takes all of it back.
pub struct Memory(AtomicUsize);

#[global_allocator]
pub static MEMORY_LEFT: Memory = Memory(AtomicUsize::new(MEMORY.start));

impl Memory {
    /// Nothing that was allocated may be used from here on.
    pub fn forget(&self) {
        self.0.store(MEMORY.start, Relaxed);
    }
}

// SAFETY: each piece begins where the one before ends, or later.
unsafe impl GlobalAlloc for Memory {
    unsafe fn alloc(&self, layout: Layout) -> *mut u8 {
        let at = self.0.load(Relaxed).next_multiple_of(layout.align());
        if at + layout.size() > MEMORY.end {
            return null_mut();
        }
        self.0.store(at + layout.size(), Relaxed);
        at as *mut u8
    }

    unsafe fn dealloc(&self, _: *mut u8, _: Layout) {}
}

fn put(port: u16, byte: u8) {
    // SAFETY: the ports are those of the serial line, and the one that ends Bochs.
    unsafe { asm!("out dx, al", in("dx") port, in("al") byte) };
}

/// The first serial line.
pub struct Serial;

impl Serial {
    /// Eight bits at a time.
    pub fn begin() {
        put(0x3FB, 3);
    }

    fn wait(bit: u8) {
        let mut state = 0_u8;
        while state & bit == 0 {
            // SAFETY: the port says whether the line takes another byte (0x20), and whether all are sent (0x40).
            unsafe { asm!("in al, dx", in("dx") 0x3FD_u16, out("al") state) };
        }
    }
}

impl Write for Serial {
    fn write_str(&mut self, text: &str) -> fmt::Result {
        for byte in text.bytes() {
            Self::wait(0x20);
            put(0x3F8, byte);
        }
        Ok(())
    }
}

/// Ends Bochs.
pub fn end() -> ! {
    Serial::wait(0x40);
    "Shutdown".bytes().for_each(|byte| put(0x8900, byte));
    loop {
        // SAFETY: no interrupt wakes it.
        unsafe { asm!("hlt") };
    }
}

#[panic_handler]
fn panicked(info: &PanicInfo) -> ! {
    let _ = writeln!(Serial, "{info}");
    end()
}

#[unsafe(no_mangle)]
extern "C" fn rust_eh_personality() {}

#[unsafe(no_mangle)]
extern "C" fn _Unwind_Resume() -> ! {
    end()
}

/// # Safety
/// As C has it. So have the others.
#[unsafe(no_mangle)]
unsafe extern "C" fn memcpy(to: *mut u8, from: *const u8, len: usize) -> *mut u8 {
    // SAFETY: this is what is asked.
    unsafe {
        asm!("rep movsb", inout("rcx") len => _, inout("rdi") to => _, inout("rsi") from => _)
    };
    to
}

#[unsafe(no_mangle)]
unsafe extern "C" fn memmove(to: *mut u8, from: *const u8, len: usize) -> *mut u8 {
    if len == 0 || to.addr() <= from.addr() {
        // SAFETY: this is what is asked. The lowest byte is moved first.
        return unsafe { memcpy(to, from, len) };
    }
    // SAFETY: this is what is asked. The highest byte is moved first.
    unsafe {
        asm!("std", "rep movsb", "cld", inout("rcx") len => _, inout("rdi") to.add(len - 1) => _,
            inout("rsi") from.add(len - 1) => _);
    }
    to
}

#[unsafe(no_mangle)]
unsafe extern "C" fn memset(to: *mut u8, byte: i32, len: usize) -> *mut u8 {
    // SAFETY: this is what is asked.
    unsafe {
        asm!("rep stosb", inout("rcx") len => _, inout("rdi") to => _, in("al") byte.to_le_bytes()[0])
    };
    to
}

#[unsafe(no_mangle)]
unsafe extern "C" fn memcmp(one: *const u8, other: *const u8, len: usize) -> i32 {
    for i in 0..len {
        // SAFETY: this is what is asked. (A loop over plain reads would become a call of this function.)
        let (a, b) = unsafe { (read_volatile(one.add(i)), read_volatile(other.add(i))) };
        if a != b {
            return i32::from(a) - i32::from(b);
        }
    }
    0
}

#[unsafe(no_mangle)]
unsafe extern "C" fn bcmp(one: *const u8, other: *const u8, len: usize) -> i32 {
    // SAFETY: this is what is asked.
    unsafe { memcmp(one, other, len) }
}
