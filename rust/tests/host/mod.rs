//! What programs of the proved sources take of the machine, in the place of Rattle's handle: text to read, and lines to
//! print.
#![allow(dead_code, unused_imports, unused_macros, clippy::unnecessary_wraps)]

use std::cell::RefCell;
use std::fmt::Arguments;
use std::io::Write;

pub mod io {
    pub use std::io::{Error, Result};
}

pub mod env {
    use super::{Host, io};

    /// The program's arguments, its name first.
    pub fn args(_: &impl Host) -> io::Result<std::env::Args> {
        Ok(std::env::args())
    }
}

pub use std::io::BufRead;

/// What a program may do.
pub trait Host {
    fn print_line(&self, line: Arguments<'_>) -> io::Result<()>;

    fn eprint_line(&self, line: Arguments<'_>) -> io::Result<()>;

    fn reader(&self) -> Box<dyn BufRead>;
}

pub use Host as AllocGlobal;
pub use Host as Env;
pub use Host as Eprint;
pub use Host as Input;
pub use Host as Print;

/// The machine itself: standard input and output.
pub struct HostRuntime;

impl Host for HostRuntime {
    fn print_line(&self, line: Arguments<'_>) -> io::Result<()> {
        writeln!(std::io::stdout(), "{line}")
    }

    fn eprint_line(&self, line: Arguments<'_>) -> io::Result<()> {
        writeln!(std::io::stderr(), "{line}")
    }

    fn reader(&self) -> Box<dyn BufRead> {
        Box::new(std::io::stdin().lock())
    }
}

/// A text to read, and what was printed.
pub struct Kept {
    pub input: &'static str,
    pub printed: RefCell<String>,
}

impl Kept {
    pub fn new(input: &'static str) -> Kept {
        Kept { input, printed: RefCell::new(String::new()) }
    }
}

impl Host for Kept {
    fn print_line(&self, line: Arguments<'_>) -> io::Result<()> {
        use std::fmt::Write;
        let mut printed = self.printed.borrow_mut();
        writeln!(printed, "{line}").map_err(std::io::Error::other)
    }

    fn eprint_line(&self, line: Arguments<'_>) -> io::Result<()> {
        self.print_line(line)
    }

    fn reader(&self) -> Box<dyn BufRead> {
        Box::new(self.input.as_bytes())
    }
}

/// A reader of lines.
pub struct BufReader(Box<dyn BufRead>);

impl BufReader {
    pub fn new(reader: Box<dyn BufRead>) -> io::Result<BufReader> {
        Ok(BufReader(reader))
    }

    pub fn lines(self) -> std::io::Lines<Box<dyn BufRead>> {
        self.0.lines()
    }
}

macro_rules! println_on {
    ($rt:ident; $($it:tt)*) => { $crate::host::Host::print_line($rt, format_args!($($it)*)) };
}

macro_rules! eprintln_on {
    ($rt:ident; $($it:tt)*) => { $crate::host::Host::eprint_line($rt, format_args!($($it)*)) };
}

pub(crate) use eprintln_on as eprintln;
pub(crate) use println_on as println;
