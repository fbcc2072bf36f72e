//! `maskrun rank A B` prints mask `A` narrowed by mask `B` over its true values. All commands stand in the docs of
//! `answer`.
#![cfg_attr(unix, no_main)]
#![allow(clippy::all, clippy::pedantic, unused_imports, unused_mut)]

mod answer;
mod argument;
mod command;
mod error;
mod print;
#[cfg(unix)]
mod unix;

use std::io::{self, Write};

/// The statuses of the program, beside 0.
const FAULT: u8 = 2;
const NOT_READ_OR_WRITTEN: u8 = 3;

/// Prints the line for the arguments after the program's name, or their fault.
fn run(words: &[String], out: &mut impl Write, err: &mut impl Write) -> io::Result<u8> {
    match answer::answer(words) {
        Ok(line) => {
            writeln!(out, "{line}")?;
            Ok(0)
        }
        Err(fault) => {
            writeln!(err, "maskrun: {fault}")?;
            Ok(FAULT)
        }
    }
}

/// As `unix` has it, by Rust's own arguments and outputs.
#[cfg(not(unix))]
fn main() -> std::process::ExitCode {
    let texts = std::env::args_os().skip(1).map(|word| word.into_string());
    let texts =
        texts.collect::<Result<Vec<_>, _>>().map_err(|_| io::ErrorKind::InvalidInput.into());
    let status = texts.and_then(|texts| run(&texts, &mut io::stdout(), &mut io::stderr()));
    status.unwrap_or(NOT_READ_OR_WRITTEN).into()
}
