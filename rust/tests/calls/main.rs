//! The rows of the crate `mask_tests` on the calls of this package. As a test it makes the calls of each row that
//! `crates/mask_tests/stdin` has. With the arguments `rows stdin`, `sweep stdin` or `refused stdin` it takes rows from standard input, as
//! the program `mask_tests` does.
#![allow(clippy::all, clippy::pedantic, dead_code, unused_imports, unused_mut, unused_variables)]

#[path = "../host/mod.rs"]
mod host;

mod builder;
mod call;
mod calls;
mod fault;
mod held;
mod lines;
mod listed;
mod mask_word;
mod nullable;
mod operands;
mod packed;
mod ranked;
mod refused;
mod rows;
mod tell;
mod text;
mod walks;
mod words;
mod written;

use crate::host::{Host, HostRuntime, Kept, io};
use crate::rows::Told;
use crate::text::Detail;
use std::process::ExitCode;

fn main() -> ExitCode {
    let words: Vec<String> = std::env::args().skip(1).collect();
    let wrong = match words.iter().map(String::as_str).collect::<Vec<_>>()[..] {
        ["rows", "stdin"] => rows::check(&HostRuntime, told(Detail::Short)),
        ["sweep", "stdin"] => rows::check(&HostRuntime, told(Detail::Whole)),
        ["refused", "stdin"] => refused::check(&HostRuntime, told(Detail::Whole)),
        _ => all_rows(),
    };
    match wrong {
        Ok(0) => ExitCode::SUCCESS,
        Ok(_) => ExitCode::FAILURE,
        Err(_) => ExitCode::from(3),
    }
}

/// A clone has the lists that are made for another one.
fn told(answers: Detail) -> Told {
    Told { answers, kept: Detail::Lists }
}

fn all_rows() -> io::Result<usize> {
    let kept = Kept::new(include_str!("../../../crates/mask_tests/stdin"));
    let wrong = rows::check(&kept, told(Detail::Short))?;
    HostRuntime.print_line(format_args!("{}", kept.printed.borrow()))?;
    Ok(wrong)
}
