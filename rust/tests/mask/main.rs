//! What masks and buffers have that users of Rust expect, beside plain lists, and what each call asks of its caller.

mod answers;
mod conditions;
mod family;
mod faults;
mod hashes;
mod lists;
mod makers;
mod nullable;
mod operators;
mod plain;
mod ranks;
mod threads;
mod walks;

use std::any::Any;
use std::panic::{UnwindSafe, catch_unwind};

/// What a call says that panics, and nothing where it doesn't.
fn said<T>(call: impl FnOnce() -> T + UnwindSafe) -> Option<String> {
    let payload: Box<dyn Any + Send> = catch_unwind(call).err()?;
    Some(*payload.downcast().expect("a panic of this package says a text"))
}
