use super::{MOST_COLUMNS, MOST_NESTED};
use crate::Error;
use alloc::string::String;
use core::error;
use core::fmt;

/// Why an array is not filtered. Nothing was done.
#[derive(Debug, Clone, PartialEq, Eq)]
#[non_exhaustive]
#[allow(missing_docs, reason = "the sentence of each says what its fields are")]
pub enum ArrowError {
    /// The `column` has a `format` that isn't filtered.
    NotSupported { column: String, format: String },
    /// The array of this `column` doesn't fit its schema: `what` it has is wrong.
    BadArray { column: String, what: &'static str },
    /// The array or its schema was released, or moved: it has no callback that would release it.
    Released,
    /// The children of this `column`, or its dictionary, lie in more others than a column may.
    NestedTooDeep { column: String },
    /// With the children of this `column`, or its dictionary, more columns lie in others than a call takes.
    TooManyColumns { column: String },
    /// What the call on a column was refused for.
    Refused(Error),
}

impl fmt::Display for ArrowError {
    fn fmt(&self, f: &mut fmt::Formatter<'_>) -> fmt::Result {
        match self {
            ArrowError::NotSupported { column, format } => {
                write!(f, "column '{column}' of format '{format}' is not supported")
            }
            ArrowError::BadArray { column, what } => {
                write!(f, "the array of column '{column}' doesn't fit its schema: bad {what}")
            }
            ArrowError::Released => f.write_str("the array, or its schema, was released or moved"),
            ArrowError::NestedTooDeep { column } => {
                write!(
                    f,
                    "column '{column}' is nested too deep: its children lie in more than {MOST_NESTED} others"
                )
            }
            ArrowError::TooManyColumns { column } => {
                write!(
                    f,
                    "too many columns: with the children of column '{column}' more than {MOST_COLUMNS} lie in others"
                )
            }
            ArrowError::Refused(error) => error.fmt(f),
        }
    }
}

impl error::Error for ArrowError {}

impl From<Error> for ArrowError {
    fn from(error: Error) -> ArrowError {
        ArrowError::Refused(error)
    }
}
