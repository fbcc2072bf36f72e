//! Text whose growth is refused by an error.

use super::AllocError;
use alloc::string::String;
use core::fmt::{Arguments, Display, Write};

/// What grows a text, with an error where memory is refused.
pub trait Text: Sized {
    /// An empty text with room for so many bytes.
    ///
    /// # Errors
    /// [`AllocError`] where memory is refused.
    fn with_room(count: usize) -> Result<Self, AllocError>;

    /// A text of its own.
    ///
    /// # Errors
    /// [`AllocError`] where memory is refused.
    fn from_str(text: &str) -> Result<Self, AllocError>;

    /// Puts a text behind it.
    ///
    /// # Errors
    /// [`AllocError`] where memory is refused.
    fn try_push_str(&mut self, text: &str) -> Result<(), AllocError>;

    /// Puts a character behind it.
    ///
    /// # Errors
    /// [`AllocError`] where memory is refused.
    fn try_push(&mut self, character: char) -> Result<(), AllocError>;

    /// Writes behind it what `write!` says.
    ///
    /// # Errors
    /// [`AllocError`] where memory is refused.
    fn write_fmt(&mut self, what: Arguments<'_>) -> Result<(), AllocError>;
}

impl Text for String {
    fn with_room(count: usize) -> Result<String, AllocError> {
        let mut text = String::new();
        text.try_reserve_exact(count).map_err(|_| AllocError)?;
        Ok(text)
    }

    fn from_str(text: &str) -> Result<String, AllocError> {
        let mut own = String::with_room(text.len())?;
        own.push_str(text);
        Ok(own)
    }

    fn try_push_str(&mut self, text: &str) -> Result<(), AllocError> {
        self.try_reserve(text.len()).map_err(|_| AllocError)?;
        self.push_str(text);
        Ok(())
    }

    fn try_push(&mut self, character: char) -> Result<(), AllocError> {
        self.try_push_str(character.encode_utf8(&mut [0; 4]))
    }

    fn write_fmt(&mut self, what: Arguments<'_>) -> Result<(), AllocError> {
        Growing(self).write_fmt(what).map_err(|_| AllocError)
    }
}

// A text that is written to: an error of it is one of memory.
struct Growing<'a>(&'a mut String);

impl Write for Growing<'_> {
    fn write_str(&mut self, text: &str) -> core::fmt::Result {
        self.0.try_push_str(text).map_err(|_| core::fmt::Error)
    }
}

/// The text that `Display` says.
pub trait ToString: Display {
    /// The text.
    ///
    /// # Errors
    /// [`AllocError`] where memory is refused.
    fn to_string(&self) -> Result<String, AllocError> {
        let mut text = String::new();
        Text::write_fmt(&mut text, format_args!("{self}"))?;
        Ok(text)
    }
}

impl<T: Display> ToString for T {}
