//! What the proved sources take of Rattle's library, over Rust's own: lists whose growth is refused by an error, shared
//! bytes, text and lanes; and `unchecked`, in place of a proved module. It imports nothing else of the package. All of it is
//! written by hand, and trusted. `README.md` lists all that is.

pub(crate) mod byte_list;
mod bytes;
pub(crate) mod cached_list;
mod few_bytes;
pub(crate) mod lanes;
mod list;
mod shared;
mod text;
pub(crate) mod unchecked;

pub use alloc::sync::Arc;
pub(crate) use bytes::room_to_share;
pub use bytes::{Bytes, BytesMut};
pub(crate) use list::zeros;
pub use list::{Collect, CowSlice, List, ToList, filled};
pub use shared::{TryClone, shared};
pub use text::{Text, ToString};

/// Memory was asked for and refused.
#[derive(Clone, Copy, Debug, PartialEq, Eq, Hash)]
pub struct AllocError;

impl core::fmt::Display for AllocError {
    fn fmt(&self, f: &mut core::fmt::Formatter<'_>) -> core::fmt::Result {
        f.write_str("out of memory")
    }
}

impl core::error::Error for AllocError {}

#[cfg(feature = "std")]
impl From<AllocError> for std::io::Error {
    fn from(_: AllocError) -> std::io::Error {
        std::io::ErrorKind::OutOfMemory.into()
    }
}

/// Memory for a value was asked for and refused: the value.
#[derive(Clone, Copy, Debug, PartialEq, Eq, Hash)]
pub struct AllocFailed<T>(pub T);

impl<T> From<AllocFailed<T>> for AllocError {
    fn from(_: AllocFailed<T>) -> AllocError {
        AllocError
    }
}

/// What the proved sources have in scope, in place of Rust's own prelude: `clone` and `to_string` are calls of traits here,
/// which report missing memory, as `write!` to a text does. To derive `Clone` is to derive Rust's, and `fmt` is a call of
/// `Debug`.
pub mod prelude {
    pub(crate) use super::list::Reserved as _;
    pub use super::{Collect as _, List as _, Text as _, ToList as _, ToString};
    pub use super::{TryClone, TryClone as Clone};
    pub use alloc::{boxed::Box, string::String, vec::Vec};
    pub use core::fmt::Debug as _;
    pub use core::prelude::rust_2024::*;
    pub use core::{matches, unreachable, write};
}

#[cfg(test)]
mod tests {
    #![no_implicit_prelude]

    use super::AllocError;
    use super::prelude::*;

    /// Its derived clone is Rust's own.
    #[derive(Clone, Debug, PartialEq)]
    struct Own(u8);

    impl Own {
        fn clone(&self) -> u8 {
            self.0
        }

        fn to_string(&self) -> u8 {
            self.0 + 1
        }

        fn write_fmt(&mut self, _: ::core::fmt::Arguments<'_>) -> u8 {
            self.0 + 2
        }
    }

    /// Clones and texts report missing memory, and a type's own calls of these names are its own.
    #[test]
    fn names_are_as_in_the_sources() {
        let mut text: Result<String, AllocError> = 7.to_string();
        let written: Option<Result<(), AllocError>> =
            text.as_mut().ok().map(|it| write!(it, "{}", 8));
        let list: Result<Vec<u8>, AllocError> = Vec::from([1, 2]).clone();
        ::std::assert_eq!(
            (text, written, list),
            (Ok("78".into()), Some(Ok(())), Ok(Vec::from([1, 2])))
        );
        let mut own = ::core::clone::Clone::clone(&Own(1));
        ::std::assert_eq!((own.clone(), own.to_string(), write!(own, "")), (1, 2, 3));
    }
}
