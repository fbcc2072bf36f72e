//! Values that are shared, and clones that may be refused.

use super::{AllocError, AllocFailed};
use alloc::sync::Arc;
use alloc::vec::Vec;
use core::mem::{ManuallyDrop, MaybeUninit};

/// A clone that is refused where there is no memory for it.
pub trait TryClone: Sized {
    /// A value that is equal.
    ///
    /// # Errors
    /// [`AllocError`] where memory is refused.
    fn clone(&self) -> Result<Self, AllocError>;
}

macro_rules! copied {
    ($($of:ty)*) => {
        $(impl TryClone for $of {
            #[inline]
            fn clone(&self) -> Result<$of, AllocError> {
                Ok(*self)
            }
        })*
    };
}

copied!(u8 u16 u32 u64 u128 usize i8 i16 i32 i64 i128 isize bool char);

impl<T> TryClone for &T {
    fn clone(&self) -> Result<Self, AllocError> {
        Ok(*self)
    }
}

impl<T: Copy> TryClone for &[T] {
    fn clone(&self) -> Result<Self, AllocError> {
        Ok(*self)
    }
}

impl<T: TryClone, U: TryClone> TryClone for (T, U) {
    fn clone(&self) -> Result<Self, AllocError> {
        Ok((T::clone(&self.0)?, U::clone(&self.1)?))
    }
}

impl<T: TryClone> TryClone for Option<T> {
    fn clone(&self) -> Result<Self, AllocError> {
        self.as_ref().map(T::clone).transpose()
    }
}

impl<T: TryClone> TryClone for Vec<T> {
    fn clone(&self) -> Result<Vec<T>, AllocError> {
        let mut list = Vec::new();
        list.try_reserve_exact(self.len()).map_err(|_| AllocError)?;
        for item in self {
            list.push(T::clone(item)?);
        }
        Ok(list)
    }
}

impl<T> TryClone for Arc<T> {
    #[inline]
    fn clone(&self) -> Result<Arc<T>, AllocError> {
        Ok(Clone::clone(self))
    }
}

/// A value that can be shared.
///
/// # Errors
/// None: Rust's `Arc` aborts where memory is refused.
#[inline]
pub fn shared<T>(value: T) -> Result<Arc<T>, AllocFailed<T>> {
    // (made where it stays: `new` moves it there)
    let value = ManuallyDrop::new(value);
    let shared: Arc<MaybeUninit<T>> = Arc::new_uninit();
    // SAFETY: nobody else has it, so it may be written, and it is there afterwards.
    unsafe {
        Arc::as_ptr(&shared).cast_mut().cast::<T>().write(ManuallyDrop::into_inner(value));
        Ok(shared.assume_init())
    }
}
