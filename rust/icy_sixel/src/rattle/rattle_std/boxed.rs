//! Values on the heap.

use super::alloc::{AllocFailed, Allocator, Global};
use core::alloc::Layout;
use core::ops::{Deref, DerefMut};
use super::rust_alloc::alloc::alloc;
use super::rust_alloc::boxed;

/// A value on the heap.
#[derive(Debug)]
pub struct Box<T, A: Allocator = Global> {
    inner: boxed::Box<T>,
    alloc: A,
}

impl<T> Box<T> {
    /// Moves a value to the heap.
    #[inline]
    pub fn new(alloc: Global, value: T) -> Result<Box<T>, AllocFailed<T>> {
        const { assert!(size_of::<T>() > 0) };
        let at = unsafe { self::alloc(Layout::new::<T>()) }.cast::<T>();
        if at.is_null() {
            return Err(AllocFailed(value));
        }
        // The memory is new, and has the size and the alignment of a `T`.
        let inner = unsafe {
            at.write(value);
            boxed::Box::from_raw(at)
        };
        Ok(Box { inner, alloc })
    }
}

impl<T, A: Allocator> Box<T, A> {
    /// Returns the pointer of the value, which is not dropped.
    pub fn into_raw_with_allocator(b: Box<T, A>) -> (*mut T, A) {
        let Box { inner, alloc } = b;
        (boxed::Box::into_raw(inner), alloc)
    }

    /// Returns the box of a pointer.
    ///
    /// # Safety
    ///
    /// The pointer is of [`Box::into_raw_with_allocator`], and is used once.
    pub unsafe fn from_raw(alloc: A, at: *mut T) -> Box<T, A> {
        let inner = unsafe { boxed::Box::from_raw(at) };
        Box { inner, alloc }
    }
}

impl<T, A: Allocator> Deref for Box<T, A> {
    type Target = T;

    #[inline]
    fn deref(&self) -> &T {
        &self.inner
    }
}

impl<T, A: Allocator> DerefMut for Box<T, A> {
    #[inline]
    fn deref_mut(&mut self) -> &mut T {
        &mut self.inner
    }
}
