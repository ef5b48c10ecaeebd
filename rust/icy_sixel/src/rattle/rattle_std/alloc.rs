//! Allocations that can fail.

use super::rust_alloc::alloc::dealloc;
use core::alloc::Layout;
use core::fmt;

/// An allocation failed.
#[derive(Clone, Copy, Debug, PartialEq, Eq)]
pub struct AllocError;

impl fmt::Display for AllocError {
    fn fmt(&self, f: &mut fmt::Formatter<'_>) -> fmt::Result {
        f.write_str("memory allocation failed")
    }
}

impl core::error::Error for AllocError {}

/// An allocation failed, and this value was not stored.
#[derive(Clone, Copy, Debug, PartialEq, Eq)]
pub struct AllocFailed<T>(pub T);

impl<T> From<AllocFailed<T>> for AllocError {
    fn from(_failed: AllocFailed<T>) -> AllocError {
        AllocError
    }
}

/// What allocates.
pub trait Allocator: Copy {}

/// Rust's global allocator.
#[derive(Clone, Copy, Debug, Default, PartialEq, Eq)]
pub struct Global;

impl Allocator for Global {}

impl Global {
    /// Frees a block of the global allocator.
    ///
    /// # Safety
    ///
    /// The block has this size and alignment, and nothing uses it any more.
    pub unsafe fn deallocate(&self, at: *mut u8, size: usize, align: usize) {
        unsafe { dealloc(at, Layout::from_size_align_unchecked(size, align)) }
    }
}
