//! Vectors.

use super::alloc::{AllocError, AllocFailed, Global};
use super::index::proved;
use super::rust_alloc::alloc::realloc;
use super::rust_alloc::vec;
use core::alloc::Layout;
use core::mem::{self, ManuallyDrop};
use core::ops::{Deref, DerefMut, RangeBounds};
use core::slice;

/// A vector whose allocations can fail.
#[derive(Debug)]
pub struct Vec<T>(pub(crate) vec::Vec<T>);

/// Returns a vector: `vec![in alloc; item; count]`.
macro_rules! vec_in {
    (in $alloc:expr; $item:expr; $count:expr) => {
        $crate::rattle::rattle_std::prelude::Vec::from_elem($alloc, $item, $count)
    };
}
pub(crate) use vec_in;

impl<T> Vec<T> {
    /// Returns an empty vector. It does not allocate.
    #[inline]
    pub fn new(_alloc: Global) -> Vec<T> {
        Vec(vec::Vec::new())
    }

    /// Returns an empty vector with this capacity.
    #[inline]
    pub fn with_capacity(_alloc: Global, capacity: usize) -> Result<Vec<T>, AllocError> {
        let mut items = vec::Vec::new();
        items.try_reserve_exact(capacity).map_err(|_| AllocError)?;
        Ok(Vec(items))
    }

    /// Returns `count` copies of an item.
    #[inline]
    pub fn from_elem(alloc: Global, item: T, count: usize) -> Result<Vec<T>, AllocError>
    where
        T: Copy,
    {
        let mut items = Vec::with_capacity(alloc, count)?;
        items.0.resize(count, item);
        Ok(items)
    }

    /// Returns a copy of items.
    pub fn from_slice(alloc: Global, items: &[T]) -> Result<Vec<T>, AllocError>
    where
        T: Copy,
    {
        let mut copy = Vec::with_capacity(alloc, items.len())?;
        copy.0.extend_from_slice(items);
        Ok(copy)
    }

    /// Returns Rust's vector of the items, without spare capacity.
    pub fn into_exact(mut self) -> Result<vec::Vec<T>, AllocError> {
        self.try_shrink_to(0)?;
        Ok(self.0)
    }

    /// The allocator.
    #[inline]
    pub fn allocator(&self) -> &Global {
        &Global
    }

    /// For how many items there is memory.
    #[inline]
    pub fn capacity(&self) -> usize {
        self.0.capacity()
    }

    /// The items.
    #[inline]
    pub fn as_slice(&self) -> &[T] {
        &self.0
    }

    /// The address of the first item.
    #[inline]
    pub fn as_mut_ptr(&mut self) -> *mut T {
        self.0.as_mut_ptr()
    }

    /// Appends an item.
    #[inline]
    pub fn push(&mut self, item: T) -> Result<(), AllocFailed<T>> {
        if self.0.len() == self.0.capacity() && self.grow(1).is_err() {
            return Err(AllocFailed(item));
        }
        self.push_reserved(item);
        Ok(())
    }

    /// Inserts an item, and moves those from there on by one.
    pub fn insert(&mut self, at: usize, item: T) -> Result<(), AllocFailed<T>> {
        self.push(item)?;
        self.0[at..].rotate_right(1);
        Ok(())
    }

    /// Appends an item, for which there is capacity.
    #[inline]
    pub fn push_reserved(&mut self, item: T) {
        let len = self.0.len();
        proved(len < self.0.capacity());
        // The place is inside of the capacity.
        unsafe {
            self.0.as_mut_ptr().add(len).write(item);
            self.0.set_len(len + 1);
        }
    }

    #[cold]
    #[inline(never)]
    fn grow(&mut self, more: usize) -> Result<(), AllocError> {
        self.0.try_reserve(more).map_err(|_| AllocError)
    }

    /// Allocates capacity for `more` items.
    #[inline]
    pub fn reserve(&mut self, more: usize) -> Result<(), AllocError> {
        if self.0.capacity() - self.0.len() < more {
            return self.grow(more);
        }
        Ok(())
    }

    /// Allocates capacity for exactly `more` items.
    #[inline]
    pub fn reserve_exact(&mut self, more: usize) -> Result<(), AllocError> {
        self.0.try_reserve_exact(more).map_err(|_| AllocError)
    }

    /// Appends copies of items.
    #[inline]
    pub fn extend_from_slice(&mut self, items: &[T]) -> Result<(), AllocError>
    where
        T: Copy,
    {
        self.reserve(items.len())?;
        let len = self.0.len();
        // The places are inside of the capacity.
        unsafe {
            let end = self.0.as_mut_ptr().add(len);
            items.as_ptr().copy_to_nonoverlapping(end, items.len());
            self.0.set_len(len + items.len());
        }
        Ok(())
    }

    /// Makes the vector this long, by copies of an item at the end.
    #[inline]
    pub fn resize(&mut self, len: usize, item: T) -> Result<(), AllocError>
    where
        T: Copy,
    {
        if len > self.0.len() {
            self.reserve(len - self.0.len())?;
        }
        self.0.resize(len, item);
        Ok(())
    }

    /// Drops the items from this number on.
    #[inline]
    pub fn truncate(&mut self, len: usize) {
        self.0.truncate(len);
    }

    /// Drops all items.
    #[inline]
    pub fn clear(&mut self) {
        self.0.clear();
    }

    /// Removes and returns an item. Those after it move up.
    #[inline]
    pub fn remove(&mut self, at: usize) -> T {
        self.0.remove(at)
    }

    /// Removes the items of a range, and returns them.
    #[inline]
    pub fn drain<R: RangeBounds<usize>>(&mut self, range: R) -> vec::Drain<'_, T> {
        self.0.drain(range)
    }

    /// Frees spare capacity, unless the allocator fails.
    pub fn shrink_to_fit(&mut self) {
        self.shrink_to(0);
    }

    /// Frees the capacity for more items than it contains, and than these.
    pub fn shrink_to(&mut self, least: usize) {
        let _ = self.try_shrink_to(least);
    }

    /// Frees such capacity, or fails. After an error items and capacity are as before.
    fn try_shrink_to(&mut self, least: usize) -> Result<(), AllocError> {
        const { assert!(size_of::<T>() > 0) };
        let (len, capacity) = (self.0.len(), self.0.capacity());
        let kept = len.max(least);
        if kept == 0 {
            self.0 = vec::Vec::new();
        } else if kept < capacity {
            let layout = Layout::array::<T>(capacity).map_err(|_| AllocError)?;
            let mut items = ManuallyDrop::new(mem::take(&mut self.0));
            let block = items.as_mut_ptr();
            // The block has this layout. After an error it is still that of the items.
            self.0 = unsafe {
                let new = realloc(block.cast(), layout, kept * size_of::<T>()).cast::<T>();
                if new.is_null() {
                    self.0 = ManuallyDrop::into_inner(items);
                    return Err(AllocError);
                }
                vec::Vec::from_raw_parts(new, len, kept)
            };
        }
        Ok(())
    }

    /// Removes items that are equal to the one before them.
    #[inline]
    pub fn dedup(&mut self)
    where
        T: PartialEq,
    {
        self.0.dedup();
    }
}

impl<T> Deref for Vec<T> {
    type Target = [T];

    #[inline]
    fn deref(&self) -> &[T] {
        &self.0
    }
}

impl<T> DerefMut for Vec<T> {
    #[inline]
    fn deref_mut(&mut self) -> &mut [T] {
        &mut self.0
    }
}

impl<'a, T> IntoIterator for &'a Vec<T> {
    type Item = &'a T;
    type IntoIter = slice::Iter<'a, T>;

    #[inline]
    fn into_iter(self) -> slice::Iter<'a, T> {
        self.0.iter()
    }
}
