//! Indices that are proved to be in range.
//!
//! They are checked, unless the feature `unchecked` is on and debug assertions are off.

use core::hint::assert_unchecked;
use core::ops::{Index, IndexMut};
use core::slice::SliceIndex;

const IS_CHECKED: bool = cfg!(not(feature = "unchecked")) || cfg!(debug_assertions);

/// An index, or a range of indices, that is proved to be in range.
#[derive(Clone, Copy)]
pub struct Proved<I>(pub I);

impl<T, I: SliceIndex<[T]>> Index<Proved<I>> for [T] {
    type Output = I::Output;

    #[inline(always)]
    fn index(&self, Proved(index): Proved<I>) -> &I::Output {
        if IS_CHECKED {
            self.get(index).unwrap_or_else(|| out_of_range())
        } else {
            unsafe { self.get_unchecked(index) }
        }
    }
}

impl<T, I: SliceIndex<[T]>> IndexMut<Proved<I>> for [T] {
    #[inline(always)]
    fn index_mut(&mut self, Proved(index): Proved<I>) -> &mut I::Output {
        if IS_CHECKED {
            self.get_mut(index).unwrap_or_else(|| out_of_range())
        } else {
            unsafe { self.get_unchecked_mut(index) }
        }
    }
}

/// Checks a condition that is proved to hold, or lets the compiler rely on it.
#[inline(always)]
pub fn proved(condition: bool) {
    if !IS_CHECKED {
        unsafe { assert_unchecked(condition) }
    } else if !condition {
        out_of_range();
    }
}

/// Checks lengths as a contract requires them.
///
/// LLVM then leaves out the checks of indices within.
#[inline(always)]
pub fn required(condition: bool) {
    if IS_CHECKED && !condition {
        out_of_range();
    }
}

/// Panics. Without arguments, the checks of a function share one call.
#[cold]
#[inline(never)]
fn out_of_range() -> ! {
    panic!("index out of range")
}
