//! The C library: the calls of `icysixel.h`.
//!
//! What each pointer has to point to is documented there.
#![no_std]

// What only contracts use is left in it.
#[allow(dead_code, unused_imports, unused_labels, unused_variables)]
mod icysixel;
mod memory;
#[path = "../../icy_sixel/src/rattle/mod.rs"]
mod rattle;

use core::slice::{from_raw_parts, from_raw_parts_mut};

/// Returns the items at a pointer, which may be null if there are none.
unsafe fn slice<'a, T>(items: *const T, len: usize) -> &'a [T] {
    if len == 0 {
        return &[];
    }
    unsafe { from_raw_parts(items, len) }
}

/// Returns the items at a pointer, which may be null if there are none.
unsafe fn slice_mut<'a, T>(items: *mut T, len: usize) -> &'a mut [T] {
    if len == 0 {
        return &mut [];
    }
    unsafe { from_raw_parts_mut(items, len) }
}
