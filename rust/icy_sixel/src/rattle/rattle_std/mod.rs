//! The part of Rattle's `std` that differs from Rust's: allocations that can fail, and SIMD.

extern crate alloc as rust_alloc;

pub mod alloc;
mod boxed;
mod index;
pub mod marker;
#[cfg(not(target_arch = "x86_64"))]
mod plain;
pub mod simd;
pub mod snapshot;
mod string;
#[cfg(test)]
mod tests;
mod vec;
#[cfg(target_arch = "x86_64")]
mod x86;

pub use core::{fmt, mem, ptr, result};

/// The names that each file has without an import.
pub mod prelude {
    pub use super::boxed::Box;
    pub use super::index::{Proved, required};
    pub use super::marker::Drop;
    pub(crate) use super::string::format_in as format;
    pub use super::string::String;
    pub use super::vec::Vec;
    pub(crate) use super::vec::vec_in as vec;
}
