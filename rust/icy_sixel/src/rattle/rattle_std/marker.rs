//! Properties of types that only contracts use.

/// A type whose values contracts describe.
pub trait Model {}

/// A type whose values may be dropped: each type of Rust.
pub trait Drop {}

impl<T: ?Sized> Drop for T {}
