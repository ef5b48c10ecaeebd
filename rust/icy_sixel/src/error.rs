//! Why a call failed.

use crate::proved;
use crate::rattle::rattle_std::alloc::AllocError;
use crate::rattle::sixel_base::error::{
    COLOR_COUNT, INDEX_RANGE, ROWS_NOT_FINAL, ROWS_RELEASED, SHORT_STRIDE,
};
use alloc::collections::TryReserveError;
use alloc::string::String;
use core::error::Error;
use core::fmt;

/// The result of a call that can fail.
pub type Result<T> = core::result::Result<T, SixelError>;

/// Why a call failed.
#[derive(Clone, Debug, PartialEq, Eq)]
pub enum SixelError {
    /// A size is zero, or above the limits of the format.
    InvalidDimensions {
        /// Pixels in a row.
        width: usize,
        /// Rows.
        height: usize,
    },
    /// The pixels have another number of bytes than the sizes require.
    BufferSizeMismatch {
        /// Bytes that the sizes require.
        expected: usize,
        /// Bytes that the caller passed.
        actual: usize,
    },
    /// The data, a palette or rows are invalid, for this reason.
    InvalidData(String),
    /// A DCS sequence does not begin with its introducer.
    NoSixelData,
    /// A size does not fit its type.
    IntegerOverflow,
    /// An allocation failed.
    OutOfMemory,
}

impl SixelError {
    /// The error of invalid data for this reason, or `OutOfMemory`.
    ///
    /// It is `OutOfMemory` if the text cannot be allocated.
    fn of_data(reason: &str) -> Self {
        let mut text = String::new();
        match text.try_reserve_exact(reason.len()) {
            Ok(()) => {
                text.push_str(reason);
                Self::InvalidData(text)
            }
            Err(error) => error.into(),
        }
    }
}

impl fmt::Display for SixelError {
    fn fmt(&self, f: &mut fmt::Formatter<'_>) -> fmt::Result {
        match self {
            Self::InvalidDimensions { width, height } => {
                write!(f, "invalid dimensions: {width}x{height}")
            }
            Self::BufferSizeMismatch { expected, actual } => {
                write!(f, "buffer size mismatch: expected {expected} bytes, got {actual}")
            }
            Self::InvalidData(text) => write!(f, "{}: {text}", subject(text)),
            Self::NoSixelData => f.write_str("no SIXEL data found (missing DCS introducer)"),
            Self::IntegerOverflow => f.write_str("integer overflow"),
            Self::OutOfMemory => f.write_str("out of memory"),
        }
    }
}

/// Returns what is invalid, for an error with this text: SIXEL data, or an argument of a call.
fn subject(text: &str) -> &'static str {
    match text {
        COLOR_COUNT | INDEX_RANGE | ROWS_NOT_FINAL | ROWS_RELEASED | SHORT_STRIDE => {
            "invalid argument"
        }
        _ => "invalid SIXEL data",
    }
}

impl Error for SixelError {}

impl From<proved::SixelError> for SixelError {
    fn from(error: proved::SixelError) -> Self {
        match error {
            proved::SixelError::InvalidDimensions { width, height } => {
                Self::InvalidDimensions { width, height }
            }
            proved::SixelError::BufferSizeMismatch { expected, actual } => {
                Self::BufferSizeMismatch { expected, actual }
            }
            proved::SixelError::InvalidData(reason) => Self::of_data(reason),
            proved::SixelError::NoSixelData => Self::NoSixelData,
            proved::SixelError::IntegerOverflow => Self::IntegerOverflow,
            proved::SixelError::OutOfMemory => Self::OutOfMemory,
        }
    }
}

impl From<AllocError> for SixelError {
    fn from(_: AllocError) -> Self {
        Self::OutOfMemory
    }
}

impl From<TryReserveError> for SixelError {
    fn from(_: TryReserveError) -> Self {
        Self::OutOfMemory
    }
}
