
use crate::rattle::rattle_std::prelude::{*, format, vec};
enum List {
    Empty,
}

#[derive(Clone, Debug)]
#[repr(u8)]
enum Kind {
    One,
}

#[derive(Clone, Copy)]
struct Pair;

#[inline(never)]
fn kind() -> Kind {
    Kind::One
}

/// Errors of reading.
#[derive(Debug, PartialEq)]
pub enum Fault<'a> {
    /// The size is wrong.
    Size { width: usize, height: usize },
    /// A text.
    Unknown(&'a str),
    /// The subject of a text.
    Subject(&'a str),
    End,
}

impl core::fmt::Display for Fault<'_> {
    fn fmt(&self, f: &mut core::fmt::Formatter<'_>) -> core::fmt::Result {
        match self {
            Self::Size { width, height } => write!(f, "{width} is not {height}"),
            Self::Unknown(it) => write!(f, "{it}: unknown"),
            Self::Subject(it) => write!(f, "{}: {}", subject(it), it),
            Self::End => write!(f, "end"),
        }
    }
}

impl core::error::Error for Fault<'_> {}
