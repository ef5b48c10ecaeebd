//! Texts.

use super::alloc::{AllocError, Global};
use super::rust_alloc::string;
use super::vec::Vec;
use core::fmt::{self, Arguments, Display, Write};
use core::ops::Deref;
use core::str;

/// A text whose allocations can fail.
#[derive(Debug)]
pub struct String(Vec<u8>);

/// Returns a text: `format!(in alloc; "{}", x)`.
macro_rules! format_in {
    (in $alloc:expr; $($text:tt)*) => {
        $crate::rattle::rattle_std::prelude::String::of_arguments($alloc, format_args!($($text)*))
    };
}
pub(crate) use format_in;

impl String {
    /// Returns an empty text. It does not allocate.
    #[inline]
    pub fn new(alloc: Global) -> String {
        String(Vec::new(alloc))
    }

    /// Returns a formatted text.
    pub fn of_arguments(alloc: Global, arguments: Arguments<'_>) -> Result<String, AllocError> {
        let mut text = String::new(alloc);
        text.write_fmt(arguments)?;
        Ok(text)
    }

    /// Returns the text of bytes.
    pub fn from_utf8(bytes: Vec<u8>) -> Result<String, str::Utf8Error> {
        str::from_utf8(&bytes)?;
        Ok(String(bytes))
    }

    /// Appends a character.
    #[inline]
    pub fn push(&mut self, letter: char) -> Result<(), AllocError> {
        if letter.is_ascii() {
            return Ok(self.0.push(letter as u8)?);
        }
        self.push_str(letter.encode_utf8(&mut [0; 4]))
    }

    /// Appends a text.
    #[inline]
    pub fn push_str(&mut self, text: &str) -> Result<(), AllocError> {
        self.0.extend_from_slice(text.as_bytes())
    }

    /// Appends formatted text, as `write!` calls it.
    pub fn write_fmt(&mut self, arguments: Arguments<'_>) -> Result<(), AllocError> {
        fmt::write(&mut Writer(self), arguments).map_err(|_| AllocError)
    }

    /// The text.
    #[inline]
    pub fn as_str(&self) -> &str {
        // The bytes are those of texts.
        unsafe { str::from_utf8_unchecked(&self.0) }
    }

    /// The bytes of the text.
    #[inline]
    pub fn into_bytes(self) -> Vec<u8> {
        self.0
    }

    /// Returns Rust's string of the text, without spare capacity.
    pub fn into_exact(self) -> Result<string::String, AllocError> {
        let bytes = self.0.into_exact()?;
        // The bytes are those of a text.
        Ok(unsafe { string::String::from_utf8_unchecked(bytes) })
    }
}

impl Deref for String {
    type Target = str;

    #[inline]
    fn deref(&self) -> &str {
        self.as_str()
    }
}

impl Display for String {
    fn fmt(&self, f: &mut fmt::Formatter<'_>) -> fmt::Result {
        f.pad(self)
    }
}

/// Appends pieces of formatted text.
struct Writer<'a>(&'a mut String);

impl Write for Writer<'_> {
    fn write_str(&mut self, text: &str) -> fmt::Result {
        self.0.push_str(text).map_err(|_| fmt::Error)
    }
}
