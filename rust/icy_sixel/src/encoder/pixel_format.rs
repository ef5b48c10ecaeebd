//! The formats of a caller's pixels, and their conversion to RGBA.

use crate::error::Result;
use alloc::borrow::Cow;
use alloc::vec::Vec;

/// What the bytes of a pixel are.
#[derive(Clone, Copy, Debug, Default, PartialEq, Eq)]
pub enum PixelFormat {
    /// Red, green, blue and alpha.
    #[default]
    Rgba,
    /// Blue, green, red and alpha, as most window systems have them.
    Bgra,
    /// Red, green and blue.
    Rgb,
    /// Blue, green and red.
    Bgr,
    /// The index of a given color.
    Indexed {
        /// The index of transparent pixels.
        transparent: Option<u8>,
    },
}

impl PixelFormat {
    /// The number of bytes of a pixel.
    pub(super) fn bytes(self) -> usize {
        match self {
            Self::Rgba | Self::Bgra => 4,
            Self::Rgb | Self::Bgr => 3,
            Self::Indexed { .. } => 1,
        }
    }

    /// The pixels of rows in RGBA. Those of palette indices are black.
    pub(super) fn to_rgba(self, rows: &[u8]) -> Result<Cow<'_, [u8]>> {
        let pixels = match self {
            Self::Rgba => return Ok(Cow::Borrowed(rows)),
            Self::Bgra => converted(rows, |[blue, green, red, alpha]| [red, green, blue, alpha]),
            Self::Rgb => converted(rows, |[red, green, blue]| [red, green, blue, 255]),
            Self::Bgr => converted(rows, |[blue, green, red]| [red, green, blue, 255]),
            Self::Indexed { transparent } => converted(rows, |[index]| {
                [0, 0, 0, if Some(index) == transparent { 0 } else { 255 }]
            }),
        };
        Ok(Cow::Owned(pixels?))
    }
}

/// The pixels of rows with `N` bytes for each pixel.
fn converted<const N: usize>(rows: &[u8], rgba: impl Fn([u8; N]) -> [u8; 4]) -> Result<Vec<u8>> {
    let (from, _) = rows.as_chunks();
    let mut pixels = Vec::new();
    pixels.try_reserve_exact(4 * from.len())?;
    pixels.resize(4 * from.len(), 0);
    for (pixel, bytes) in pixels.as_chunks_mut().0.iter_mut().zip(from) {
        *pixel = rgba(*bytes);
    }
    Ok(pixels)
}
