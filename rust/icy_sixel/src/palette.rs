//! The palette of an image, and a certificate that no palette is much better.

use crate::error::Result;
use crate::rattle::rattle_std::alloc::Global;
use crate::rattle::sixel_palette::palette;
pub use crate::rattle::sixel_palette::palette::{DistinctColors, witnesses_hold};
use alloc::vec::Vec;

/// A palette, each pixel's palette index, and a certificate of the palette's error.
#[derive(Clone, Debug, PartialEq, Eq)]
pub struct PaletteChoice {
    /// The entries: red, green, blue.
    pub colors: Vec<[u8; 3]>,
    /// The palette index of each pixel, 0 for a transparent pixel.
    pub indices: Vec<u8>,
    /// The greatest squared distance of an opaque color to its nearest entry.
    pub error: u32,
    /// One opaque color more than there are entries, every two at least `error` apart.
    ///
    /// There are none if all opaque colors are entries.
    pub witnesses: Vec<[u8; 3]>,
}

/// Chooses the palette of an image of four bytes per pixel: red, green, blue, alpha.
///
/// ```
/// use icy_sixel::palette::{choose_palette, witnesses_hold};
///
/// let pixels = [[255, 255, 255, 255], [10, 0, 0, 255], [0, 0, 0, 255]].concat();
/// let choice = choose_palette(&pixels, 2)?;
/// assert_eq!(choice.colors, [[0, 0, 0], [255, 255, 255]]);
/// assert_eq!(choice.indices, [1, 0, 0]);
/// assert_eq!(choice.error, 100);
/// assert!(witnesses_hold(&choice.witnesses, choice.error));
/// # Ok::<(), icy_sixel::SixelError>(())
/// ```
///
/// Only opaque pixels count, those whose alpha is at least 128; the others get index 0. The
/// palette has at most `max_colors` entries, at least 2 and at most 256, and contains all opaque
/// colors if they are not more. Otherwise it is chosen farthest first. The first entry is the
/// least color, by red, then green, then blue. Each further entry is the color that is farthest
/// from its nearest entry so far, the least of equals. An opaque pixel's index is that of its
/// nearest entry, the first of equals. Distances are sums of squared differences of the channels.
///
/// Any palette of the same size has at least a fourth of this error, whatever its colors. The
/// witnesses prove it, because two of them share an entry of any such palette.
///
/// # Errors
///
/// `BufferSizeMismatch` if the length is no multiple of four, before anything is allocated; it
/// expects the length rounded down. Otherwise only `OutOfMemory`.
pub fn choose_palette(pixels: &[u8], max_colors: u16) -> Result<PaletteChoice> {
    let choice = palette::choose_palette(Global, pixels, max_colors)?;
    Ok(PaletteChoice {
        colors: choice.colors.into_exact()?,
        indices: choice.indices.into_exact()?,
        error: choice.error,
        witnesses: choice.witnesses.into_exact()?,
    })
}

/// A refined palette, each pixel's palette index, and its summed squared error.
#[derive(Clone, Debug, PartialEq, Eq)]
pub struct RefinedPalette {
    /// The entries: red, green, blue, as a register shows them.
    pub colors: Vec<[u8; 3]>,
    /// The palette index of each pixel, 0 for a transparent pixel.
    pub indices: Vec<u8>,
    /// The sum over all opaque pixels of the squared distance to the nearest entry.
    pub error: u64,
}

/// Returns a refined palette of an image of RGBA pixels, four bytes each.
///
/// ```
/// use icy_sixel::palette::refine_palette;
///
/// let pixels = [[255, 255, 255, 255], [10, 0, 0, 255], [0, 0, 0, 255]].concat();
/// let palette = refine_palette(&pixels, 2)?;
/// assert_eq!(palette.colors, [[5, 0, 0], [255, 255, 255]]);
/// assert_eq!(palette.indices, [1, 0, 0]);
/// assert_eq!(palette.error, 50);
/// # Ok::<(), icy_sixel::SixelError>(())
/// ```
///
/// Only opaque pixels count. There are at most `max_colors` entries, 1 to 256, each a color that a
/// register shows. If the opaque pixels have at most `max_colors` colors, each has its entry,
/// rounded to percentages. Otherwise the summed squared error is small, and the last entries are
/// chosen farthest first.
///
/// # Errors
///
/// `BufferSizeMismatch` if the length is no multiple of four; it expects the length rounded down.
/// `InvalidData` if `max_colors` is 0 or above 256, and for more than 67,108,864 pixels. Otherwise
/// only `OutOfMemory`.
pub fn refine_palette(pixels: &[u8], max_colors: u16) -> Result<RefinedPalette> {
    let refined = palette::refine_palette(Global, pixels, max_colors)?;
    Ok(RefinedPalette {
        colors: refined.colors.into_exact()?,
        indices: refined.indices.into_exact()?,
        error: refined.error,
    })
}

/// Counts the different colors of RGBA pixels, four bytes each.
///
/// ```
/// use icy_sixel::palette::count_colors;
///
/// let pixels = [[255, 0, 0, 255], [51, 0, 0, 255], [1, 1, 1, 0]].concat();
/// let distinct = count_colors(&pixels)?;
/// assert!(distinct.count == 2 && distinct.are_exact);
/// assert!(!count_colors(&[1, 0, 0, 255])?.are_exact);
/// # Ok::<(), icy_sixel::SixelError>(())
/// ```
///
/// Only opaque pixels count. If the colors are exact and at most 256, a refined palette of 256
/// colors has them all, and a decoder shows the very pixels.
///
/// # Errors
///
/// `OutOfMemory` if an allocation fails.
pub fn count_colors(pixels: &[u8]) -> Result<DistinctColors> {
    Ok(palette::count_colors(Global, pixels)?)
}
