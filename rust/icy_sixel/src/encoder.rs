//! Encoding: the SIXEL output of an image.

mod pixel_format;

use crate::error::{Result, SixelError};
use crate::proved;
use crate::rattle::rattle_std::alloc::Global;
use crate::rattle::rattle_std::prelude::String as ProvedText;
use crate::rattle::sixel_base::size;
use crate::rattle::sixel_encoder::{
    self, Source, encode_in_palette, encode_on_background, encode_refined, encode_source,
    encode_with_indices,
};
pub use crate::rattle::sixel_encoder::{Background, TextForm};
pub use crate::rattle::sixel_palette::dither::{Amplitude, Dither};
use crate::rattle::sixel_palette::dithering;
pub use crate::rattle::sixel_palette::mapping::{Mapping, Tolerance};
use crate::sixel_image::{BackgroundMode, PixelAspectRatio};
use alloc::borrow::Cow;
use alloc::string::String;
use alloc::vec::Vec;
pub use pixel_format::PixelFormat;

/// How an image is encoded.
#[derive(Clone, Debug)]
pub struct EncodeOptions {
    /// How many entries the palette has at most, clamped to 2 to 256.
    pub max_colors: u16,
}

impl Default for EncodeOptions {
    fn default() -> Self {
        Self { max_colors: 256 }
    }
}

/// The palette of an output.
#[derive(Clone, Copy, Debug, PartialEq, Eq)]
pub enum PaletteMode<'a> {
    /// That of [`refine_palette`](crate::refine_palette), with at most 1 to 256 colors.
    Refined(u16),
    /// An opaque background, and a refined palette of the other colors.
    ///
    /// Register 0 has the background, and no pixel is drawn in it.
    OnBackground(Background),
    /// That of [`choose_palette`](crate::choose_palette), with at most 2 to 256 colors.
    Farthest(u16),
    /// These 1 to 256 colors. The first one is the background of an opaque image.
    Given(&'a [[u8; 3]]),
}

/// How pixels of any format are encoded.
///
/// ```
/// use icy_sixel::encoder::{Encoding, PixelFormat, TextForm};
///
/// let red = [0, 0, 255].repeat(2);
/// let text = Encoding::new(2, 1).format(PixelFormat::Bgr).form(TextForm::Compact).encode(&red)?;
/// assert_eq!(text, "\x1bP9;1;0q\"1;1;2;1#0;2;100;0;0#0@@\x1b\\");
/// # Ok::<(), icy_sixel::SixelError>(())
/// ```
///
/// By default pixels are RGBA, their rows have no gaps, and they get a refined palette of up to
/// 256 colors without dithering. The output is plain, with square pixels on a transparent
/// background.
#[derive(Clone, Copy, Debug)]
pub struct Encoding<'a> {
    width: usize,
    height: usize,
    stride: usize,
    format: PixelFormat,
    aspect_ratio: PixelAspectRatio,
    background_mode: BackgroundMode,
    palette: PaletteMode<'a>,
    mapping: Mapping,
    form: TextForm,
}

impl<'a> Encoding<'a> {
    /// Returns the encoding of an image of this size in pixels.
    #[must_use]
    pub fn new(width: usize, height: usize) -> Self {
        Self {
            width,
            height,
            stride: 0,
            format: PixelFormat::default(),
            aspect_ratio: PixelAspectRatio::default(),
            background_mode: BackgroundMode::default(),
            palette: PaletteMode::Refined(256),
            mapping: Mapping { dither: Dither::Off, tolerance: Tolerance::Squared(0) },
            form: TextForm::Plain,
        }
    }

    /// Sets the number of bytes from row to row, or 0 for rows without gaps.
    #[must_use]
    pub fn stride(self, stride: usize) -> Self {
        Self { stride, ..self }
    }

    /// Sets the format of the pixels.
    #[must_use]
    pub fn format(self, format: PixelFormat) -> Self {
        Self { format, ..self }
    }

    /// Sets the shape of a pixel.
    #[must_use]
    pub fn aspect_ratio(self, aspect_ratio: PixelAspectRatio) -> Self {
        Self { aspect_ratio, ..self }
    }

    /// Sets the background.
    #[must_use]
    pub fn background_mode(self, background_mode: BackgroundMode) -> Self {
        Self { background_mode, ..self }
    }

    /// Sets the palette. Indexed pixels need a given one.
    #[must_use]
    pub fn palette(self, palette: PaletteMode<'a>) -> Self {
        Self { palette, ..self }
    }

    /// Sets how pixels get their entries, except for a farthest palette and indexed pixels.
    #[must_use]
    pub fn mapping(self, mapping: Mapping) -> Self {
        Self { mapping, ..self }
    }

    /// Sets the form of the output.
    #[must_use]
    pub fn form(self, form: TextForm) -> Self {
        Self { form, ..self }
    }

    /// Returns the SIXEL output of pixels, row by row. They may continue after the last row.
    ///
    /// # Errors
    ///
    /// The first of these that applies:
    ///
    /// - those of [`validate_encode_dimensions`]
    /// - `InvalidData("stride is shorter than a row")`
    /// - `IntegerOverflow`: the rows overflow `usize`
    /// - `BufferSizeMismatch`: there are too few pixels
    /// - `InvalidData("number of colors is not 1 to 256")`
    /// - `InvalidData("palette index out of range")`: the index of an opaque pixel
    /// - `OutOfMemory`: an allocation fails
    pub fn encode(&self, pixels: &[u8]) -> Result<String> {
        validate_encode_dimensions(self.width, self.height)?;
        let rows = self.rows_of(pixels)?;
        let source = Source {
            pixels: &self.format.to_rgba(&rows)?,
            width: self.width,
            height: self.height,
            aspect_ratio: self.aspect_ratio,
            background_mode: self.background_mode,
        };
        text_of(match (self.format, self.palette) {
            (PixelFormat::Indexed { .. }, PaletteMode::Given(colors)) => {
                encode_with_indices(Global, &source, colors, &rows, self.form)
            }
            (PixelFormat::Indexed { .. }, _) => Err(proved::SixelError::color_count()),
            (_, PaletteMode::Refined(max_colors)) => {
                encode_refined(Global, &source, max_colors, self.mapping, self.form)
            }
            (_, PaletteMode::OnBackground(background)) => {
                encode_on_background(Global, &source, background, self.mapping, self.form)
            }
            (_, PaletteMode::Farthest(max_colors)) => {
                encode_source(Global, &source, max_colors, self.form)
            }
            (_, PaletteMode::Given(colors)) => {
                encode_in_palette(Global, &source, colors, self.mapping, self.form)
            }
        })
    }

    /// The rows of the image, without the bytes between them.
    fn rows_of<'p>(&self, pixels: &'p [u8]) -> Result<Cow<'p, [u8]>> {
        let row = self.format.bytes() * self.width;
        let stride = if self.stride == 0 { row } else { self.stride };
        if stride < row {
            return Err(proved::SixelError::short_stride().into());
        }
        let above = stride.checked_mul(self.height - 1);
        let Some(expected) = above.and_then(|above| above.checked_add(row)) else {
            return Err(SixelError::IntegerOverflow);
        };
        if pixels.len() < expected {
            return Err(SixelError::BufferSizeMismatch { expected, actual: pixels.len() });
        }
        if stride == row {
            return Ok(Cow::Borrowed(&pixels[..expected]));
        }
        let mut rows = Vec::new();
        rows.try_reserve_exact(row * self.height)?;
        for bytes in pixels.chunks(stride).take(self.height) {
            rows.extend_from_slice(&bytes[..row]);
        }
        Ok(Cow::Owned(rows))
    }
}

/// Returns the palette index of each pixel in a palette of 1 to 256 colors.
///
/// ```
/// use icy_sixel::encoder::{Dither, Mapping, Tolerance, palette_indices};
///
/// let gray = [100, 100, 100, 255].repeat(3);
/// let colors = [[0, 0, 0], [255, 255, 255]];
/// let mapping = |dither| Mapping { dither, tolerance: Tolerance::Squared(0) };
/// let diffused = mapping(Dither::Diffusion { strength: 8 });
/// assert_eq!(palette_indices(&gray, 3, &colors, diffused)?, [0, 1, 0]);
/// assert_eq!(palette_indices(&gray, 3, &colors, mapping(Dither::Off))?, [0, 0, 0]);
/// # Ok::<(), icy_sixel::SixelError>(())
/// ```
///
/// The pixels are rows of `width`, four bytes each. With `Tolerance::Squared(0)` and `Dither::Off`
/// each opaque pixel has the index of its nearest entry, the first of equals. In a palette of grays
/// the brightness of the pixels is mapped in place of their colors, but with `Dither::Off` and
/// `Tolerance::Squared` their colors are. A transparent pixel has index 0, and its color has no
/// effect.
///
/// # Errors
///
/// The first of these that applies:
///
/// - `InvalidDimensions`: the width is zero
/// - `BufferSizeMismatch`: the bytes are not whole rows
/// - `InvalidData("number of colors is not 1 to 256")`
/// - `OutOfMemory`: an allocation fails
pub fn palette_indices(
    pixels: &[u8],
    width: usize,
    colors: &[[u8; 3]],
    mapping: Mapping,
) -> Result<Vec<u8>> {
    let indices = dithering::palette_indices(Global, pixels, width, colors, mapping)?;
    Ok(indices.into_exact()?)
}

/// Returns the SIXEL output of pixels of four bytes each.
///
/// It does what [`encode_with`] does for an image of them.
///
/// ```
/// use icy_sixel::{EncodeOptions, sixel_encode};
///
/// let text = sixel_encode(&[255, 0, 0, 255], 1, 1, &EncodeOptions::default())?;
/// assert_eq!(text, "\x1bP9;1;0q\"1;1;1;1#0;2;100;0;0#0@$-\x1b\\");
/// # Ok::<(), icy_sixel::SixelError>(())
/// ```
///
/// # Errors
///
/// Those of [`encode_with`].
///
/// [`encode_with`]: crate::SixelImage::encode_with
pub fn sixel_encode(
    pixels: &[u8],
    width: usize,
    height: usize,
    options: &EncodeOptions,
) -> Result<String> {
    let options = sixel_encoder::EncodeOptions { max_colors: options.max_colors };
    text_of(sixel_encoder::sixel_encode(Global, pixels, width, height, &options))
}

/// Does what [`sixel_encode`] does with the default options.
///
/// # Errors
///
/// Those of [`sixel_encode`].
pub fn sixel_encode_default(pixels: &[u8], width: usize, height: usize) -> Result<String> {
    sixel_encode(pixels, width, height, &EncodeOptions::default())
}

/// Returns an error unless an image of this size can be encoded.
///
/// # Errors
///
/// In this order:
///
/// - [`InvalidDimensions`](SixelError::InvalidDimensions) for a zero size
/// - [`IntegerOverflow`](SixelError::IntegerOverflow) for more bytes of pixels than `usize::MAX`
/// - `InvalidDimensions` for a side above 1,000,000 or an area above 67,108,864, where the height
///   is rounded up to whole bands of six rows
pub fn validate_encode_dimensions(width: usize, height: usize) -> Result<()> {
    Ok(size::validate_encode_dimensions(width, height)?)
}

/// The output that the core returns, without spare capacity.
pub(crate) fn text_of(output: proved::Result<ProvedText>) -> Result<String> {
    Ok(output?.into_exact()?)
}
