//! An image as its pixels, sizes, pixel shape and background.

use crate::decoder::DcsSettings;
use crate::encoder::{EncodeOptions, Mapping, TextForm, text_of};
use crate::error::{Result, SixelError};
use crate::proved;
use crate::rattle::rattle_std::alloc::Global;
pub use crate::rattle::sixel_base::settings::{BackgroundMode, PixelAspectRatio};
use crate::rattle::sixel_base::size::pixel_bytes;
use crate::rattle::sixel_encoder::{
    Background, Source, encode_in_palette, encode_on_background, encode_refined, encode_source,
    encode_with_indices,
};
use crate::receiver::{Height, ReceivedImage};
use alloc::string::String;
use alloc::vec::Vec;
use core::fmt;
use core::str::FromStr;

/// An image of four bytes per pixel: red, green, blue, alpha.
///
/// The pixels are stored row by row from the top, each row from the left.
#[derive(Clone, Debug, PartialEq, Eq)]
pub struct SixelImage {
    /// The pixels, `4 * width * height` bytes.
    pub pixels: Vec<u8>,
    /// Pixels in a row.
    pub width: usize,
    /// Rows.
    pub height: usize,
    /// The shape of a pixel.
    pub aspect_ratio: PixelAspectRatio,
    /// Whether pixels that were not drawn are opaque or transparent.
    pub background_mode: BackgroundMode,
}

impl SixelImage {
    /// Decodes the first DCS sequence in the bytes, or all of them as a payload.
    ///
    /// It does what [`SixelDecoder::decode`](crate::SixelDecoder::decode) of a new decoder does.
    ///
    /// ```
    /// use icy_sixel::SixelImage;
    ///
    /// let image = SixelImage::decode(b"\x1bP2;1q#1!12@\x1b\\")?;
    /// assert_eq!(image.dimensions(), (12, 6));
    /// assert_eq!(image.corrected_dimensions(), (12, 30));
    /// assert!(image.has_transparency());
    /// # Ok::<(), icy_sixel::SixelError>(())
    /// ```
    ///
    /// # Errors
    ///
    /// Those of [`SixelDecoder::decode`](crate::SixelDecoder::decode).
    pub fn decode(bytes: &[u8]) -> Result<Self> {
        let image = proved::SixelDecoder::new().decode_drawn(Global, bytes)?;
        ReceivedImage::of(image, Height::Bands, true)?.into_image()
    }

    /// Decodes one payload, as [`SixelDecoder::decode_from_dcs`] of a new decoder does.
    ///
    /// # Errors
    ///
    /// Those of [`SixelDecoder::decode_from_dcs`].
    ///
    /// [`SixelDecoder::decode_from_dcs`]: crate::SixelDecoder::decode_from_dcs
    pub fn decode_from_dcs(bytes: &[u8], settings: DcsSettings) -> Result<Self> {
        let image = proved::SixelDecoder::new().decode_from_dcs_drawn(Global, bytes, settings)?;
        ReceivedImage::of(image, Height::Bands, true)?.into_image()
    }

    /// Creates an image with square pixels and a transparent background.
    ///
    /// Sizes and number of bytes are not checked.
    #[must_use]
    pub fn from_rgba(pixels: Vec<u8>, width: usize, height: usize) -> Self {
        Self {
            pixels,
            width,
            height,
            aspect_ratio: PixelAspectRatio::Square,
            background_mode: BackgroundMode::Transparent,
        }
    }

    /// Creates an image as [`from_rgba`](Self::from_rgba), if the sizes are valid.
    ///
    /// # Errors
    ///
    /// A zero size is `InvalidDimensions`, bytes above `usize::MAX` are `IntegerOverflow`, and
    /// another number of bytes is `BufferSizeMismatch`, in this order. The pixels are dropped then.
    pub fn try_from_rgba(pixels: Vec<u8>, width: usize, height: usize) -> Result<Self> {
        let (expected, actual) = (pixel_bytes(width, height)?, pixels.len());
        if actual != expected {
            return Err(SixelError::BufferSizeMismatch { expected, actual });
        }
        Ok(Self::from_rgba(pixels, width, height))
    }

    /// Returns this image with another pixel shape.
    #[must_use]
    pub fn with_aspect_ratio(self, ratio: PixelAspectRatio) -> Self {
        Self { aspect_ratio: ratio, ..self }
    }

    /// Returns this image with another background.
    #[must_use]
    pub fn with_background_mode(self, mode: BackgroundMode) -> Self {
        Self { background_mode: mode, ..self }
    }

    /// Returns width and height in pixels.
    #[must_use]
    pub fn dimensions(&self) -> (usize, usize) {
        (self.width, self.height)
    }

    /// Returns the displayed width and height, in units of a pixel's width.
    ///
    /// A height above `usize::MAX` is `usize::MAX`.
    #[must_use]
    pub fn corrected_dimensions(&self) -> (usize, usize) {
        let pad = usize::from(self.aspect_ratio.pad());
        (self.width, self.height.saturating_mul(pad))
    }

    /// Returns whether a pixel is transparent: its alpha is below 128.
    #[must_use]
    pub fn has_transparency(&self) -> bool {
        self.pixels.chunks_exact(4).any(|pixel| pixel[3] < 128)
    }

    /// Returns the SIXEL output of this image with the default options.
    ///
    /// # Errors
    ///
    /// Those of [`encode_with`](Self::encode_with).
    pub fn encode(&self) -> Result<String> {
        self.encode_with(&EncodeOptions::default())
    }

    /// Returns the SIXEL output of this image.
    ///
    /// ```
    /// use icy_sixel::{EncodeOptions, SixelImage};
    ///
    /// let red = SixelImage::try_from_rgba([255, 0, 0, 255].repeat(12 * 6), 12, 6)?;
    /// let text = red.encode_with(&EncodeOptions { max_colors: 16 })?;
    /// assert!(text.starts_with("\x1bP9;1;0q"));
    /// # Ok::<(), icy_sixel::SixelError>(())
    /// ```
    ///
    /// Colors of transparent pixels never affect the output. Nor does an alpha below 128.
    ///
    /// # Errors
    ///
    /// In this order: a zero size (`InvalidDimensions`), bytes above `usize::MAX`
    /// (`IntegerOverflow`), sizes above the limits (`InvalidDimensions`), and pixels of another
    /// number of bytes (`BufferSizeMismatch`). `OutOfMemory` if an allocation fails.
    pub fn encode_with(&self, options: &EncodeOptions) -> Result<String> {
        text_of(encode_source(Global, &self.source(), options.max_colors, TextForm::Plain))
    }

    /// Returns the compact SIXEL output of this image: the same pixels in fewer bytes.
    ///
    /// Its palette is that of [`encode_with`](Self::encode_with), and so are its errors. A decoder
    /// returns the same image from both outputs. The registers that it has afterwards differ.
    ///
    /// # Errors
    ///
    /// Those of [`encode_with`](Self::encode_with).
    pub fn encode_compact(&self, options: &EncodeOptions) -> Result<String> {
        text_of(encode_source(Global, &self.source(), options.max_colors, TextForm::Compact))
    }

    /// Returns the SIXEL output of this image in a given palette of 1 to 256 colors.
    ///
    /// ```
    /// use icy_sixel::encoder::{Dither, Mapping, TextForm, Tolerance};
    /// use icy_sixel::SixelImage;
    ///
    /// let gray = SixelImage::try_from_rgba([100, 100, 100, 255].repeat(3), 3, 1)?;
    /// let dither = Dither::Diffusion { strength: 8 };
    /// let mapping = Mapping { dither, tolerance: Tolerance::Squared(0) };
    /// let colors = [[0, 0, 0], [255, 255, 255]];
    /// let text = gray.encode_with_palette(&colors, mapping, TextForm::Compact)?;
    /// assert!(text.ends_with("#0;2;0;0;0#1;2;100;100;100#0@@@$#1?@\x1b\\"));
    /// # Ok::<(), icy_sixel::SixelError>(())
    /// ```
    ///
    /// The palette indices are those of [`palette_indices`](crate::encoder::palette_indices).
    /// Colors of transparent pixels never affect the output.
    ///
    /// # Errors
    ///
    /// Those of [`encode_with`](Self::encode_with), then
    /// `InvalidData("number of colors is not 1 to 256")`.
    pub fn encode_with_palette(
        &self,
        colors: &[[u8; 3]],
        mapping: Mapping,
        form: TextForm,
    ) -> Result<String> {
        text_of(encode_in_palette(Global, &self.source(), colors, mapping, form))
    }

    /// Returns the SIXEL output of this image by given palette indices.
    ///
    /// There is an index for each pixel, row by row. The indices of transparent pixels have no
    /// effect, and neither have the colors of pixels.
    ///
    /// # Errors
    ///
    /// Those of [`encode_with_palette`](Self::encode_with_palette), then:
    ///
    /// - `BufferSizeMismatch` for another number of indices than there are pixels
    /// - `InvalidData("palette index out of range")` for an opaque pixel whose index is past the
    ///   palette
    pub fn encode_indexed(
        &self,
        colors: &[[u8; 3]],
        indices: &[u8],
        form: TextForm,
    ) -> Result<String> {
        text_of(encode_with_indices(Global, &self.source(), colors, indices, form))
    }

    /// Returns the SIXEL output of this image in a refined palette.
    ///
    /// ```
    /// use icy_sixel::encoder::{Dither, Mapping, TextForm, Tolerance};
    /// use icy_sixel::SixelImage;
    ///
    /// let gray = SixelImage::try_from_rgba([100, 100, 100, 255].repeat(3), 3, 1)?;
    /// let dither = Dither::Diffusion { strength: 7 };
    /// let mapping = Mapping { dither, tolerance: Tolerance::Auto };
    /// let text = gray.encode_refined(16, mapping, TextForm::Compact)?;
    /// assert!(text.ends_with("#0;2;39;39;39#0@@@\x1b\\"));
    /// # Ok::<(), icy_sixel::SixelError>(())
    /// ```
    ///
    /// The palette is that of [`refine_palette`](crate::palette::refine_palette), of 1 to 256
    /// colors. For error diffusion, up to 64 colors are moved away from the mean color, unless the
    /// image is flat art. A decoder shows the colors without rounding.
    ///
    /// # Errors
    ///
    /// Those of [`encode_with_palette`](Self::encode_with_palette), with `max_colors` as the number
    /// of colors.
    pub fn encode_refined(
        &self,
        max_colors: u16,
        mapping: Mapping,
        form: TextForm,
    ) -> Result<String> {
        text_of(encode_refined(Global, &self.source(), max_colors, mapping, form))
    }

    /// Returns the SIXEL output of this image on an opaque background of its own color.
    ///
    /// ```
    /// use icy_sixel::encoder::{Background, Dither, Mapping, TextForm, Tolerance};
    /// use icy_sixel::SixelImage;
    ///
    /// let image = SixelImage::try_from_rgba(vec![255, 0, 0, 255, 0, 0, 0, 0], 2, 1)?;
    /// let background = Background { color: [0, 0, 255], max_colors: 16 };
    /// let mapping = Mapping { dither: Dither::Off, tolerance: Tolerance::Squared(0) };
    /// let text = image.encode_on_background(background, mapping, TextForm::Compact)?;
    /// assert!(text.ends_with("#0;2;0;0;100#1;2;100;0;0#1@\x1b\\"));
    /// # Ok::<(), icy_sixel::SixelError>(())
    /// ```
    ///
    /// Register 0 has the background, and no pixel is drawn in it. Terminals such as xterm paint
    /// transparent pixels of an opaque image in that color. The other registers have a refined
    /// palette of at most `max_colors - 1` colors, or 1.
    ///
    /// # Errors
    ///
    /// Those of [`encode_refined`](Self::encode_refined).
    pub fn encode_on_background(
        &self,
        background: Background,
        mapping: Mapping,
        form: TextForm,
    ) -> Result<String> {
        text_of(encode_on_background(Global, &self.source(), background, mapping, form))
    }

    /// This image with its pixels borrowed.
    fn source(&self) -> Source<'_> {
        Source {
            pixels: &self.pixels,
            width: self.width,
            height: self.height,
            aspect_ratio: self.aspect_ratio,
            background_mode: self.background_mode,
        }
    }
}

/// Writes the output of [`encode`](SixelImage::encode), or a line with its error.
impl fmt::Display for SixelImage {
    fn fmt(&self, f: &mut fmt::Formatter<'_>) -> fmt::Result {
        match self.encode() {
            Ok(text) => f.write_str(&text),
            Err(error) => write!(f, "[SIXEL encoding failed: {error}]"),
        }
    }
}

/// Decodes the bytes of a text, as [`decode`](SixelImage::decode) does.
impl FromStr for SixelImage {
    type Err = SixelError;

    fn from_str(text: &str) -> Result<Self> {
        Self::decode(text.as_bytes())
    }
}
