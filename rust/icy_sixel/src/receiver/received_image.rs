//! An image that a decoder has finished, and copies of its rows.

use crate::error::{Result, SixelError};
use crate::proved;
use crate::receiver::{ChannelOrder, Height, RowLayout};
use crate::sixel_image::{BackgroundMode, PixelAspectRatio, SixelImage};
use alloc::vec::Vec;

/// An image that was decoded, without the rows that were released.
#[derive(Clone, Debug, PartialEq, Eq)]
pub struct ReceivedImage {
    /// The pixels of the rows from `first_row` on: red, green, blue, alpha.
    pub pixels: Vec<u8>,
    /// Pixels in a row.
    pub width: usize,
    /// Rows of the whole image.
    pub height: usize,
    /// How many rows from the top were released, at most the height.
    pub first_row: usize,
    /// Rows down to the last one with a set pixel, or 0 if there is none.
    ///
    /// It is at most the height, because an image can end above that row.
    pub drawn_height: usize,
    /// The last width above 0 that raster attributes name, or 0 if there is none.
    pub raster_width: usize,
    /// The last height above 0 that raster attributes name, or 0 if there is none.
    pub raster_height: usize,
    /// How many commands were ignored, if the image is lenient. The number saturates.
    pub ignored_commands: u64,
    /// Whether the end of the image was fed: the terminator of a payload or of a DCS sequence.
    pub is_complete: bool,
    /// The shape of a pixel.
    pub aspect_ratio: PixelAspectRatio,
    /// Whether pixels that were not drawn are opaque or transparent.
    pub background_mode: BackgroundMode,
}

impl ReceivedImage {
    /// The image that ends at this height. No pixel is copied.
    pub(crate) fn of(
        mut image: proved::ReceivedImage,
        height: Height,
        is_complete: bool,
    ) -> Result<Self> {
        image.crop(height);
        Ok(Self {
            pixels: image.pixels.into_exact()?,
            width: image.width,
            height: image.height,
            first_row: image.first_row,
            drawn_height: image.drawn_height,
            raster_width: image.raster_width,
            raster_height: image.raster_height,
            ignored_commands: image.ignored_commands,
            is_complete,
            aspect_ratio: image.aspect_ratio,
            background_mode: image.background_mode,
        })
    }

    /// Whether no pixel is set and no raster attributes name a height.
    ///
    /// Terminals do not move their cursor for such an image.
    #[must_use]
    pub fn is_empty(&self) -> bool {
        self.drawn_height == 0 && self.raster_height == 0
    }

    /// Copies rows of the image to the caller's memory.
    ///
    /// The rows are `first` up to before `first + rows`. They lie as those of
    /// [`SixelReceiver::copy_rows`](super::SixelReceiver::copy_rows). Columns on the right of the
    /// image are transparent.
    ///
    /// # Errors
    ///
    /// In this order:
    ///
    /// - `InvalidData` with `rows are not final`: `first + rows` is greater than the height.
    /// - `InvalidData` with `rows were released`: `first` is less than `first_row`.
    /// - The errors about the layout and the length of `out` that `SixelReceiver::copy_rows` has.
    pub fn copy_rows(
        &self,
        first: usize,
        rows: usize,
        layout: RowLayout,
        out: &mut [u8],
    ) -> Result<()> {
        if first.checked_add(rows).is_none_or(|end| end > self.height) {
            return Err(proved::SixelError::rows_not_final().into());
        }
        if first < self.first_row {
            return Err(proved::SixelError::rows_released().into());
        }
        check_layout(layout, rows, out.len())?;
        for row in 0..rows {
            let from = 4 * self.width * (first - self.first_row + row);
            let source = &self.pixels[from..from + 4 * self.width];
            let target = &mut out[layout.stride * row..][..4 * layout.columns];
            let shared = source.len().min(target.len());
            target[..shared].copy_from_slice(&source[..shared]);
            target[shared..].fill(0);
            if layout.order == ChannelOrder::Bgra {
                target.chunks_exact_mut(4).for_each(|pixel| pixel.swap(0, 2));
            }
        }
        Ok(())
    }

    /// Returns the whole image. No pixel is copied.
    ///
    /// # Errors
    ///
    /// `InvalidData` with `rows were released` if no memory has all rows.
    pub fn into_image(self) -> Result<SixelImage> {
        if self.first_row > 0 {
            return Err(proved::SixelError::rows_released().into());
        }
        Ok(SixelImage {
            pixels: self.pixels,
            width: self.width,
            height: self.height,
            aspect_ratio: self.aspect_ratio,
            background_mode: self.background_mode,
        })
    }
}

/// Checks that `rows` rows lie apart from each other in `actual` bytes of memory.
fn check_layout(layout: RowLayout, rows: usize, actual: usize) -> Result<()> {
    if layout.columns.max(1) > layout.stride / 4 {
        return Err(proved::SixelError::short_stride().into());
    }
    let above = rows.saturating_sub(1).checked_mul(layout.stride);
    match above.and_then(|above| above.checked_add(4 * layout.columns)) {
        _ if rows == 0 => Ok(()),
        None => Err(SixelError::IntegerOverflow),
        Some(expected) if actual < expected => {
            Err(SixelError::BufferSizeMismatch { expected, actual })
        }
        Some(_) => Ok(()),
    }
}
