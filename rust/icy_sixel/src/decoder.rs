//! Decoding: of a payload or a DCS sequence, in one call or in chunks.
//!
//! A payload is the data between the `q` and the terminator of a DCS sequence.

mod dcs_session;
mod drawn;
mod session;
mod stream;

use crate::error::{Result, SixelError};
use crate::proved;
use crate::rattle::rattle_std::alloc::Global;
use crate::rattle::rattle_std::prelude::Box;
pub use crate::rattle::sixel_base::settings::DcsSettings;
pub use crate::rattle::sixel_base::status::{SixelDcsFeedStatus, SixelFeedStatus};
use crate::receiver::{FailedFeed, Height, Received, ReceivedImage};
use crate::sixel_image::SixelImage;
use alloc::alloc::handle_alloc_error;
use core::alloc::Layout;
use core::fmt;
pub use dcs_session::{SixelDcsFeedResult, SixelDcsStreamDecoder};
pub use stream::{SixelFeedResult, SixelStreamDecoder};

/// A decoder: 256 color registers from image to image, and the host's settings.
///
/// A register has the color that the host set or a decoded image defined. An error changes no
/// register. The settings are whether images are cropped, how many pixels an image can have, and
/// its clip. They apply to each image and session that is begun afterwards.
///
/// A decoder is `Send` and `Sync`, and so are its sessions.
pub struct SixelDecoder {
    /// The decoder, and the image that a session or a receiver has open.
    pub(crate) core: Box<proved::SixelReceiver>,
    /// Where images end.
    pub(crate) height: Height,
}

impl SixelDecoder {
    /// Creates a decoder with the registers that a terminal has when it is switched on.
    ///
    /// It crops and clips no image, and its limit is 67,108,864 pixels. The call allocates some
    /// kilobytes. If that fails it ends the process, as a `Box` does. [`try_new`](Self::try_new)
    /// does not.
    #[must_use]
    pub fn new() -> Self {
        Self::try_new().unwrap_or_else(|_| end_without_memory())
    }

    /// Creates a decoder as [`new`](Self::new) does, or returns an error.
    ///
    /// # Errors
    ///
    /// [`OutOfMemory`](crate::SixelError::OutOfMemory).
    pub fn try_new() -> Result<Self> {
        Self::of(proved::SixelDecoder::new(), Height::Bands)
    }

    /// Copies the decoder as `clone` does, or returns an error.
    ///
    /// # Errors
    ///
    /// [`OutOfMemory`](crate::SixelError::OutOfMemory).
    pub fn try_clone(&self) -> Result<Self> {
        Self::of(self.core.decoder().clone(), self.height)
    }

    /// A decoder without an open image, whose images end at this height.
    fn of(decoder: proved::SixelDecoder, height: Height) -> Result<Self> {
        match Box::new(Global, proved::SixelReceiver::with_decoder(decoder)) {
            Ok(core) => Ok(Self { core, height }),
            Err(_) => Err(SixelError::OutOfMemory),
        }
    }

    /// Returns the color of a register: red, green and blue, a byte each.
    #[must_use]
    pub fn register(&self, register: u8) -> [u8; 3] {
        self.core.decoder().register(register)
    }

    /// Sets the color of a register: red, green and blue, a byte each.
    ///
    /// A terminal has a palette of its own. Register 0 is the background of an opaque image.
    pub fn set_register(&mut self, register: u8, color: [u8; 3]) {
        self.core.decoder_mut().set_register(register, color);
    }

    /// Returns the colors of all registers: red, green and blue, a byte each.
    #[must_use]
    pub fn registers(&self) -> [[u8; 3]; 256] {
        self.core.decoder().registers()
    }

    /// Sets the colors of the registers from `first` on.
    ///
    /// A color is red, green and blue, a byte each. A terminal sets its whole palette by one call.
    /// Colors that are left after register 255 have no effect.
    pub fn set_registers(&mut self, first: u8, colors: &[[u8; 3]]) {
        self.core.decoder_mut().set_registers(first, colors);
    }

    /// Resets the registers to those of a new decoder, without changing the settings.
    ///
    /// An image does not reset them, so the next one starts with the registers that it defined.
    pub fn reset_palette(&mut self) {
        self.core.decoder_mut().reset_palette();
    }

    /// Whether images are cropped to their raster attributes; off in a new decoder.
    #[must_use]
    pub fn raster_crop(&self) -> bool {
        self.height == Height::Raster
    }

    /// Sets whether images are cropped to their raster attributes.
    ///
    /// A sixel band has six rows, so an image whose height is no multiple of six is decoded with
    /// extra rows. With crop its height is the last height above zero in its raster attributes, if
    /// they have one. Crop does not change the width, the pixels of the remaining rows, the
    /// registers and the errors.
    pub fn set_raster_crop(&mut self, on: bool) {
        self.height = if on { Height::Raster } else { Height::Bands };
    }

    /// Returns how many pixels an image can have.
    ///
    /// The limit is 67,108,864 in a new decoder, and never more.
    #[must_use]
    pub fn pixel_limit(&self) -> usize {
        self.core.decoder().pixel_limit()
    }

    /// Sets how many pixels an image can have: at least 1, and at most 67,108,864.
    ///
    /// The extent of all sixels and raster attributes counts, also if the image is cropped or
    /// clipped. An image is rejected as soon as it has more pixels than the limit. Encoding has no
    /// such limit.
    pub fn set_pixel_limit(&mut self, pixels: usize) {
        self.core.decoder_mut().set_pixel_limit(pixels);
    }

    /// Returns the clip: how many columns and rows an image can have.
    ///
    /// They count from the left and from the top. Both are 1,000,000 in a new decoder, which clips
    /// nothing, because no image has more.
    #[must_use]
    pub fn clip(&self) -> (usize, usize) {
        self.core.decoder().clip()
    }

    /// Sets the clip: each side is at least 1, and at most 1,000,000.
    ///
    /// An image is then the picture restricted to these columns and rows, and at most as large.
    /// What lies outside is not stored. The registers and the errors are those of the whole picture.
    ///
    /// ```
    /// use icy_sixel::SixelDecoder;
    ///
    /// let mut decoder = SixelDecoder::new();
    /// decoder.set_clip(10, 5);
    /// let image = decoder.decode(b"\x1bP9;1q#1;2;100;0;0!12~\x1b\\")?;
    /// assert_eq!(image.dimensions(), (10, 5));
    /// # Ok::<(), icy_sixel::SixelError>(())
    /// ```
    pub fn set_clip(&mut self, width: usize, height: usize) {
        self.core.decoder_mut().set_clip(width, height);
    }

    /// Decodes the first DCS sequence in the bytes, or all of them as a payload.
    ///
    /// Without a DCS sequence all bytes are the payload. Bytes before the introducer and after the
    /// payload have no effect.
    ///
    /// ```
    /// use icy_sixel::SixelDecoder;
    ///
    /// let mut decoder = SixelDecoder::new();
    /// let image = decoder.decode(b"text\x1bP9;1q#1;2;100;0;0!12~\x1b\\")?;
    /// assert_eq!(image.dimensions(), (12, 6));
    /// assert_eq!(decoder.register(1), [255, 0, 0]);
    /// # Ok::<(), icy_sixel::SixelError>(())
    /// ```
    ///
    /// # Errors
    ///
    /// Those of [`decode_from_dcs`](Self::decode_from_dcs), and
    /// [`InvalidData`](crate::SixelError::InvalidData) for a header that is invalid or does not
    /// end. After an error the registers are unchanged.
    pub fn decode(&mut self, bytes: &[u8]) -> Result<SixelImage> {
        self.decode_drawn(bytes)?.into_image()
    }

    /// Decodes one payload: the data between a DCS sequence's `q` and its terminator.
    ///
    /// Bytes from the first terminator on have no effect. An empty payload is an image of one
    /// pixel.
    ///
    /// ```
    /// use icy_sixel::{DcsSettings, SixelDecoder};
    ///
    /// let settings = DcsSettings::new(Some(2), Some(1), None);
    /// let image = SixelDecoder::new().decode_from_dcs(b"#1!12~", settings)?;
    /// assert_eq!(image.corrected_dimensions(), (12, 30));
    /// # Ok::<(), icy_sixel::SixelError>(())
    /// ```
    ///
    /// # Errors
    ///
    /// After an error the registers are unchanged. The errors are:
    ///
    /// - [`InvalidData`](crate::SixelError::InvalidData) for a repeat above 65,535, a side above
    ///   1,000,000 or an area above [`pixel_limit`](Self::pixel_limit)
    /// - `IntegerOverflow` for more new lines than a row number can count
    /// - `OutOfMemory` if an allocation fails
    pub fn decode_from_dcs(&mut self, bytes: &[u8], settings: DcsSettings) -> Result<SixelImage> {
        self.decode_from_dcs_drawn(bytes, settings)?.into_image()
    }

    /// Decodes by a copy, which replaces the decoder if it succeeds.
    ///
    /// So an error leaves the registers unchanged, also if the pixels cannot be returned.
    fn by_copy(
        &mut self,
        decode: impl FnOnce(&mut proved::SixelDecoder) -> proved::Result<proved::ReceivedImage>,
    ) -> Result<ReceivedImage> {
        let mut copy = self.core.decoder().clone();
        let image = ReceivedImage::of(decode(&mut copy)?, self.height, true)?;
        *self.core = proved::SixelReceiver::with_decoder(copy);
        Ok(image)
    }

    /// Begins a payload that is decoded in chunks.
    ///
    /// The call does not allocate and is always `Ok`. The session borrows this decoder until it
    /// ends, and starts with the decoder's current registers and settings.
    ///
    /// ```
    /// use icy_sixel::{DcsSettings, SixelDecoder, SixelFeedStatus::Terminated};
    ///
    /// let mut decoder = SixelDecoder::new();
    /// let mut session = decoder.begin_frame(DcsSettings::default())?;
    /// assert_eq!(session.feed(b"#1!1")?.consumed, 4);
    /// let fed = session.feed(b"2~\x1b\\")?; // a terminator is the caller's
    /// assert_eq!((fed.consumed, fed.status), (2, Terminated(0x1b)));
    /// assert_eq!(session.finish()?.dimensions(), (12, 6));
    /// # Ok::<(), icy_sixel::SixelError>(())
    /// ```
    ///
    /// # Errors
    ///
    /// None.
    pub fn begin_frame(&mut self, settings: DcsSettings) -> Result<SixelStreamDecoder<'_>> {
        Ok(SixelStreamDecoder::new(self, settings))
    }

    /// Begins a DCS sequence that is decoded in chunks, from its introducer to its end.
    ///
    /// It does not allocate.
    ///
    /// ```
    /// use icy_sixel::{SixelDcsFeedStatus::Complete, SixelDecoder};
    ///
    /// let mut decoder = SixelDecoder::new();
    /// let mut session = decoder.begin_dcs();
    /// assert_eq!(session.feed(b"\x1bP9;1q#1!1")?.consumed, 10);
    /// let fed = session.feed(b"2~\x1b\\text")?; // what follows is the caller's
    /// assert_eq!((fed.consumed, fed.status), (4, Complete));
    /// assert_eq!(session.finish()?.dimensions(), (12, 6));
    /// # Ok::<(), icy_sixel::SixelError>(())
    /// ```
    pub fn begin_dcs(&mut self) -> SixelDcsStreamDecoder<'_> {
        SixelDcsStreamDecoder::new(self)
    }

    /// Reads a chunk of the open image.
    pub(crate) fn feed(&mut self, chunk: &[u8]) -> core::result::Result<Received, FailedFeed> {
        if let [byte] = chunk
            && let Some(received) = self.core.try_byte(*byte)
        {
            return Ok(received.into());
        }
        Ok(self.core.feed(chunk)?.into())
    }

    /// Closes the open image, and stores its registers if no error occurs.
    pub(crate) fn finish(&mut self) -> Result<ReceivedImage> {
        let before = self.core.decoder().clone();
        let is_complete = self.core.has_ended();
        let image = ReceivedImage::of(self.core.finish()?, self.height, is_complete);
        if image.is_err() {
            *self.core.decoder_mut() = before;
        }
        image
    }
}

/// Ends the process as Rust's own collections do if an allocation fails.
fn end_without_memory() -> ! {
    handle_alloc_error(Layout::new::<proved::SixelReceiver>())
}

impl Default for SixelDecoder {
    fn default() -> Self {
        Self::new()
    }
}

impl Clone for SixelDecoder {
    fn clone(&self) -> Self {
        self.try_clone().unwrap_or_else(|_| end_without_memory())
    }
}

impl fmt::Debug for SixelDecoder {
    fn fmt(&self, f: &mut fmt::Formatter<'_>) -> fmt::Result {
        f.debug_struct("SixelDecoder")
            .field("raster_crop", &self.raster_crop())
            .field("pixel_limit", &self.pixel_limit())
            .field("clip", &self.clip())
            .finish_non_exhaustive()
    }
}

/// Does what [`SixelImage::decode`] does.
///
/// # Errors
///
/// Those of [`SixelDecoder::decode`].
pub fn sixel_decode(bytes: &[u8]) -> Result<SixelImage> {
    SixelImage::decode(bytes)
}

/// Does what [`SixelImage::decode_from_dcs`] does.
///
/// # Errors
///
/// Those of [`SixelDecoder::decode_from_dcs`].
pub fn sixel_decode_from_dcs(bytes: &[u8], settings: DcsSettings) -> Result<SixelImage> {
    SixelImage::decode_from_dcs(bytes, settings)
}
