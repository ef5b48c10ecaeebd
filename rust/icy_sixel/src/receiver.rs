//! A decoder and its open image, for a host that stores both in one struct.

mod received_image;
mod rows;

use crate::decoder::{DcsSettings, SixelDecoder};
use crate::error::{Result, SixelError};
use crate::proved;
pub use crate::proved::{ChannelOrder, Height, RowLayout};
use crate::rattle::rattle_std::alloc::Global;
use crate::script::Status;
use core::error::Error;
use core::fmt;
pub use received_image::ReceivedImage;
pub use rows::{BandStatus, ReceivedBand};

/// The result of a feed of a receiver.
#[derive(Clone, Copy, Debug, PartialEq, Eq)]
#[must_use = "it says how many bytes belong to the image, and whether it has ended"]
pub struct Received {
    /// How many bytes of the chunk are the image's own.
    pub consumed: usize,
    /// The status, as a session of that form returns it.
    pub status: Status,
}

impl From<proved::Received> for Received {
    fn from(received: proved::Received) -> Self {
        Self { consumed: received.consumed, status: received.status.into() }
    }
}

/// The error of a failed feed, with the bytes of the image and its status.
#[derive(Clone, Debug, PartialEq, Eq)]
pub struct FailedFeed {
    /// How many bytes of the chunk are the image's own.
    pub consumed: usize,
    /// Whether the image has ended.
    pub status: Status,
    /// The error.
    pub error: SixelError,
}

impl fmt::Display for FailedFeed {
    fn fmt(&self, f: &mut fmt::Formatter<'_>) -> fmt::Result {
        self.error.fmt(f)
    }
}

impl Error for FailedFeed {}

impl From<FailedFeed> for SixelError {
    fn from(failed: FailedFeed) -> Self {
        failed.error
    }
}

impl From<proved::FailedFeed> for FailedFeed {
    fn from(failed: proved::FailedFeed) -> Self {
        let proved::FailedFeed { consumed, status, error } = failed;
        Self { consumed, status: status.into(), error: error.into() }
    }
}

/// A decoder, and at most one image that it is receiving.
///
/// The calls are those of the decoder and of its two sessions, [`SixelStreamDecoder`] and
/// [`SixelDcsStreamDecoder`]. The sessions borrow a decoder. A receiver owns it, and can be stored
/// in a struct between chunks. An image changes registers only by a successful
/// [`finish`](Self::finish).
///
/// ```
/// use icy_sixel::{SixelReceiver, Status};
/// use icy_sixel::SixelDcsFeedStatus::{Complete, NeedMoreData};
///
/// let mut receiver = SixelReceiver::new();
/// receiver.begin_dcs();
/// assert_eq!(receiver.feed(b"\x1bP9;1q#1!1")?.status, Status::Dcs(NeedMoreData));
/// let fed = receiver.feed(b"2~\x1b\\text")?; // what follows is the caller's
/// assert_eq!((fed.consumed, fed.status), (4, Status::Dcs(Complete)));
/// let image = receiver.finish()?;
/// assert_eq!((image.width, image.height, image.is_complete), (12, 6, true));
/// # Ok::<(), icy_sixel::SixelError>(())
/// ```
///
/// [`SixelStreamDecoder`]: crate::SixelStreamDecoder
/// [`SixelDcsStreamDecoder`]: crate::SixelDcsStreamDecoder
#[derive(Debug)]
pub struct SixelReceiver {
    decoder: SixelDecoder,
}

impl SixelReceiver {
    /// Creates a receiver with a new decoder and no open image.
    #[must_use]
    pub fn new() -> Self {
        Self::with_decoder(SixelDecoder::new())
    }

    /// Creates a receiver with this decoder and no open image.
    #[must_use]
    pub fn with_decoder(mut decoder: SixelDecoder) -> Self {
        decoder.core.abort();
        Self { decoder }
    }

    /// Returns the decoder, and aborts an open image.
    ///
    /// Its images are neither lenient nor transparent where nothing is drawn, and begin with
    /// register 0: these settings are the receiver's.
    #[must_use]
    pub fn into_decoder(mut self) -> SixelDecoder {
        self.abort();
        self.set_lenient(false);
        self.set_transparent(false);
        self.set_first_register(0);
        self.decoder
    }

    /// Returns the decoder, with the registers that the last finished image left.
    #[must_use]
    pub fn decoder(&self) -> &SixelDecoder {
        &self.decoder
    }

    /// Whether an image is open: it was begun, and neither finished nor aborted.
    #[must_use]
    pub fn is_receiving(&self) -> bool {
        self.decoder.core.is_receiving()
    }

    /// Begins a payload with the decoder's current registers and settings.
    ///
    /// An open image is aborted. The call does not allocate.
    pub fn begin_frame(&mut self, settings: DcsSettings) {
        self.decoder.core.begin_frame(Global, settings);
    }

    /// Begins a DCS sequence with the decoder's current registers and settings.
    ///
    /// An open image is aborted. The call does not allocate.
    pub fn begin_dcs(&mut self) {
        self.decoder.core.begin_dcs(Global);
    }

    /// Reads a chunk of the open image, and does not consume what follows the image.
    ///
    /// # Errors
    ///
    /// Those of [`SixelStreamDecoder::feed`] and [`SixelDcsStreamDecoder::feed`], but after an
    /// error each feed returns that error again. If no image is open, it is `InvalidData` with
    /// `stream decoder has failed`.
    ///
    /// Errors have no effect on which bytes belong to the image. A feed that fails reports how many
    /// bytes of the chunk are the image's own, and whether the image has ended. So a host drops
    /// these bytes, and goes on with those after the image. A DCS sequence with a wrong header, or
    /// without an introducer, goes on up to its first terminator.
    ///
    /// [`SixelStreamDecoder::feed`]: crate::SixelStreamDecoder::feed
    /// [`SixelDcsStreamDecoder::feed`]: crate::SixelDcsStreamDecoder::feed
    pub fn feed(&mut self, chunk: &[u8]) -> core::result::Result<Received, FailedFeed> {
        self.decoder.feed(chunk)
    }

    /// Closes the image, returns it, and stores its registers in the decoder.
    ///
    /// Rows that were released are not among the pixels of the [`ReceivedImage`].
    ///
    /// # Errors
    ///
    /// Those of the sessions, but after a failed feed its error again. If no image is open, it is
    /// that of [`feed`](Self::feed). An error closes the image too, and leaves the decoder
    /// unchanged.
    pub fn finish(&mut self) -> Result<ReceivedImage> {
        self.decoder.finish()
    }

    /// Aborts the open image, if there is one. The decoder is unchanged.
    pub fn abort(&mut self) {
        self.decoder.core.abort();
    }

    /// Returns how many columns of six pixels were written so far.
    ///
    /// It is that of the sessions, and 0 if no image is open. The call does not allocate.
    #[must_use]
    pub fn canvas_paints(&self) -> u64 {
        self.decoder.core.canvas_paints()
    }

    /// Whether the payload of the open image has begun and no feed has failed.
    ///
    /// A payload has begun at once, and that of a DCS sequence after its header. It is `false` if
    /// no image is open.
    #[must_use]
    pub fn in_payload(&self) -> bool {
        self.decoder.core.in_payload()
    }

    /// Returns the width and the height of the image so far, as a payload session does.
    ///
    /// It is `None` before the payload, after an error, and if no image is open. The call does not
    /// allocate. The size is that of [`size_so_far`](crate::SixelStreamDecoder::size_so_far).
    #[must_use]
    pub fn size_so_far(&self) -> Option<(usize, usize)> {
        self.decoder.core.size_so_far()
    }

    /// Returns the last row with a set pixel, plus one, or 0 if there is none.
    ///
    /// It does what [`drawn_height`](crate::SixelStreamDecoder::drawn_height) of a payload session
    /// does, and returns 0 if no image is open.
    #[must_use]
    pub fn drawn_height(&self) -> usize {
        self.decoder.core.drawn_height()
    }

    /// Returns how many rows from the top of the open image are final.
    ///
    /// No byte that follows changes a pixel of these rows, and the number never becomes smaller.
    /// The call does not allocate.
    ///
    /// - It is 0 before the payload, after an error, and if no image is open.
    /// - The image may still become wider. New pixels on the right of a final row are background.
    /// - The finished image may end above rows that are final, by
    ///   [`set_height`](Self::set_height).
    #[must_use]
    pub fn rows_so_far(&self) -> usize {
        self.decoder.core.rows_so_far()
    }

    /// Returns the color of a register: red, green and blue, a byte each.
    #[must_use]
    pub fn register(&self, register: u8) -> [u8; 3] {
        self.decoder.register(register)
    }

    /// Sets the color of a register of the decoder: red, green and blue, a byte each.
    ///
    /// An open image keeps the registers that it began with, and [`finish`](Self::finish) stores
    /// its own.
    pub fn set_register(&mut self, register: u8, color: [u8; 3]) {
        self.decoder.set_register(register, color);
    }

    /// Returns the colors of all registers: red, green and blue, a byte each.
    #[must_use]
    pub fn registers(&self) -> [[u8; 3]; 256] {
        self.decoder.registers()
    }

    /// Sets the colors of the decoder's registers from `first` on.
    ///
    /// It does what [`SixelDecoder::set_registers`] does. An open image keeps the registers that it
    /// began with, and [`finish`](Self::finish) stores its own.
    pub fn set_registers(&mut self, first: u8, colors: &[[u8; 3]]) {
        self.decoder.set_registers(first, colors);
    }

    /// Resets the decoder's registers to those of a new one.
    ///
    /// An open image keeps the registers that it began with, and [`finish`](Self::finish) stores
    /// its own.
    pub fn reset_palette(&mut self) {
        self.decoder.reset_palette();
    }

    /// Sets where images end, if they are finished afterwards.
    ///
    /// It is [`Height::Bands`] in a new receiver. No height adds a row to an image, or shows one
    /// below the clip. [`into_decoder`](Self::into_decoder) returns a decoder with the same setting.
    pub fn set_height(&mut self, height: Height) {
        self.decoder.height = height;
    }

    /// Sets whether a command with a fault is ignored, in place of rejecting the image.
    ///
    /// It is off in a new receiver. The setting applies to images that are begun afterwards.
    ///
    /// - A repeat count, raster attributes or a graphics new line past a limit changes nothing.
    /// - A sixel outside of the limits is not drawn and does not move the position. Its repeat
    ///   count is used up.
    /// - So [`feed`](Self::feed) and [`finish`](Self::finish) of a payload fail only if an
    ///   allocation fails. A DCS sequence can also have no introducer or an invalid header.
    /// - `finish` of a DCS sequence without terminator returns its image so far, once its payload
    ///   has begun.
    pub fn set_lenient(&mut self, on: bool) {
        self.decoder.core.set_lenient(on);
    }

    /// Whether images are lenient, by [`set_lenient`](Self::set_lenient).
    #[must_use]
    pub fn is_lenient(&self) -> bool {
        self.decoder.core.is_lenient()
    }

    /// Sets whether pixels that no sixel draws are transparent, whatever P2 says.
    ///
    /// It is off in a new receiver. The setting applies to images that are begun afterwards. The
    /// `background_mode` of the image stays the one that P2 selects. So a multiplexer can encode
    /// the image again with its P2, and the background shows through where nothing was drawn.
    pub fn set_transparent(&mut self, on: bool) {
        self.decoder.core.set_transparent(on);
    }

    /// Whether the background is transparent whatever P2 says: off in a new receiver.
    #[must_use]
    pub fn is_transparent(&self) -> bool {
        self.decoder.core.is_transparent()
    }

    /// Sets the register in which an image draws until it selects one.
    ///
    /// It is 0 in a new receiver. The setting applies to images that are begun afterwards. Register
    /// 0 is also the background of opaque images, so an image that selects no register is invisible
    /// in it. foot and libsixel begin with register 15, xterm with 3.
    pub fn set_first_register(&mut self, register: u8) {
        self.decoder.core.set_first_register(register);
    }

    /// The register in which an image draws until it selects one: 0 in a new receiver.
    #[must_use]
    pub fn first_register(&self) -> u8 {
        self.decoder.core.first_register()
    }

    /// Sets how many pixels an image can have.
    ///
    /// It does what [`SixelDecoder::set_pixel_limit`] does. An open image keeps the limit that it
    /// began with.
    pub fn set_pixel_limit(&mut self, pixels: usize) {
        self.decoder.set_pixel_limit(pixels);
    }

    /// Sets how many columns from the left and rows from the top an image can have.
    ///
    /// It does what [`SixelDecoder::set_clip`] does. An open image keeps the clip that it began
    /// with.
    pub fn set_clip(&mut self, width: usize, height: usize) {
        self.decoder.set_clip(width, height);
    }
}

impl Default for SixelReceiver {
    fn default() -> Self {
        Self::new()
    }
}
