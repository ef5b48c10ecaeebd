//! Images that are decoded in one call, with what is reported of them beside their pixels.

use super::SixelDecoder;
use crate::decoder::DcsSettings;
use crate::error::Result;
use crate::rattle::rattle_std::alloc::Global;
use crate::receiver::ReceivedImage;

impl SixelDecoder {
    /// Decodes as [`decode`](Self::decode) does, and returns what a finished image reports too.
    ///
    /// ```
    /// use icy_sixel::SixelDecoder;
    ///
    /// let image = SixelDecoder::new().decode_drawn(b"\x1bPq~-@\x1b\\")?;
    /// assert_eq!((image.width, image.height), (1, 12));
    /// assert_eq!(image.drawn_height, 7); // the rows below are blank
    /// # Ok::<(), icy_sixel::SixelError>(())
    /// ```
    ///
    /// # Errors
    ///
    /// Those of `decode`.
    pub fn decode_drawn(&mut self, bytes: &[u8]) -> Result<ReceivedImage> {
        self.by_copy(|copy| copy.decode_drawn(Global, bytes))
    }

    /// Decodes as [`decode_from_dcs`](Self::decode_from_dcs) does, and returns a [`ReceivedImage`].
    ///
    /// # Errors
    ///
    /// Those of `decode_from_dcs`.
    pub fn decode_from_dcs_drawn(
        &mut self,
        bytes: &[u8],
        settings: DcsSettings,
    ) -> Result<ReceivedImage> {
        self.by_copy(|copy| copy.decode_from_dcs_drawn(Global, bytes, settings))
    }
}
