//! The session that decodes one payload in chunks.

use crate::decoder::session::Session;
use crate::decoder::{DcsSettings, SixelDecoder, SixelFeedStatus};
use crate::error::Result;
use crate::proved;
use crate::rattle::rattle_std::alloc::Global;
use crate::script::Status;
use crate::sixel_image::SixelImage;

/// What a feed of a payload session did.
#[derive(Clone, Copy, Debug, PartialEq, Eq)]
#[must_use = "it says how many bytes belong to the image, and whether it has ended"]
pub struct SixelFeedResult {
    /// How many bytes of the chunk belong to the payload.
    pub consumed: usize,
    /// What the caller does next.
    pub status: SixelFeedStatus,
}

/// A payload that is decoded in chunks.
///
/// It borrows its decoder until it is finished, aborted or dropped, and the decoder's registers
/// change by a successful [`finish`](Self::finish) alone.
#[derive(Debug)]
#[must_use = "a session gives its image by `finish`"]
pub struct SixelStreamDecoder<'a> {
    session: Session<'a>,
}

impl<'a> SixelStreamDecoder<'a> {
    /// Begins a payload with these settings.
    pub(super) fn new(owner: &'a mut SixelDecoder, settings: DcsSettings) -> Self {
        owner.core.begin_frame(Global, settings);
        Self { session: Session::new(owner, proved::SixelError::stream_failed) }
    }

    /// Reads a chunk up to its first terminator, which is left to the caller.
    ///
    /// A chunk may end anywhere, also within a number. Chunk boundaries have no effect. After a
    /// terminator a feed consumes nothing and returns the same status.
    ///
    /// # Errors
    ///
    /// Those of [`decode_from_dcs`](SixelDecoder::decode_from_dcs), as soon as the bytes so far are
    /// invalid. After an error each later feed returns
    /// [`InvalidData`](crate::SixelError::InvalidData) with `stream decoder has failed`.
    pub fn feed(&mut self, chunk: &[u8]) -> Result<SixelFeedResult> {
        let fed = self.session.feed(chunk)?;
        let Status::Payload(status) = fed.status else { unreachable!("a payload is open") };
        Ok(SixelFeedResult { consumed: fed.consumed, status })
    }

    /// Returns how many columns of six pixels were written so far.
    ///
    /// A wide sixel over columns that exist writes one number for each 128 of them, which counts as
    /// one column. The 128 columns count once they are written, when the band ends.
    ///
    /// The number is at most twice the right edges of all bands together, and 1151 for each sixel.
    /// It is 0 after an error. The call does not allocate.
    #[must_use]
    pub fn canvas_paints(&self) -> u64 {
        self.session.core().canvas_paints()
    }

    /// Returns the width and the height of the image so far, unless a feed has failed.
    ///
    /// They are the extent of the closed sixels and raster attributes, at least 1 each. The image
    /// of the whole payload is at least as large, unless it is cropped. The call does not allocate.
    #[must_use]
    pub fn size_so_far(&self) -> Option<(usize, usize)> {
        self.session.core().size_so_far()
    }

    /// The last row with a set pixel, plus one, or 0 if there is none.
    ///
    /// The height of an image with sixels and without raster attributes is a multiple of six, and
    /// this number can be less. Finishing the image does not change it. A cropped image can be
    /// lower. It is 0 after an error, and does not allocate.
    #[must_use]
    pub fn drawn_height(&self) -> usize {
        self.session.core().drawn_height()
    }

    /// Ends the payload, returns its image, and stores its registers in the decoder.
    ///
    /// A payload needs no terminator. An open command is closed, and can fail.
    ///
    /// # Errors
    ///
    /// Those of [`feed`](Self::feed), and `OutOfMemory`. They leave the decoder unchanged.
    pub fn finish(self) -> Result<SixelImage> {
        self.session.finish()
    }

    /// Ends the session without changing the decoder, as dropping it does.
    pub fn abort(self) {
        drop(self);
    }
}
