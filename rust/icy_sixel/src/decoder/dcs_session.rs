//! The session that decodes one DCS sequence in chunks.

use crate::decoder::session::Session;
use crate::decoder::{SixelDcsFeedStatus, SixelDecoder};
use crate::error::Result;
use crate::proved;
use crate::rattle::rattle_std::alloc::Global;
use crate::script::Status;
use crate::sixel_image::SixelImage;

/// What a feed of a DCS sequence session did.
#[derive(Clone, Copy, Debug, PartialEq, Eq)]
#[must_use = "it says how many bytes belong to the image, and whether it has ended"]
pub struct SixelDcsFeedResult {
    /// How many bytes of the chunk belong to the DCS sequence.
    pub consumed: usize,
    /// What the caller does next.
    pub status: SixelDcsFeedStatus,
}

/// A DCS sequence that is decoded in chunks, from its introducer to its end.
///
/// It borrows its decoder until it is finished, aborted or dropped, and the decoder's registers
/// change by a successful [`finish`](Self::finish) alone.
///
/// ```compile_fail,E0499
/// let mut decoder = icy_sixel::SixelDecoder::new();
/// let first = decoder.begin_dcs();
/// let second = decoder.begin_dcs();
/// first.abort();
/// ```
#[derive(Debug)]
#[must_use = "a session gives its image by `finish`"]
pub struct SixelDcsStreamDecoder<'a> {
    session: Session<'a>,
}

impl<'a> SixelDcsStreamDecoder<'a> {
    /// Begins a DCS sequence.
    pub(super) fn new(owner: &'a mut SixelDecoder) -> Self {
        owner.core.begin_dcs(Global);
        Self { session: Session::new(owner, proved::SixelError::dcs_stream_failed) }
    }

    /// Reads a chunk up to the DCS sequence's end; what follows is left to the caller.
    ///
    /// A chunk may end anywhere, also between ESC and the byte after it. Chunk boundaries have no
    /// effect. After the end of the sequence a feed consumes nothing and returns the same status.
    ///
    /// # Errors
    ///
    /// - [`NoSixelData`](crate::SixelError::NoSixelData) if the sequence does not begin with an
    ///   introducer
    /// - [`InvalidData`](crate::SixelError::InvalidData) for an invalid header
    /// - those of [`decode_from_dcs`](SixelDecoder::decode_from_dcs) for the payload
    /// - after an error `InvalidData` with `DCS stream decoder has failed`
    pub fn feed(&mut self, chunk: &[u8]) -> Result<SixelDcsFeedResult> {
        let fed = self.session.feed(chunk)?;
        let Status::Dcs(status) = fed.status else { unreachable!("a DCS sequence is open") };
        Ok(SixelDcsFeedResult { consumed: fed.consumed, status })
    }

    /// Returns how many columns of six pixels were written so far.
    ///
    /// It does what [`canvas_paints`](crate::SixelStreamDecoder::canvas_paints) of a payload
    /// session does, and returns 0 before the payload.
    #[must_use]
    pub fn canvas_paints(&self) -> u64 {
        self.session.core().canvas_paints()
    }

    /// Whether the header is read and the payload has begun; `false` after an error.
    ///
    /// A sequence that fails before that, as one with another command than `q`, has no SIXEL
    /// data.
    #[must_use]
    pub fn in_payload(&self) -> bool {
        self.session.core().in_payload()
    }

    /// Returns the width and the height of the image so far, as a payload session does.
    ///
    /// It is `None` before the payload and after an error. The call does not allocate. The size is
    /// that of [`size_so_far`](crate::SixelStreamDecoder::size_so_far).
    #[must_use]
    pub fn size_so_far(&self) -> Option<(usize, usize)> {
        self.session.core().size_so_far()
    }

    /// Returns the last row with a set pixel, plus one, or 0 if there is none.
    ///
    /// It does what [`drawn_height`](crate::SixelStreamDecoder::drawn_height) of a payload session
    /// does, and returns 0 before the payload.
    #[must_use]
    pub fn drawn_height(&self) -> usize {
        self.session.core().drawn_height()
    }

    /// Returns the image of a sequence that has ended, and stores its registers.
    ///
    /// A sequence that was cancelled or interrupted has the image of its payload so far.
    ///
    /// # Errors
    ///
    /// They leave the decoder unchanged:
    ///
    /// - [`InvalidData`](crate::SixelError::InvalidData) with `incomplete SIXEL DCS sequence` if
    ///   the sequence has not ended
    /// - `InvalidData` with `DCS stream decoder has failed` after a failed feed
    /// - `OutOfMemory` if an allocation fails
    pub fn finish(self) -> Result<SixelImage> {
        self.session.finish()
    }

    /// Ends the session without changing the decoder, as dropping it does.
    pub fn abort(self) {
        drop(self);
    }
}
