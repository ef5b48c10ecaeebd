//! The open image of a session.

use crate::decoder::SixelDecoder;
use crate::error::Result;
use crate::proved;
use crate::receiver::Received;
use crate::sixel_image::SixelImage;

/// The open image of a decoder, which is aborted when this is dropped.
#[derive(Debug)]
pub(super) struct Session<'a> {
    owner: &'a mut SixelDecoder,
    has_failed: bool,
    /// The error of all calls after a failed feed.
    failed: fn() -> proved::SixelError,
}

impl<'a> Session<'a> {
    /// The session of the image that the decoder has open.
    pub(super) fn new(owner: &'a mut SixelDecoder, failed: fn() -> proved::SixelError) -> Self {
        Self { owner, has_failed: false, failed }
    }

    /// Reads a chunk.
    pub(super) fn feed(&mut self, chunk: &[u8]) -> Result<Received> {
        self.check()?;
        let fed = self.owner.feed(chunk);
        self.has_failed = fed.is_err();
        Ok(fed?)
    }

    /// Closes the image and returns it.
    pub(super) fn finish(self) -> Result<SixelImage> {
        self.check()?;
        self.owner.finish()?.into_image()
    }

    /// The decoder, which has the image.
    pub(super) fn core(&self) -> &proved::SixelReceiver {
        &self.owner.core
    }

    /// Returns an error if a feed has failed.
    fn check(&self) -> Result<()> {
        if self.has_failed { Err((self.failed)().into()) } else { Ok(()) }
    }
}

impl Drop for Session<'_> {
    fn drop(&mut self) {
        self.owner.core.abort();
    }
}
