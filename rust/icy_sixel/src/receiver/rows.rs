//! Rows of an open image, copied to a caller's memory in its own layout.

use crate::error::Result;
use crate::proved;
use crate::receiver::{FailedFeed, RowLayout, SixelReceiver};
use crate::script::Status;

/// What a feed of a band did.
#[derive(Clone, Copy, Debug, PartialEq, Eq)]
#[must_use = "it says how many bytes belong to the image, and what to do next"]
pub struct ReceivedBand {
    /// How many bytes of the chunk belong to the image.
    pub consumed: usize,
    /// What the caller does next.
    pub status: BandStatus,
}

/// What the caller does after a feed of a band.
#[derive(Clone, Copy, Debug, PartialEq, Eq)]
pub enum BandStatus {
    /// The image goes on, and rows have become final: copy them, and feed the next bytes.
    Rows,
    /// The image has ended, or no row has become final: the status of the image.
    Image(Status),
}

impl From<proved::ReceivedBand> for ReceivedBand {
    fn from(band: proved::ReceivedBand) -> Self {
        let status = match band.status {
            proved::BandStatus::Rows => BandStatus::Rows,
            proved::BandStatus::Image(status) => BandStatus::Image(status.into()),
        };
        Self { consumed: band.consumed, status }
    }
}

impl SixelReceiver {
    /// Reads a chunk up to its first graphics new line, which makes rows final.
    ///
    /// It does what [`feed`](Self::feed) does with the bytes up to and with the first `-`, or with
    /// all bytes if there is none. So a host can draw each band at once, however long the chunk is.
    /// The status is [`BandStatus::Rows`] if [`rows_so_far`](Self::rows_so_far) has become greater
    /// and the image goes on. The caller feeds the rest of the chunk after the bytes consumed.
    ///
    /// # Errors
    ///
    /// Those of `feed`.
    pub fn feed_band(&mut self, chunk: &[u8]) -> core::result::Result<ReceivedBand, FailedFeed> {
        Ok(self.decoder.core.feed_band(chunk)?.into())
    }

    /// Copies final rows of the open image to the caller's memory.
    ///
    /// The rows are `first` up to before `first + rows`. The first of them begins at the first byte
    /// of `out`, and each other one a stride after the one before it. Columns on the right of the
    /// image so far are background. The other bytes of `out` stay. Rows that were copied stay valid
    /// after a later error. The call does not allocate.
    ///
    /// # Errors
    ///
    /// In this order:
    ///
    /// - `InvalidData` with `rows are not final`: `first + rows` is greater than
    ///   [`rows_so_far`](Self::rows_so_far).
    /// - `InvalidData` with `rows were released`: rows from `first` on were released.
    /// - `InvalidData` with `stride is shorter than a row`: the stride has fewer bytes than the
    ///   columns of a row, or than a pixel.
    /// - `IntegerOverflow`: no `usize` counts the bytes of the rows.
    /// - `BufferSizeMismatch`: `out` has fewer bytes than the rows take.
    pub fn copy_rows(
        &self,
        first: usize,
        rows: usize,
        layout: RowLayout,
        out: &mut [u8],
    ) -> Result<()> {
        Ok(self.decoder.core.copy_rows(first, rows, layout, out)?)
    }

    /// Releases the final rows above row `rows`, whose memory is used again.
    ///
    /// The caller has copied them. Then an image that is shown while it comes takes the memory of
    /// the rows between two calls, and not of the image. [`finish`](Self::finish) returns the rows
    /// that are left. The call does not allocate.
    ///
    /// # Errors
    ///
    /// `InvalidData` with `rows are not final` if `rows` is greater than
    /// [`rows_so_far`](Self::rows_so_far).
    pub fn release_rows(&mut self, rows: usize) -> Result<()> {
        Ok(self.decoder.core.release_rows(rows)?)
    }
}
