//! The status of an image, a payload or a DCS sequence.

use crate::decoder::{SixelDcsFeedStatus, SixelFeedStatus};
use crate::proved;

/// The status of a payload or of a DCS sequence.
#[derive(Clone, Copy, Debug, PartialEq, Eq)]
pub enum Status {
    /// The status of a payload.
    Payload(SixelFeedStatus),
    /// The status of a DCS sequence.
    Dcs(SixelDcsFeedStatus),
}

impl Status {
    /// Whether the image has ended, and no later byte belongs to it.
    #[must_use]
    pub const fn has_ended(self) -> bool {
        !matches!(
            self,
            Self::Payload(SixelFeedStatus::NeedMoreData)
                | Self::Dcs(SixelDcsFeedStatus::NeedMoreData)
        )
    }
}

impl From<proved::Status> for Status {
    fn from(status: proved::Status) -> Self {
        match status {
            proved::Status::Payload(status) => Self::Payload(status),
            proved::Status::Dcs(status) => Self::Dcs(status),
        }
    }
}
