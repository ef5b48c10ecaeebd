//! What the tests share: colors, texts of errors, and checks of images.

#![allow(dead_code)]

use icy_sixel::{Result, SixelError, SixelImage};

pub const RED: [u8; 4] = [255, 0, 0, 255];
pub const GREEN: [u8; 4] = [0, 255, 0, 255];
pub const BLACK: [u8; 4] = [0, 0, 0, 255];
pub const WHITE: [u8; 4] = [255, 255, 255, 255];

pub const MALFORMED: &str = "malformed SIXEL data";
pub const TOO_LARGE: &str = "image dimensions too large";
pub const BAD_HEADER: &str = "invalid SIXEL DCS header";
pub const STREAM_FAILED: &str = "stream decoder has failed";
pub const DCS_STREAM_FAILED: &str = "DCS stream decoder has failed";
pub const INCOMPLETE: &str = "incomplete SIXEL DCS sequence";

/// The error of data for this reason.
pub fn invalid(reason: &str) -> SixelError {
    SixelError::InvalidData(reason.to_string())
}

/// Asserts that an image has this size and one color.
#[track_caller]
pub fn assert_filled(image: Result<SixelImage>, size: (usize, usize), color: [u8; 4]) {
    let image = image.expect("an image");
    assert_eq!(image.dimensions(), size);
    assert_eq!(image.pixels, color.repeat(size.0 * size.1));
}
