//! Images: their fields, and how they are written.

mod common;

use common::*;
use icy_sixel::{
    BackgroundMode, EncodeOptions, PixelAspectRatio, SixelImage, sixel_encode_default,
};

#[test]
fn an_image_is_displayed_as_text() {
    let red = SixelImage::from_rgba(RED.to_vec(), 1, 1);
    let text = "\x1bP9;1;0q\"1;1;1;1#0;2;100;0;0#0@$-\x1b\\";
    assert_eq!(sixel_encode_default(&RED, 1, 1).as_deref(), Ok(text));
    assert_eq!(red.to_string(), text);
    let display = |pixels, width, height| SixelImage::from_rgba(pixels, width, height).to_string();
    assert_eq!(display(vec![], 0, 0), "[SIXEL encoding failed: invalid dimensions: 0x0]");
    assert_eq!(
        display(vec![], 1, 1),
        "[SIXEL encoding failed: buffer size mismatch: expected 4 bytes, got 0]"
    );
    assert_eq!(display(vec![], usize::MAX, 2), "[SIXEL encoding failed: integer overflow]");
}

/// The options as callers of 0.7.0 write them.
#[test]
#[allow(clippy::needless_update)]
fn options_are_updated() {
    let options = EncodeOptions { max_colors: 64, ..Default::default() };
    assert_eq!(options.clone().max_colors, 64);
    assert!(SixelImage::from_rgba(RED.to_vec(), 1, 1).encode_with(&options).is_ok());
}

#[test]
fn an_image_has_fields() {
    let image = SixelImage::from_rgba(vec![1, 2, 3, 128], 1, 1);
    assert_eq!(image.aspect_ratio, PixelAspectRatio::Square);
    assert_eq!(image.background_mode, BackgroundMode::Transparent);
    assert_eq!(image.clone(), image);
    let SixelImage { pixels, width, height, .. } = image;
    assert_eq!((pixels, width, height), (vec![1, 2, 3, 128], 1, 1));
    let tall =
        SixelImage::from_rgba(vec![], 1, usize::MAX).with_aspect_ratio(PixelAspectRatio::Ratio5To1);
    assert_eq!(tall.corrected_dimensions(), (1, usize::MAX));
}
