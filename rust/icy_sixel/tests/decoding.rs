//! Decoders from image to image, and the values of the enums.

mod common;

use common::*;
use icy_sixel::{
    BackgroundMode, DcsSettings, PixelAspectRatio, SixelDecoder, SixelError, SixelImage,
    SixelReceiver,
};

#[test]
fn an_error_changes_no_register() {
    let mut decoder = SixelDecoder::new();
    let settings = DcsSettings::default();
    assert!(decoder.decode(b"\x1bPq#42;2;100;0;0~\x1b\\").is_ok());
    assert_eq!(decoder.decode(b"\x1bPbadq#42;2;0;100;0~\x1b\\"), Err(invalid(BAD_HEADER)));
    assert_eq!(decoder.decode_from_dcs(b"#42;2;0;0;0~!65536~", settings), Err(invalid(MALFORMED)));
    assert_filled(decoder.decode_from_dcs(b"#42~", settings), (1, 6), RED);
    assert_eq!(decoder.register(42), [255, 0, 0]);
    decoder.reset_palette();
    assert_filled(decoder.decode_from_dcs(b"#42~", settings), (1, 6), [0, 204, 102, 255]);
}

/// Register 0 is the background of an opaque image, as it was when the image began.
#[test]
fn registers_are_kept_from_image_to_image() {
    let mut decoder = SixelDecoder::new();
    let settings = DcsSettings::default();
    let mut show = |bytes: &[u8]| decoder.decode_from_dcs(bytes, settings);
    assert!(show(b"#0;2;100;0;0~").is_ok());
    assert_eq!(show(b"#0;2;0;0;100!65536~"), Err(invalid(MALFORMED)));
    assert_filled(show(b"#0;2;0;100;0?"), (1, 6), RED);
    assert_filled(show(b"?"), (1, 6), GREEN);
    decoder.reset_palette();
    assert_filled(decoder.decode_from_dcs(b"?", settings), (1, 6), BLACK);
}

#[test]
fn registers_are_set_together() {
    let mut decoder = SixelDecoder::default();
    let new = decoder.registers();
    decoder.set_registers(1, &[[1, 2, 3], [4, 5, 6]]);
    decoder.set_registers(255, &[[7, 8, 9], [9, 9, 9]]);
    decoder.set_registers(3, &[]);
    let colors = decoder.registers();
    assert_eq!(colors[..4], [[0, 0, 0], [1, 2, 3], [4, 5, 6], [51, 204, 51]]);
    assert_eq!((&colors[3..255], colors[255]), (&new[3..255], [7, 8, 9]));
    assert!((0..=255).all(|number| colors[usize::from(number)] == decoder.register(number)));
    assert_filled(decoder.decode(b"\x1bPq#1!2~\x1b\\"), (2, 6), [1, 2, 3, 255]);
}

#[test]
fn a_decoder_is_cloned() {
    let mut decoder = SixelDecoder::default();
    for number in [0, 7, 255] {
        decoder.set_register(number, [1, 2, 3]);
    }
    decoder.set_raster_crop(true);
    decoder.set_pixel_limit(100);
    decoder.set_clip(50, 60);
    let mut clone = decoder.clone();
    decoder.reset_palette();
    assert!([0, 7, 255].iter().all(|number| clone.register(*number) == [1, 2, 3]));
    assert_eq!(clone.register(1), [51, 51, 204]);
    assert!(clone.raster_crop());
    assert_eq!(clone.pixel_limit(), 100);
    assert_eq!(clone.clip(), (50, 60));
    let image = clone.decode(b"\x1bP;1q\"1;1;2;4#7!2~\x1b\\");
    assert_filled(image, (2, 4), [1, 2, 3, 255]);
    assert_eq!(clone.decode(b"!99~"), Err(invalid(TOO_LARGE)));
}

#[test]
fn crop_limit_and_clip_are_set() {
    let mut decoder = SixelDecoder::new();
    assert!(!decoder.raster_crop());
    assert_eq!(decoder.pixel_limit(), 67_108_864);
    assert_eq!(decoder.decode(b"\"1;1;2;4!2~").unwrap().dimensions(), (2, 6));
    decoder.set_raster_crop(true);
    assert_eq!(decoder.decode(b"\"1;1;2;4!2~").unwrap().dimensions(), (2, 4));
    assert_eq!(decoder.clip(), (1_000_000, 1_000_000));
    decoder.set_clip(1, 3);
    assert_eq!(decoder.decode(b"\"1;1;2;4!2~").unwrap().dimensions(), (1, 3));
}

/// P1 and P2 mean to these enums what they mean to the library, for all their values.
#[test]
fn enums_agree_with_the_library() {
    for value in 0..=u16::MAX {
        let settings = DcsSettings::new(Some(value), Some(value), None);
        let image = SixelImage::decode_from_dcs(b"?", settings).unwrap();
        assert_eq!(image.aspect_ratio, PixelAspectRatio::from_p1(value));
        assert_eq!(image.aspect_ratio, settings.pixel_aspect_ratio());
        assert_eq!(image.background_mode, BackgroundMode::from_p2(value));
        assert_eq!(image.background_mode, settings.background_mode());
    }
    let image = SixelImage::decode_from_dcs(b"?", DcsSettings::default()).unwrap();
    assert_eq!(image.aspect_ratio, DcsSettings::default().pixel_aspect_ratio());
    assert_eq!(image.background_mode, DcsSettings::default().background_mode());
}

#[test]
fn enums_are_read_and_set() {
    use PixelAspectRatio::{Ratio2To1, Ratio3To1, Ratio5To1, Square};
    for ratio in [Ratio5To1, Ratio3To1, Ratio2To1, Square] {
        assert_eq!(ratio.is_square(), ratio == Square);
    }
    assert!(BackgroundMode::Transparent.is_transparent());
    assert!(!BackgroundMode::Opaque.is_transparent());
    let settings = DcsSettings::default()
        .with_pixel_aspect_ratio(Ratio3To1)
        .with_background_mode(BackgroundMode::Transparent)
        .with_grid_size(7);
    assert_eq!(settings, DcsSettings::new(Some(3), Some(1), Some(7)));
}

/// The texts of errors that no vector has.
#[test]
fn errors_have_texts() {
    assert_eq!(invalid("x").to_string(), "invalid SIXEL data: x");
    assert_eq!(SixelError::OutOfMemory.to_string(), "out of memory");
}

#[test]
fn finished_images_have_a_drawn_height() {
    let settings = DcsSettings::default;
    for (payload, crop, rows, expected) in [
        ("", false, 99, (1, 0)),
        ("?", false, 99, (6, 0)),
        ("~-@", false, 99, (12, 7)),
        ("~-B", false, 2, (2, 2)),
        ("~-B", false, 11, (11, 8)),
        ("\"1;1;1;3~", false, 99, (6, 6)),
        ("\"1;1;1;3~", true, 99, (3, 3)),
        ("\"1;1;1;9~", true, 99, (9, 6)),
        ("\"1;1;1;2@-@", true, 99, (2, 2)),
    ] {
        let mut decoder = SixelDecoder::new();
        decoder.set_raster_crop(crop);
        decoder.set_clip(9, rows);
        let bytes = payload.as_bytes();
        let found = decoder.decode_drawn(bytes).unwrap();
        let decoded = decoder.decode_from_dcs_drawn(bytes, settings()).unwrap();

        let mut receiver = SixelReceiver::with_decoder(decoder);
        receiver.begin_frame(settings());
        assert!(receiver.feed(bytes).is_ok());
        for image in [found, decoded, receiver.finish().unwrap()] {
            assert_eq!((image.height, image.drawn_height), expected, "{payload}");
        }
    }
}

/// The size that raster attributes name, and whether an image is empty.
#[test]
fn finished_images_have_a_raster_size() {
    for (payload, raster, is_empty) in [
        ("", (0, 0), true),
        ("#1;2;100;0;0", (0, 0), true),
        ("?-!9?", (0, 0), true),
        ("@", (0, 0), false),
        ("\"1;1;7;3", (7, 3), false),
        ("\"1;1;7", (7, 0), true),
        ("\"1;1;7;3~\"1;1;0;9\"1;1;2", (2, 9), false),
    ] {
        let image = SixelDecoder::new().decode_drawn(payload.as_bytes()).unwrap();
        assert_eq!((image.raster_width, image.raster_height), raster, "{payload}");
        assert_eq!(image.is_empty(), is_empty, "{payload}");
    }
}
