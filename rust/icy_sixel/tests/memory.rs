//! Each allocation fails in turn: the call returns `OutOfMemory`, no register changes, and the same
//! call succeeds with memory. The crate allocates by Rust's global allocator, which this file
//! replaces by one that counts and fails.

#![allow(unsafe_code)]

mod common;

use common::*;
use icy_sixel::receiver::{ReceivedImage, SixelReceiver};
use icy_sixel::{
    DcsSettings, EncodeOptions, Result, SixelDcsStreamDecoder, SixelDecoder, SixelError,
    SixelImage, SixelStreamDecoder, TextForm, choose_palette,
};
use std::alloc::{GlobalAlloc, Layout, System};
use std::cell::Cell;
use std::ptr::null_mut;

/// The system's allocator, with counts for each thread.
struct Counting;

#[global_allocator]
static COUNTING: Counting = Counting;

thread_local! {
    /// How many allocations succeed before one fails; none fails if it is negative.
    static GRANTED: Cell<i64> = const { Cell::new(-1) };
    /// Bytes that are allocated.
    static HELD: Cell<i64> = const { Cell::new(0) };
    /// The size of the largest block that was allocated at once. A block that grows is not new.
    static LARGEST: Cell<usize> = const { Cell::new(0) };
}

/// Counts an allocation, and returns whether it fails.
fn fails() -> bool {
    let granted = GRANTED.get();
    GRANTED.set(granted - i64::from(granted >= 0));
    granted == 0
}

// SAFETY: each call goes to the system's allocator unchanged, or fails, as any allocation may.
unsafe impl GlobalAlloc for Counting {
    unsafe fn alloc(&self, layout: Layout) -> *mut u8 {
        if fails() {
            return null_mut();
        }
        HELD.set(HELD.get() + layout.size() as i64);
        LARGEST.set(LARGEST.get().max(layout.size()));
        // SAFETY: the caller's own promise.
        unsafe { System.alloc(layout) }
    }

    unsafe fn realloc(&self, start: *mut u8, layout: Layout, size: usize) -> *mut u8 {
        if fails() {
            return null_mut();
        }
        HELD.set(HELD.get() + size as i64 - layout.size() as i64);
        // SAFETY: the caller's own promise.
        unsafe { System.realloc(start, layout, size) }
    }

    unsafe fn dealloc(&self, start: *mut u8, layout: Layout) {
        HELD.set(HELD.get() - layout.size() as i64);
        // SAFETY: the caller's own promise.
        unsafe { System.dealloc(start, layout) }
    }
}

/// Makes the call with the allocation failing that follows `place` others. Returns the result, and
/// whether one failed.
fn failing<T>(place: i64, call: impl FnOnce() -> T) -> (T, bool) {
    GRANTED.set(place);
    let answer = call();
    let met = GRANTED.replace(-1) < 0;
    (answer, met)
}

/// Makes each allocation of the call fail in turn, on a new subject, and checks the subject then.
fn fail_each<S, T: PartialEq + std::fmt::Debug>(
    name: &str,
    made: impl Fn() -> S,
    call: impl Fn(&mut S) -> Result<T>,
    check: impl Fn(&S),
) {
    let mut subject = made();
    let expected = call(&mut subject).unwrap_or_else(|error| panic!("{name}: {error}"));
    drop(subject);
    for place in 0.. {
        let held = HELD.get();
        let mut subject = made();
        let (answer, met) = failing(place, || call(&mut subject));
        if !met {
            assert_eq!(answer, Ok(expected));
            assert!(place > 0, "{name} does not allocate");
            return;
        }
        assert_eq!(answer, Err(SixelError::OutOfMemory), "{name}, allocation {place}");
        check(&subject);
        assert_eq!(
            call(&mut subject).as_ref(),
            Ok(&expected),
            "{name}, again after allocation {place}"
        );
        drop((subject, answer));
        assert_eq!(HELD.get(), held, "{name} leaks after allocation {place}");
    }
}

const STRING: &[u8] = b"\x1bPq#42;2;100;0;0!40~-#3!700~\x1b\\";
const PAYLOAD: &[u8] = b"#42;2;100;0;0!40~-#3!700~";

/// All registers are those of a new decoder.
fn is_unchanged(decoder: &SixelDecoder) {
    let new = SixelDecoder::new();
    assert!((0..=u8::MAX).all(|number| decoder.register(number) == new.register(number)));
}

/// Feeds small chunks until one fails.
fn feed_chunks<T>(bytes: &[u8], feed: impl FnMut(&[u8]) -> Result<T>) -> Result<()> {
    bytes.chunks(7).map(feed).try_for_each(|fed| fed.map(|_| ()))
}

#[test]
fn decoding() {
    let default = DcsSettings::default();
    fail_each("SixelImage::decode", || (), |()| SixelImage::decode(STRING), |()| ());
    fail_each("from_str", || (), |()| "#1!9~".parse::<SixelImage>(), |()| ());
    let decode = |()| SixelImage::decode_from_dcs(PAYLOAD, default);
    fail_each("SixelImage::decode_from_dcs", || (), |()| decode(()), |()| ());
    fail_each("decode", SixelDecoder::new, |decoder| decoder.decode(STRING), is_unchanged);
    fail_each(
        "decode_from_dcs",
        SixelDecoder::new,
        |decoder| decoder.decode_from_dcs(PAYLOAD, default),
        is_unchanged,
    );
    fail_each(
        "a payload session",
        SixelDecoder::new,
        |decoder| {
            let mut session = decoder.begin_frame(default)?;
            feed_chunks(PAYLOAD, |chunk| session.feed(chunk))?;
            session.finish()
        },
        is_unchanged,
    );
    fail_each(
        "a DCS session",
        SixelDecoder::new,
        |decoder| {
            let mut session = decoder.begin_dcs();
            feed_chunks(STRING, |chunk| session.feed(chunk))?;
            session.finish()
        },
        is_unchanged,
    );
    fail_each(
        "a receiver",
        SixelReceiver::new,
        |receiver| {
            receiver.begin_dcs();
            feed_chunks(STRING, |chunk| Ok(receiver.feed(chunk)?))?;
            receiver.finish()?.into_image()
        },
        |receiver| is_unchanged(receiver.decoder()),
    );
}

/// If `finish` fails, the image is lost, and no register changes.
#[test]
fn finishing() {
    for place in 0.. {
        let mut decoder = SixelDecoder::new();
        let mut session = decoder.begin_frame(DcsSettings::default()).unwrap();
        assert!(session.feed(b"#42;2;100;0;0!40~\"1;1;50;50").is_ok());
        let (answer, met) = failing(place, || session.finish());
        if !met {
            assert_eq!(answer.unwrap().dimensions(), (50, 50));
            assert_eq!(decoder.register(42), [255, 0, 0]);
            assert!(place > 0);
            return;
        }
        assert_eq!(answer, Err(SixelError::OutOfMemory));
        is_unchanged(&decoder);
    }
}

#[test]
fn encoding() {
    let pixels = (0..64 * 24u32).flat_map(|i| [i as u8, (i / 7) as u8, 80, 255]).collect();
    let image = SixelImage::try_from_rgba(pixels, 64, 24).unwrap();
    fail_each("encode", || (), |()| image.encode(), |()| ());
    let options = EncodeOptions { max_colors: 16 };
    fail_each("encode_with", || (), |()| image.encode_with(&options), |()| ());
    fail_each("choose_palette", || (), |()| choose_palette(&image.pixels, 16), |()| ());
}

#[test]
fn decoders() {
    let decoder = SixelDecoder::new();
    fail_each("try_new", || (), |()| SixelDecoder::try_new().map(|_| ()), |()| ());
    fail_each("try_clone", || (), |()| decoder.try_clone().map(|_| ()), |()| ());
}

/// The text of an error is allocated too. If that fails, the error is `OutOfMemory`.
#[test]
fn texts_of_errors() {
    let mut decoder = SixelDecoder::new();
    let mut session = decoder.begin_frame(DcsSettings::default()).unwrap();
    let (answer, met) = failing(0, || session.feed(b"!65536~"));
    assert!(met);
    assert_eq!(answer, Err(SixelError::OutOfMemory));
    assert_eq!(session.feed(b"~"), Err(invalid(STREAM_FAILED)));
}

#[test]
fn calls_that_do_not_allocate() {
    let mut decoder = SixelDecoder::new();
    let mut receiver = SixelReceiver::new();
    let (_, met) = failing(0, || {
        decoder.set_register(1, [1, 2, 3]);
        decoder.set_raster_crop(true);
        decoder.set_pixel_limit(1000);
        decoder.reset_palette();
        assert_eq!(decoder.register(1), [51, 51, 204]);
        assert!(decoder.raster_crop() && decoder.pixel_limit() == 1000);
        let mut session = decoder.begin_frame(DcsSettings::default()).unwrap();
        assert!(session.feed(b"#1;2;100;0;0").is_ok());
        assert!(session.size_so_far().is_some() && session.canvas_paints() == 0);
        session.abort();
        let mut session = decoder.begin_dcs();
        assert!(session.feed(b"\x1bP9;1q#1").is_ok());
        assert!(session.in_payload() && session.size_so_far().is_some());
        drop(session);
        receiver.begin_dcs();
        assert!(receiver.feed(b"\x1bPq").is_ok());
        receiver.abort();
    });
    assert!(!met);
}

/// Asserts that more than this is allocated until the end, and this after it.
#[track_caller]
fn is_freed_by(held: i64, end: impl FnOnce()) {
    assert!(HELD.get() > held);
    end();
    assert_eq!(HELD.get(), held);
}

/// A session frees its memory however it ends, and so does a receiver's image.
#[test]
fn sessions_are_freed() {
    let mut decoder = SixelDecoder::new();
    let held = HELD.get();
    let ends: [fn(SixelStreamDecoder<'_>); 3] =
        [|session| drop(session), |session| session.abort(), |session| drop(session.finish())];
    for end in ends {
        let mut session = decoder.begin_frame(DcsSettings::default()).unwrap();
        assert!(session.feed(PAYLOAD).is_ok());
        is_freed_by(held, || end(session));
    }
    let ends: [fn(SixelDcsStreamDecoder<'_>); 3] =
        [|session| drop(session), |session| session.abort(), |session| drop(session.finish())];
    for end in ends {
        let mut session = decoder.begin_dcs();
        assert!(session.feed(STRING).is_ok());
        is_freed_by(held, || end(session));
    }

    let mut receiver = SixelReceiver::with_decoder(decoder);
    let ends: [fn(&mut SixelReceiver); 3] =
        [SixelReceiver::abort, SixelReceiver::begin_dcs, |receiver| drop(receiver.finish())];
    for end in ends {
        receiver.begin_dcs();
        assert!(receiver.feed(STRING).is_ok());
        is_freed_by(held, || end(&mut receiver));
    }
    receiver.begin_dcs();
    assert!(receiver.feed(STRING).is_ok());
    decoder = receiver.into_decoder();
    assert_eq!(HELD.get(), held);
    drop(decoder);
}

/// The `Vec` of an image has the capacity of its pixels, and is freed as any other.
#[test]
fn pixels_have_their_own_capacity() {
    let default = DcsSettings::default();
    for (width, height) in [(100, 102), (512, 510), (60_000, 6)] {
        let bands = format!("!{width}~-").repeat(height / 6 - 1);
        let payload = format!("#1{bands}!{width}~");
        let payload = payload.as_bytes();
        let string = [b"\x1bP9;1q", payload, b"\x1b\\"].concat();
        let mut decoder = SixelDecoder::new();
        let mut receiver = SixelReceiver::new();
        let mut images = vec![SixelImage::decode(&string).unwrap()];
        images.push(decoder.decode(&string).unwrap());
        images.push(SixelImage::decode_from_dcs(payload, default).unwrap());
        let mut session = decoder.begin_frame(default).unwrap();
        assert!(session.feed(payload).is_ok());
        images.push(session.finish().unwrap());
        receiver.begin_dcs();
        assert!(receiver.feed(&string).is_ok());
        images.push(receiver.finish().unwrap().into_image().unwrap());
        for image in images {
            assert_eq!(image.dimensions(), (width, height));
            assert_eq!(image.pixels.len(), 4 * width * height);
            assert_eq!(image.pixels.capacity(), 4 * width * height);
            let with_image = HELD.get();
            drop(image);
            assert_eq!(HELD.get(), with_image - 4 * (width * height) as i64);
        }
    }
}

/// Asserts that bytes are returned in the block in which they grew: no new block is half as large.
#[track_caller]
fn is_not_copied(bytes: usize, capacity: usize) {
    assert_eq!(capacity, bytes);
    let largest = LARGEST.replace(0);
    assert!(2 * largest < bytes, "a block of {largest} bytes for {bytes}");
}

#[test]
fn pixels_are_not_copied() {
    let bands = "#1!1000~-".repeat(100);
    let string = format!("\x1bP9;1q{bands}\x1b\\").into_bytes();
    let check = |image: Result<SixelImage>| {
        let pixels = image.unwrap().pixels;
        is_not_copied(pixels.len(), pixels.capacity());
    };
    let mut decoder = SixelDecoder::new();
    let mut receiver = SixelReceiver::new();
    LARGEST.set(0);
    check(SixelImage::decode(&string));
    check(decoder.decode(&string));
    let mut session = decoder.begin_dcs();
    feed_chunks(&string, |chunk| session.feed(chunk)).unwrap();
    check(session.finish());
    receiver.begin_dcs();
    feed_chunks(&string, |chunk| Ok(receiver.feed(chunk)?)).unwrap();
    check(receiver.finish().and_then(ReceivedImage::into_image));
}

#[test]
fn texts_are_not_copied() {
    let image = SixelImage::from_rgba([9, 9, 9, 255].repeat(60 * 6000), 60, 6000);
    let indices: Vec<u8> = (0..60 * 6000u64).map(|pixel| (pixel * pixel / 7 % 16) as u8).collect();
    LARGEST.set(0);
    for form in [TextForm::Plain, TextForm::Compact] {
        let text = image.encode_indexed(&[[0; 3]; 16], &indices, form).unwrap();
        is_not_copied(text.len(), text.capacity());
    }
}

/// An image that is cropped to one row has the capacity of that row.
#[test]
fn a_cropped_row() {
    let string = b"\x1bP9;1q\"1;1;1000;1#1!1000~\x1b\\";
    let mut decoder = SixelDecoder::new();
    decoder.set_raster_crop(true);
    let whole = decoder.decode(string).unwrap();
    assert_eq!(whole.dimensions(), (1000, 1));
    assert_eq!(whole.pixels, [51, 51, 204, 255].repeat(1000));
    assert_eq!(whole.pixels.capacity(), 4 * 1000);
    let mut session = decoder.begin_dcs();
    assert!(session.feed(string).is_ok());
    let fed = session.finish().unwrap();
    assert_eq!(fed.pixels.capacity(), 4 * 1000);
    assert_eq!(fed, whole);
    fail_each(
        "decode",
        || decoder.try_clone().unwrap(),
        |decoder| decoder.decode(string),
        is_unchanged,
    );
}
