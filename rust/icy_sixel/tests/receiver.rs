//! A decoder that owns the image it is receiving, in a struct and across threads.

mod common;

use common::*;
use icy_sixel::receiver::{Received, SixelReceiver};
use icy_sixel::script::Status;
use icy_sixel::{
    BackgroundMode, BandStatus, ChannelOrder, DcsSettings, FailedFeed, Height, ReceivedImage,
    Result, RowLayout, SixelDcsFeedStatus as Dcs, SixelDecoder, SixelError,
    SixelFeedStatus as Payload, SixelImage,
};
use std::sync::{Arc, Mutex, RwLock, mpsc};
use std::thread;

const STRING: &[u8] = b"\x1bP9;1q#1;2;100;0;0!12~\x1b\\";

const PAYLOAD_MORE: Status = Status::Payload(Payload::NeedMoreData);
const DCS_MORE: Status = Status::Dcs(Dcs::NeedMoreData);

/// What a feed that failed reports.
fn failed(error: SixelError, consumed: usize, status: Status) -> FailedFeed {
    FailedFeed { consumed, status, error }
}

/// A host that gets bytes when they come.
#[derive(Default)]
struct Host {
    receiver: SixelReceiver,
    images: Vec<SixelImage>,
}

impl Host {
    /// Reads DCS sequences that follow each other.
    fn read(&mut self, mut bytes: &[u8]) -> Result<()> {
        while !bytes.is_empty() {
            if !self.receiver.is_receiving() {
                self.receiver.begin_dcs();
            }
            let received = self.receiver.feed(bytes)?;
            bytes = &bytes[received.consumed..];
            if received.status != Status::Dcs(Dcs::NeedMoreData) {
                self.images.push(self.receiver.finish()?.into_image()?);
            }
        }
        Ok(())
    }
}

#[test]
fn a_host_reads_chunks_of_any_length() {
    let bytes = STRING.repeat(3);
    for length in 1..=bytes.len() {
        let mut host = Host::default();
        for chunk in bytes.chunks(length) {
            host.read(chunk).unwrap();
        }
        assert!(!host.receiver.is_receiving());
        assert_eq!(host.images.len(), 3);
        for image in host.images {
            assert_filled(Ok(image), (12, 6), RED);
        }
    }
}

#[test]
fn a_payload_is_received() {
    let mut receiver = SixelReceiver::new();
    receiver.set_registers(0, &[[1, 2, 3], [4, 5, 6]]);
    receiver.set_height(Height::Raster);
    receiver.begin_frame(DcsSettings::default());
    assert!(receiver.is_receiving() && receiver.in_payload());
    assert_eq!(receiver.size_so_far(), Some((1, 1)));
    assert_eq!(receiver.registers()[..2], [[1, 2, 3], [4, 5, 6]]);
    receiver.reset_palette();
    let received = receiver.feed(b"\"1;1;2;3?\x9c").unwrap();
    let status = Status::Payload(Payload::Terminated(0x9c));
    assert_eq!(received, Received { consumed: 9, status });
    assert_eq!((receiver.size_so_far(), receiver.drawn_height()), (Some((2, 6)), 0));
    assert_filled(receiver.finish().and_then(ReceivedImage::into_image), (2, 3), [1, 2, 3, 255]);
    assert_eq!(receiver.register(0), [1, 2, 3]);
    assert!(!receiver.is_receiving());
}

#[test]
fn images_end_where_the_receiver_sets_it() {
    let mut receiver = SixelReceiver::new();
    for (height, payload, rows) in [
        (Height::Bands, "\"1;1;1;7A", 7),
        (Height::Bands, "\"1;1;1;3~-@", 12),
        (Height::Raster, "\"1;1;1;3~-@", 3),
        (Height::Drawn, "\"1;1;1;3~-@", 7),
        (Height::Drawn, "\"1;1;1;9~-@", 9),
        (Height::Drawn, "?-?", 0),
    ] {
        receiver.begin_frame(DcsSettings::default());
        receiver.set_height(height);
        assert!(receiver.feed(payload.as_bytes()).is_ok());
        let image = receiver.finish().unwrap();
        assert_eq!((image.height, image.pixels.len()), (rows, 4 * rows), "{payload}");
    }
    assert!(!receiver.into_decoder().raster_crop());
}

#[test]
fn rows_above_the_band_are_final() {
    let mut receiver = SixelReceiver::new();
    receiver.begin_frame(DcsSettings::default());
    for (chunk, rows) in [("~", 0), ("-", 6), ("--", 6), ("~", 18), ("-", 24), ("$@", 24)] {
        assert!(receiver.feed(chunk.as_bytes()).is_ok());
        assert_eq!(receiver.rows_so_far(), rows, "{chunk}");
    }
    assert_eq!(receiver.feed(b"!65536~"), Err(failed(invalid(MALFORMED), 7, PAYLOAD_MORE)));
    assert_eq!(receiver.rows_so_far(), 0);
}

/// Three pixels per row, the third of which is no column of the copy.
const NARROW: RowLayout = RowLayout { stride: 12, columns: 2, order: ChannelOrder::Rgba };

/// The bytes of rows of three pixels, without the last pixel of the last row.
fn rows(count: usize, pixels: [[u8; 4]; 3]) -> Vec<u8> {
    let mut bytes = pixels.as_flattened().repeat(count);
    bytes.truncate(12 * count - 4);
    bytes
}

#[test]
fn rows_are_copied_before_the_image_ends() {
    const CLEAR: [u8; 4] = [0; 4];
    const UNTOUCHED: [u8; 4] = [9; 4];
    let mut receiver = SixelReceiver::new();
    receiver.begin_frame(DcsSettings::new(Some(9), Some(1), None));
    let received = receiver.feed_band(b"#1;2;100;0;0~-!3~-").unwrap();
    assert_eq!((received.consumed, received.status), (14, BandStatus::Rows));
    assert_eq!(receiver.rows_so_far(), 6);
    let mut out = vec![9; 68];
    assert_eq!(receiver.copy_rows(0, 6, NARROW, &mut out), Ok(()));
    assert_eq!(out, rows(6, [RED, CLEAR, UNTOUCHED]));
    let bgra = RowLayout { order: ChannelOrder::Bgra, ..NARROW };
    assert_eq!(receiver.copy_rows(4, 2, bgra, &mut out), Ok(()));
    assert_eq!(out[..20], rows(2, [[0, 0, 255, 255], CLEAR, UNTOUCHED]));
    let none = RowLayout { columns: 0, ..NARROW };
    assert_eq!(receiver.copy_rows(0, 6, none, &mut [9; 60]), Ok(()));
    assert!(receiver.copy_rows(0, 6, none, &mut [9; 59]).is_err());
    assert_eq!(receiver.copy_rows(1, 6, none, &mut out), Err(invalid("rows are not final")));
    let copied = out.clone();
    assert_eq!((receiver.copy_rows(0, 2, none, &mut out), &out), (Ok(()), &copied));
    assert_eq!(receiver.release_rows(7), Err(invalid("rows are not final")));
    assert_eq!(receiver.release_rows(6), Ok(()));
    let released = Err(invalid("rows were released"));
    assert_eq!(receiver.copy_rows(5, 1, NARROW, &mut out), released);
    let goes_on = BandStatus::Image(Status::Payload(Payload::NeedMoreData));
    assert_eq!(receiver.feed_band(b"!3~").unwrap().status, goes_on);
    let image = receiver.finish().unwrap();
    assert!(!receiver.is_receiving() && !image.is_complete && image.ignored_commands == 0);
    assert_eq!((image.width, image.height, image.first_row, image.drawn_height), (3, 12, 6, 12));
    assert_eq!((image.aspect_ratio.pad(), image.pixels.len()), (1, 72));
    assert!(image.background_mode.is_transparent());
    let before = out.clone();
    assert_eq!(image.copy_rows(5, 1, NARROW, &mut out), released);
    assert_eq!(image.copy_rows(6, 7, NARROW, &mut out), Err(invalid("rows are not final")));
    let short = RowLayout { stride: 7, ..NARROW };
    let stride = invalid("stride is shorter than a row");
    assert_eq!(image.copy_rows(6, 1, short, &mut out), Err(stride));
    let far = RowLayout { stride: usize::MAX, ..NARROW };
    assert_eq!(image.copy_rows(6, 3, far, &mut out), Err(SixelError::IntegerOverflow));
    let mismatch = SixelError::BufferSizeMismatch { expected: 68, actual: 67 };
    assert_eq!(image.copy_rows(6, 6, NARROW, &mut out[..67]), Err(mismatch));
    assert_eq!(image.copy_rows(12, 0, NARROW, &mut []), Ok(()));
    assert_eq!(out, before);
    assert_eq!(image.copy_rows(6, 6, NARROW, &mut out), Ok(()));
    assert_eq!(out, rows(6, [RED, RED, UNTOUCHED]));
    let wide = RowLayout { stride: 16, columns: 4, order: ChannelOrder::Bgra };
    let mut one = [9; 16];
    assert_eq!(image.copy_rows(11, 1, wide, &mut one), Ok(()));
    assert_eq!(one, [[0, 0, 255, 255], [0, 0, 255, 255], [0, 0, 255, 255], CLEAR].concat()[..]);
    assert_eq!(image.into_image(), Err(invalid("rows were released")));
    assert_eq!(receiver.register(1), [255, 0, 0]);
}

#[test]
fn rows_are_not_copied() {
    let short = || Err(invalid("stride is shorter than a row"));
    let not_final = || Err(invalid("rows are not final"));
    let mut receiver = SixelReceiver::new();
    let mut out = [9; 72];
    assert_eq!(receiver.copy_rows(0, 1, NARROW, &mut out), not_final());
    assert_eq!(receiver.copy_rows(0, 0, NARROW, &mut out), Ok(()));
    let dense = RowLayout { stride: 0, ..NARROW };
    assert_eq!(receiver.copy_rows(0, 0, dense, &mut out), short());
    receiver.begin_frame(DcsSettings::default());
    assert!(receiver.feed(b"~-").is_ok());
    assert_eq!(receiver.copy_rows(1, 6, NARROW, &mut out), not_final());
    for stride in [0, 7] {
        assert_eq!(receiver.copy_rows(0, 1, RowLayout { stride, ..NARROW }, &mut out), short());
    }
    let far = RowLayout { stride: usize::MAX, ..NARROW };
    assert_eq!(receiver.copy_rows(0, 3, far, &mut out), Err(SixelError::IntegerOverflow));
    let mismatch = SixelError::BufferSizeMismatch { expected: 68, actual: 67 };
    assert_eq!(receiver.copy_rows(0, 6, NARROW, &mut out[..67]), Err(mismatch));
    assert_eq!(out, [9; 72]);
}

#[test]
fn nothing_is_open() {
    let mut receiver = SixelReceiver::new();
    assert_eq!(receiver.feed(b"~"), Err(failed(invalid(STREAM_FAILED), 0, PAYLOAD_MORE)));
    assert_eq!(receiver.finish(), Err(invalid(STREAM_FAILED)));
    assert_eq!(receiver.size_so_far(), None);
    assert_eq!((receiver.canvas_paints(), receiver.rows_so_far()), (0, 0));
    assert!(!receiver.in_payload() && !receiver.is_receiving());
    receiver.abort();
    assert_filled(receiver.into_decoder().decode(b"#1~"), (1, 6), [51, 51, 204, 255]);
}

#[test]
fn errors_close_the_image() {
    let mut receiver = SixelReceiver::new();
    receiver.set_pixel_limit(10);
    receiver.begin_dcs();
    assert_eq!(receiver.feed(b"x"), Err(failed(SixelError::NoSixelData, 1, DCS_MORE)));
    assert!(receiver.is_receiving());
    let ended = failed(SixelError::NoSixelData, 1, Status::Dcs(Dcs::Complete));
    assert_eq!(receiver.feed(b"\x9cx"), Err(ended));
    assert_eq!(receiver.finish(), Err(SixelError::NoSixelData));
    assert!(!receiver.is_receiving());
    receiver.begin_dcs();
    assert_eq!(receiver.feed(b"\x1bPq!2~"), Err(failed(invalid(TOO_LARGE), 6, DCS_MORE)));
    let ended = failed(invalid(TOO_LARGE), 1, Status::Dcs(Dcs::Cancelled(0x18)));
    assert_eq!(receiver.feed_band(b"\x18-"), Err(ended));
    receiver.begin_dcs();
    assert!(receiver.feed(b"\x1bPq~").is_ok());
    assert_eq!(receiver.finish(), Err(invalid(INCOMPLETE)));
    assert!(!receiver.is_receiving());
}

#[test]
fn what_is_not_drawn_is_transparent() {
    let mut receiver = SixelReceiver::new();
    receiver.set_transparent(true);
    receiver.set_register(0, [255, 0, 0]);
    receiver.begin_dcs();
    assert!(receiver.feed(b"\x1bPq@\x1b\\").is_ok());
    let image = receiver.finish().unwrap();
    assert_eq!(image.background_mode, BackgroundMode::Opaque);
    assert_eq!((&image.pixels[..4], &image.pixels[4..]), (&RED[..], &[0; 20][..]));
    assert!(receiver.is_transparent() && !SixelReceiver::new().is_transparent());
    let image = receiver.into_decoder().decode(b"\x1bPq@\x1b\\").unwrap();
    assert_eq!(image.pixels[4..8], RED);
}

#[test]
fn first_register_draws_until_one_is_selected() {
    let mut receiver = SixelReceiver::new();
    receiver.set_first_register(15);
    receiver.set_register(15, [255, 0, 0]);
    receiver.begin_dcs();
    assert!(receiver.feed(b"\x1bPq@\x1b\\").is_ok());
    let image = receiver.finish().unwrap();
    assert_eq!((&image.pixels[..4], &image.pixels[4..8]), (&RED[..], &[0, 0, 0, 255][..]));
    assert_eq!((receiver.first_register(), SixelReceiver::new().first_register()), (15, 0));
    let image = receiver.into_decoder().decode(b"\x1bPq@\x1b\\").unwrap();
    assert_eq!(image.pixels[..4], [0, 0, 0, 255]);
}

#[test]
fn lenient_images_ignore_commands() {
    let mut receiver = SixelReceiver::new();
    receiver.set_lenient(true);
    for (string, is_complete) in [(&b"\x1bPq~!65536~~"[..], false), (b"\x1bPq~!65536~~\x9c", true)]
    {
        receiver.begin_dcs();
        assert!(receiver.feed(string).is_ok());
        let image = receiver.finish().unwrap();
        assert_eq!((image.width, image.ignored_commands), (3, 1));
        assert_eq!(image.is_complete, is_complete);
    }
    assert!(receiver.is_lenient() && !SixelReceiver::new().is_lenient());
    let mut decoder = receiver.into_decoder();
    assert_eq!(decoder.decode(b"~!65536~~"), Err(invalid(MALFORMED)));
    let mut strict = SixelReceiver::with_decoder(decoder);
    strict.begin_dcs();
    assert_eq!(strict.feed(b"\x1bPq~!65536~~"), Err(failed(invalid(MALFORMED), 12, DCS_MORE)));
}

#[test]
fn a_receiver_owns_its_decoder() {
    let mut decoder = SixelDecoder::new();
    decoder.set_register(3, [3, 3, 3]);
    std::mem::forget(decoder.begin_dcs());
    let mut receiver = SixelReceiver::with_decoder(decoder);
    assert_eq!(receiver.feed(b"\x1b"), Err(failed(invalid(STREAM_FAILED), 0, PAYLOAD_MORE)));
    receiver.begin_dcs();
    assert!(receiver.feed(b"\x1bPq#3;2;100;0;0!500~").is_ok());
    assert!((500..=500 + 1151).contains(&receiver.canvas_paints()));
    assert_eq!(receiver.decoder().register(3), [3, 3, 3]);
    let clone = receiver.decoder().clone();
    assert_eq!(clone.register(3), [3, 3, 3]);
    assert!(receiver.feed(b"\x9c").is_ok());
    let image = receiver.finish().unwrap();
    assert!(image.is_complete && (image.width, image.height) == (500, 6));
    assert_eq!(receiver.into_decoder().register(3), [255, 0, 0]);
}

#[test]
fn a_receiver_moves_between_threads() {
    let (to_worker, receivers_in) = mpsc::channel::<SixelReceiver>();
    let (to_main, receivers_out) = mpsc::channel();
    let worker = thread::spawn(move || {
        for (mut receiver, byte) in receivers_in.into_iter().zip(STRING) {
            assert!(receiver.feed(&[*byte]).is_ok());
            to_main.send(receiver).unwrap();
        }
    });
    let mut receiver = SixelReceiver::new();
    receiver.begin_dcs();
    for _ in STRING {
        to_worker.send(receiver).unwrap();
        receiver = receivers_out.recv().unwrap();
    }
    drop(to_worker);
    worker.join().unwrap();
    assert_filled(receiver.finish().and_then(ReceivedImage::into_image), (12, 6), RED);
}

#[test]
fn threads_share_what_only_reads() {
    let mut decoder = SixelDecoder::new();
    decoder.set_register(200, [2, 0, 0]);
    let mut session = decoder.begin_dcs();
    assert!(session.feed(b"\x1bPq!40~").is_ok());
    thread::scope(|scope| {
        for _ in 0..4 {
            scope.spawn(|| {
                for _ in 0..1000 {
                    assert_eq!(session.size_so_far(), Some((40, 6)));
                    assert!(session.in_payload() && session.canvas_paints() >= 40);
                }
            });
        }
    });
    session.abort();
    thread::scope(|scope| {
        for _ in 0..4 {
            scope.spawn(|| {
                for number in 0..=u8::MAX {
                    assert_eq!(decoder.register(200), [2, 0, 0]);
                    assert_eq!(decoder.clone().register(number), decoder.register(number));
                }
            });
        }
    });

    let shared = Arc::new(RwLock::new(decoder));
    let other = Arc::clone(&shared);
    let image = thread::spawn(move || other.write().unwrap().decode(STRING)).join().unwrap();
    assert_filled(image, (12, 6), RED);
    assert_eq!(shared.read().unwrap().register(1), [255, 0, 0]);
}

#[test]
fn each_thread_has_its_own() {
    let images = Mutex::new(Vec::new());
    thread::scope(|scope| {
        for _ in 0..4 {
            scope.spawn(|| {
                for length in 1..=STRING.len() {
                    let mut host = Host::default();
                    for chunk in STRING.chunks(length) {
                        host.read(chunk).unwrap();
                    }
                    images.lock().unwrap().append(&mut host.images);
                }
            });
        }
    });
    let images = images.into_inner().unwrap();
    assert_eq!(images.len(), 4 * STRING.len());
    assert!(images.iter().all(|image| *image == images[0]));
}
