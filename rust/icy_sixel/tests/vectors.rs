//! The test vectors of the repository, as the README of their folder defines them.
//!
//! `SIXEL_VECTORS` names the folder. Without it and without the repository nothing is tested.

mod common;

use common::*;
use icy_sixel::receiver::{ReceivedImage, SixelReceiver};
use icy_sixel::script::Status;
use icy_sixel::{
    BackgroundMode, DcsSettings, EncodeOptions, PaletteChoice, PixelAspectRatio, Result,
    SixelDcsFeedStatus as Dcs, SixelDecoder, SixelFeedStatus as Payload, SixelImage,
    choose_palette, count_colors, sixel_decode, sixel_decode_from_dcs, sixel_encode,
    validate_encode_dimensions, witnesses_hold,
};
use std::path::PathBuf;
use std::{env, fs};

/// An image, or the text of an error.
type Outcome = std::result::Result<SixelImage, String>;

/// Calls a function with the columns of each vector of a file.
fn each_vector(name: &str, mut check: impl FnMut(&[&str])) {
    let named = env::var_os("SIXEL_VECTORS").map(PathBuf::from);
    let beside = PathBuf::from(env!("CARGO_MANIFEST_DIR")).join("../../../crates/sixel_tests/data");
    if named.is_none() && !beside.is_dir() {
        eprintln!("{name}: skipped, because the package stands alone");
        return;
    }
    let path = named.unwrap_or(beside).join(name);
    let text = fs::read_to_string(&path).unwrap_or_else(|error| panic!("{path:?}: {error}"));
    let vectors = text.lines().filter(|line| !line.is_empty() && !line.starts_with('#'));
    let mut count = 0;
    for line in vectors {
        count += 1;
        println!("{name}: {line}"); // shown where a check fails
        check(&line.split('\t').collect::<Vec<_>>());
    }
    assert!(count > 0, "{name}");
}

/// The bytes of a column.
fn bytes(mut text: &str) -> Vec<u8> {
    let mut bytes = Vec::new();
    while let Some(place) = text.find('<') {
        bytes.extend(&text.as_bytes()[..place]);
        let (code, rest) = text[place + 1..].split_once('>').unwrap();
        text = rest;
        match code.split_once('*') {
            Some((count, repeated)) => {
                bytes.extend(repeated.repeat(count.parse().unwrap()).bytes())
            }
            None if code.is_empty() => (),
            None => bytes.push(u8::from_str_radix(code, 16).unwrap()),
        }
    }
    bytes.extend(text.bytes());
    bytes
}

/// The pixels of runs.
fn pixels(text: &str) -> Vec<u8> {
    let mut pixels = Vec::new();
    for run in words(text) {
        let (count, color) = run.split_once('*').unwrap();
        let color = u32::from_str_radix(color, 16).unwrap().to_be_bytes();
        pixels.extend(color.repeat(count.parse().unwrap()));
    }
    pixels
}

fn ratio(text: &str) -> PixelAspectRatio {
    match text {
        "1:1" => PixelAspectRatio::Square,
        "2:1" => PixelAspectRatio::Ratio2To1,
        "3:1" => PixelAspectRatio::Ratio3To1,
        "5:1" => PixelAspectRatio::Ratio5To1,
        other => panic!("{other}"),
    }
}

fn mode(text: &str) -> BackgroundMode {
    match text {
        "opaque" => BackgroundMode::Opaque,
        "transparent" => BackgroundMode::Transparent,
        other => panic!("{other}"),
    }
}

/// The words of a column.
fn words(text: &str) -> impl Iterator<Item = &str> {
    text.split(' ').filter(|word| *word != "none")
}

/// The colors of a column, each as `RRGGBB`.
fn colors(text: &str) -> Vec<[u8; 3]> {
    let color = |word| {
        let [_, red, green, blue] = u32::from_str_radix(word, 16).unwrap().to_be_bytes();
        [red, green, blue]
    };
    words(text).map(color).collect()
}

/// The width and the height of a column.
fn size(text: &str) -> (usize, usize) {
    let (width, height) = text.split_once('x').unwrap();
    (width.parse().unwrap(), height.parse().unwrap())
}

/// The image or the error of a column.
fn outcome(text: &str) -> Outcome {
    if let Some(error) = text.strip_prefix("error: ") {
        return Err(error.to_string());
    }
    let mut parts = text.splitn(4, ' ');
    let (width, height) = size(parts.next().unwrap());
    let ratio = ratio(parts.next().unwrap());
    let mode = mode(parts.next().unwrap());
    let pixels = pixels(parts.next().unwrap_or("none"));
    let image = SixelImage::from_rgba(pixels, width, height);
    Ok(image.with_aspect_ratio(ratio).with_background_mode(mode))
}

/// How bytes are decoded: as a payload with these settings or as a DCS sequence, by this decoder.
struct Input {
    payload: Option<DcsSettings>,
    decoder: SixelDecoder,
    is_default: bool,
    bytes: Vec<u8>,
}

impl Input {
    fn new(settings: &str, text: &str) -> Self {
        let mut decoder = SixelDecoder::new();
        let mut parameters = [None; 3];
        for word in settings.split(' ').skip(1) {
            match word.split_once('=') {
                None => decoder.set_raster_crop(word == "crop"),
                Some(("limit", value)) => decoder.set_pixel_limit(value.parse().unwrap()),
                Some(("clip", value)) => {
                    let (width, height) = value.split_once('x').unwrap();
                    decoder.set_clip(width.parse().unwrap(), height.parse().unwrap());
                }
                Some((name, value)) => {
                    let place = ["p1", "p2", "p3"].iter().position(|known| *known == name);
                    parameters[place.unwrap()] = Some(value.parse().unwrap());
                }
            }
        }
        let [p1, p2, p3] = parameters;
        let is_default = ["crop", "limit", "clip"].iter().all(|word| !settings.contains(word));
        let payload = settings.starts_with("payload").then(|| DcsSettings::new(p1, p2, p3));
        assert!(payload.is_some() || settings.starts_with("dcs"));
        Self { payload, decoder, is_default, bytes: bytes(text) }
    }

    /// Decodes at once, by each call that does, and returns the registers.
    fn decode(&self, expected: &Outcome) -> Vec<[u8; 3]> {
        let mut decoder = self.decoder.clone();
        let mut images = Vec::new();
        match self.payload {
            Some(settings) => {
                images.push(decoder.decode_from_dcs(&self.bytes, settings));
                if self.is_default {
                    images.push(SixelImage::decode_from_dcs(&self.bytes, settings));
                    images.push(sixel_decode_from_dcs(&self.bytes, settings));
                }
            }
            None => {
                images.push(decoder.decode(&self.bytes));
                if self.is_default {
                    images.push(SixelImage::decode(&self.bytes));
                    images.push(sixel_decode(&self.bytes));
                    images.extend(std::str::from_utf8(&self.bytes).map(str::parse).ok());
                }
            }
        }
        for image in images {
            assert_eq!(&image.map_err(|error| error.to_string()), expected);
        }
        registers(&decoder)
    }

    /// Feeds chunks to a session and to a receiver, and compares what all feeds consume together,
    /// the last status, the image or error, and the registers.
    fn feed(&self, cut: &[&[u8]], expected: &Expected) {
        let mut decoder = self.decoder.clone();
        let (fed, outcome, reason) = match self.payload {
            Some(settings) => {
                let mut session = decoder.begin_frame(settings).unwrap();
                let fed = feed_all(cut, |chunk| {
                    session.feed(chunk).map(|fed| (fed.consumed, Status::Payload(fed.status)))
                });
                (fed, session.finish(), STREAM_FAILED)
            }
            None => {
                let mut session = decoder.begin_dcs();
                let fed = feed_all(cut, |chunk| {
                    session.feed(chunk).map(|fed| (fed.consumed, Status::Dcs(fed.status)))
                });
                (fed, session.finish(), DCS_STREAM_FAILED)
            }
        };
        let mut receiver = SixelReceiver::with_decoder(self.decoder.clone());
        match self.payload {
            Some(settings) => receiver.begin_frame(settings),
            None => receiver.begin_dcs(),
        }
        let received = feed_all(cut, |chunk| {
            Ok(receiver.feed(chunk).map(|fed| (fed.consumed, fed.status))?)
        });
        assert_eq!(received, fed);
        let image = receiver.finish().and_then(ReceivedImage::into_image);
        match &fed {
            Ok(_) => assert_eq!(image, outcome),
            Err(error) => assert_eq!(image, Err(error.clone())),
        }
        assert_eq!(registers(receiver.decoder()), registers(&decoder));

        if fed.is_err() {
            assert_eq!(outcome, Err(invalid(reason)));
        }
        let outcome = match &fed {
            Ok(_) => outcome,
            Err(error) => Err(error.clone()),
        };
        assert_eq!(&outcome.map_err(|error| error.to_string()), &expected.outcome);
        match fed {
            Ok(fed) => assert_eq!(fed, (expected.consumed, expected.status.unwrap())),
            Err(_) => assert!(expected.can_be_rejected),
        }
        assert_eq!(registers(&decoder), expected.registers);
    }

    /// Feeds in one chunk, in single bytes and in sevens; in two chunks cut at each place, and an
    /// empty one between, where input and image are small.
    fn feed_in_chunks(&self, expected: &Expected) {
        let length = self.bytes.len();
        self.feed(&[&self.bytes], expected);
        for size in [1, 7] {
            self.feed(&self.bytes.chunks(size).collect::<Vec<_>>(), expected);
        }
        let is_small = expected.outcome.as_ref().map_or(0, |image| image.pixels.len()) < 10_000;
        for place in 0..=if is_small && length <= 120 { length } else { 0 } {
            let (front, back) = self.bytes.split_at(place);
            self.feed(&[front, b"", back], expected);
        }
    }
}

/// What a session comes to.
struct Expected {
    consumed: usize,
    /// None where a feed fails.
    status: Option<Status>,
    can_be_rejected: bool,
    outcome: Outcome,
    registers: Vec<[u8; 3]>,
}

/// Feeds chunks, and returns how many bytes were consumed, and the last status.
fn feed_all(
    chunks: &[&[u8]],
    mut feed: impl FnMut(&[u8]) -> Result<(usize, Status)>,
) -> Result<(usize, Status)> {
    let mut consumed = 0;
    let mut last = feed(b"")?;
    for chunk in chunks {
        last = feed(chunk)?;
        assert!(last.0 <= chunk.len());
        consumed += last.0;
    }
    Ok((consumed, last.1))
}

fn registers(decoder: &SixelDecoder) -> Vec<[u8; 3]> {
    (0..=u8::MAX).map(|number| decoder.register(number)).collect()
}

#[test]
fn images() {
    each_vector("images.tsv", |columns| {
        let input = Input::new(columns[0], columns[1]);
        let outcome = outcome(columns[2]);
        let registers = input.decode(&outcome);
        if input.payload.is_some() {
            let is_end = |byte: &u8| matches!(byte, 0x18 | 0x1a | 0x1b | 0x80..0xa0);
            let end = input.bytes.iter().position(is_end);
            let status =
                end.map_or(Payload::NeedMoreData, |at| Payload::Terminated(input.bytes[at]));
            input.feed_in_chunks(&Expected {
                consumed: end.unwrap_or(input.bytes.len()),
                status: Some(Status::Payload(status)),
                can_be_rejected: outcome.is_err(),
                outcome,
                registers,
            });
        }
    });
}

#[test]
fn strings() {
    each_vector("strings.tsv", |columns| {
        let input = Input::new("dcs", columns[0]);
        let outcome = outcome(columns[2]);
        let (consumed, status) = columns[1].split_once(' ').unwrap();
        let (word, byte) = status.split_once(' ').unwrap_or((status, "0"));
        let byte = u8::from_str_radix(byte, 16).unwrap();
        let status = match word {
            "more" => Some(Dcs::NeedMoreData),
            "complete" => Some(Dcs::Complete),
            "cancelled" => Some(Dcs::Cancelled(byte)),
            "interrupted" => Some(Dcs::Interrupted(byte)),
            _ => None,
        };
        assert!(status.is_some() || word == "rejected");
        let registers =
            if outcome.is_ok() { input.decode(&outcome) } else { registers(&input.decoder) };
        input.feed_in_chunks(&Expected {
            consumed: consumed.parse().unwrap(),
            status: status.map(Status::Dcs),
            can_be_rejected: status.is_none(),
            outcome,
            registers,
        });
    });
}

#[test]
fn texts() {
    each_vector("texts.tsv", |columns| {
        let image = outcome(columns[1]).unwrap();
        let options = EncodeOptions { max_colors: columns[0].parse().unwrap() };
        let expected = match columns[2].strip_prefix("error: ") {
            Some(error) => Err(error.to_string()),
            None => Ok(String::from_utf8(bytes(columns[2])).unwrap()),
        };
        let text = image.encode_with(&options);
        if (image.aspect_ratio, image.background_mode) == Default::default() {
            assert_eq!(sixel_encode(&image.pixels, image.width, image.height, &options), text);
        }
        if options.max_colors == EncodeOptions::default().max_colors {
            assert_eq!(image.encode(), text);
        }
        assert_eq!(text.map_err(|error| error.to_string()), expected);
    });
}

/// An image is decoded again with its bands, and with its own height where it is cropped.
#[test]
fn trips() {
    each_vector("trips.tsv", |columns| {
        let image = outcome(columns[1]).unwrap();
        let options = EncodeOptions { max_colors: columns[0].parse().unwrap() };
        let text = image.encode_with(&options).unwrap();
        let expected = outcome(columns[2]).unwrap();
        assert_eq!(SixelImage::decode(text.as_bytes()), Ok(expected.clone()));
        let mut decoder = SixelDecoder::new();
        decoder.set_raster_crop(true);
        let cropped = decoder.decode(text.as_bytes()).unwrap();
        assert_eq!(cropped.dimensions(), image.dimensions());
        assert!(expected.pixels.starts_with(&cropped.pixels));
    });
}

#[test]
fn palettes() {
    each_vector("palettes.tsv", |columns| {
        let expected = PaletteChoice {
            colors: colors(columns[2]),
            indices: words(columns[3]).map(|index| index.parse().unwrap()).collect(),
            error: columns[4].parse().unwrap(),
            witnesses: colors(columns[5]),
        };
        let choice = choose_palette(&pixels(columns[1]), columns[0].parse().unwrap());
        assert_eq!(choice, Ok(expected));
    });
}

#[test]
fn witnesses() {
    each_vector("witnesses.tsv", |columns| {
        let holds = witnesses_hold(&colors(columns[0]), columns[1].parse().unwrap());
        assert_eq!(if holds { "yes" } else { "no" }, columns[2]);
    });
}

#[test]
fn sizes() {
    each_vector("sizes.tsv", |columns| {
        let bytes = bytes(columns[2]);
        let (call, shape) = columns[0].split_once(' ').unwrap_or((columns[0], "1:1"));
        let (width, height) = if columns[1] == "none" { (0, 0) } else { size(columns[1]) };
        let image = SixelImage::from_rgba(bytes.clone(), width, height);
        let image = image.with_aspect_ratio(ratio(shape));
        let result = match call {
            "validate_encode_dimensions" => validate_encode_dimensions(width, height),
            "sixel_encode" => image.encode().map(drop),
            "try_from_rgba" => SixelImage::try_from_rgba(bytes, width, height).map(drop),
            "choose_palette" => choose_palette(&bytes, 256).map(drop),
            "has_transparency" => {
                return assert_eq!(image.has_transparency(), columns[3] == "yes");
            }
            "count_colors" => {
                let colors = count_colors(&bytes).unwrap();
                let kind = if colors.are_exact { "exact" } else { "other" };
                return assert_eq!(format!("{} {kind}", colors.count), columns[3]);
            }
            "corrected_dimensions" => {
                return assert_eq!(image.corrected_dimensions(), size(columns[3]));
            }
            other => panic!("{other}"),
        };
        let result = result.map_or_else(|error| format!("error: {error}"), |()| "ok".to_string());
        assert_eq!(result, columns[3]);
    });
}

#[test]
fn settings() {
    each_vector("settings.tsv", |columns| {
        let (name, value) = columns[0].split_once('=').unwrap();
        if name == "limit" {
            let mut decoder = SixelDecoder::new();
            decoder.set_pixel_limit(value.parse().unwrap());
            return assert_eq!(decoder.pixel_limit().to_string(), columns[1]);
        }
        if name == "clip" {
            let mut decoder = SixelDecoder::new();
            let (width, height) = value.split_once('x').unwrap();
            decoder.set_clip(width.parse().unwrap(), height.parse().unwrap());
            let (columns_inside, rows_inside) = decoder.clip();
            return assert_eq!(format!("{columns_inside}x{rows_inside}"), columns[1]);
        }
        let value = value.parse().unwrap();
        if name == "p1" {
            let ratio = ratio(columns[1]);
            assert_eq!(PixelAspectRatio::from_p1(value), ratio);
            assert_eq!((ratio.pan(), ratio.pad().to_string().as_str()), (1, columns[2]));
            assert_eq!(ratio.to_p1_value().to_string(), columns[3]);
        } else {
            let mode = mode(columns[1]);
            assert_eq!(BackgroundMode::from_p2(value), mode);
            assert_eq!(mode.to_p2_value().to_string(), columns[2]);
        }
    });
}

#[test]
fn registers_of_a_new_decoder() {
    let decoder = SixelDecoder::new();
    each_vector("registers.tsv", |columns| {
        assert_eq!(vec![decoder.register(columns[0].parse().unwrap())], colors(columns[1]));
    });
}
