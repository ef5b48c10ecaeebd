//! The names, paths, signatures and traits that callers rely on.

use icy_sixel::{decoder, encoder, palette, receiver, script, sixel_image};
use std::error::Error;
use std::fmt::{Debug, Display};
use std::panic::{RefUnwindSafe, UnwindSafe};
use std::str::FromStr;

type Answer<T> = icy_sixel::Result<T>;
type Image = icy_sixel::SixelImage;
type Decoder = icy_sixel::SixelDecoder;
type Settings = icy_sixel::DcsSettings;
type Options = icy_sixel::EncodeOptions;
type Ratio = icy_sixel::PixelAspectRatio;
type Mode = icy_sixel::BackgroundMode;

fn is_shared<T: Send + Sync + Unpin + UnwindSafe + RefUnwindSafe>() {}
fn goes_to_threads<T: Send + Sync + Unpin>() {}
fn is_value<T: Copy + Debug + Eq + Send + Sync>() {}

#[test]
fn traits() {
    fn image<T: Clone + Debug + Display + FromStr<Err = icy_sixel::SixelError>>() {}
    fn decoder<T: Clone + Debug + Default>() {}
    fn options<T: Clone + Debug + Default>() {}
    fn error<T: Error + Eq + Clone + Send + Sync + 'static>() {}
    image::<Image>();
    decoder::<Decoder>();
    options::<Options>();
    error::<icy_sixel::SixelError>();
    is_shared::<Image>();
    is_shared::<Decoder>();
    is_shared::<Options>();
    is_shared::<receiver::SixelReceiver>();
    goes_to_threads::<icy_sixel::SixelStreamDecoder<'_>>();
    goes_to_threads::<icy_sixel::SixelDcsStreamDecoder<'_>>();
    is_value::<Settings>();
    is_value::<Ratio>();
    is_value::<Mode>();
    is_value::<icy_sixel::SixelFeedResult>();
    is_value::<icy_sixel::SixelFeedStatus>();
    is_value::<icy_sixel::SixelDcsFeedResult>();
    is_value::<icy_sixel::SixelDcsFeedStatus>();
    is_value::<receiver::Received>();
    is_value::<script::Status>();
    assert_eq!(Ratio::default(), Ratio::Square);
    assert_eq!(Mode::default(), Mode::Transparent);
    assert_eq!(Options::default().max_colors, 256);
    assert_eq!(Settings::default(), Settings::new(None, None, None));
}

#[test]
fn free_calls() {
    let _: fn(&[u8]) -> Answer<Image> = icy_sixel::sixel_decode;
    let _: fn(&[u8]) -> Answer<Image> = decoder::sixel_decode;
    let _: fn(&[u8], Settings) -> Answer<Image> = icy_sixel::sixel_decode_from_dcs;
    let _: fn(&[u8], Settings) -> Answer<Image> = decoder::sixel_decode_from_dcs;
    let _: fn(&[u8], usize, usize, &Options) -> Answer<String> = icy_sixel::sixel_encode;
    let _: fn(&[u8], usize, usize, &Options) -> Answer<String> = encoder::sixel_encode;
    let _: fn(&[u8], usize, usize) -> Answer<String> = icy_sixel::sixel_encode_default;
    let _: fn(&[u8], usize, usize) -> Answer<String> = encoder::sixel_encode_default;
    let _: fn(usize, usize) -> Answer<()> = icy_sixel::validate_encode_dimensions;
}

#[test]
fn calls_of_an_image() {
    let _: fn(&[u8]) -> Answer<Image> = sixel_image::SixelImage::decode;
    let _: fn(&[u8], Settings) -> Answer<Image> = Image::decode_from_dcs;
    let _: fn(Vec<u8>, usize, usize) -> Image = Image::from_rgba;
    let _: fn(Vec<u8>, usize, usize) -> Answer<Image> = Image::try_from_rgba;
    let _: fn(Image, sixel_image::PixelAspectRatio) -> Image = Image::with_aspect_ratio;
    let _: fn(Image, sixel_image::BackgroundMode) -> Image = Image::with_background_mode;
    let _: fn(&Image) -> Answer<String> = Image::encode;
    let _: fn(&Image, &encoder::EncodeOptions) -> Answer<String> = Image::encode_with;
    let _: fn(&Image) -> (usize, usize) = Image::dimensions;
    let _: fn(&Image) -> (usize, usize) = Image::corrected_dimensions;
    let _: fn(&Image) -> bool = Image::has_transparency;
}

#[test]
fn calls_of_a_decoder() {
    let _: fn() -> Decoder = decoder::SixelDecoder::new;
    let _: fn(&mut Decoder, &[u8]) -> Answer<Image> = Decoder::decode;
    let _: fn(&mut Decoder, &[u8], decoder::DcsSettings) -> Answer<Image> =
        Decoder::decode_from_dcs;
    let _: fn(&mut Decoder) = Decoder::reset_palette;
    let _: for<'a> fn(&'a mut Decoder, Settings) -> Answer<decoder::SixelStreamDecoder<'a>> =
        Decoder::begin_frame;
    let _: for<'a> fn(&'a mut Decoder) -> decoder::SixelDcsStreamDecoder<'a> = Decoder::begin_dcs;
}

#[test]
fn calls_of_sessions() {
    type Frame = icy_sixel::SixelStreamDecoder<'static>;
    let _: fn(&mut Frame, &[u8]) -> Answer<decoder::SixelFeedResult> = Frame::feed;
    let _: fn(Frame) -> Answer<Image> = Frame::finish;
    let _: fn(Frame) = Frame::abort;
    type Dcs = icy_sixel::SixelDcsStreamDecoder<'static>;
    let _: fn(&mut Dcs, &[u8]) -> Answer<decoder::SixelDcsFeedResult> = Dcs::feed;
    let _: fn(Dcs) -> Answer<Image> = Dcs::finish;
    let _: fn(Dcs) = Dcs::abort;
}

#[test]
fn names_of_our_own() {
    let _: fn(&Decoder, u8) -> [u8; 3] = Decoder::register;
    let _: fn(&mut Decoder, u8, [u8; 3]) = Decoder::set_register;
    let _: fn(&Decoder) -> [[u8; 3]; 256] = Decoder::registers;
    let _: fn(&mut Decoder, u8, &[[u8; 3]]) = Decoder::set_registers;
    let _: fn(&Decoder) -> bool = Decoder::raster_crop;
    let _: fn(&mut Decoder, bool) = Decoder::set_raster_crop;
    let _: fn(&Decoder) -> usize = Decoder::pixel_limit;
    let _: fn(&mut Decoder, usize) = Decoder::set_pixel_limit;
    let _: fn(&Decoder) -> (usize, usize) = Decoder::clip;
    let _: fn(&mut Decoder, usize, usize) = Decoder::set_clip;
    let _: fn() -> Answer<Decoder> = Decoder::try_new;
    let _: fn(&Decoder) -> Answer<Decoder> = Decoder::try_clone;
    type Choice = icy_sixel::PaletteChoice;
    let _: fn(&[u8], u16) -> Answer<palette::PaletteChoice> = palette::choose_palette;
    let _: fn(&[u8], u16) -> Answer<Choice> = icy_sixel::choose_palette;
    let _: fn(&[[u8; 3]], u32) -> bool = palette::witnesses_hold;
    let _: fn(&[[u8; 3]], u32) -> bool = icy_sixel::witnesses_hold;
    is_shared::<Choice>();
    type Palette = icy_sixel::RefinedPalette;
    let _: fn(&[u8], u16) -> Answer<palette::RefinedPalette> = palette::refine_palette;
    let _: fn(&[u8], u16) -> Answer<Palette> = icy_sixel::refine_palette;
    is_shared::<Palette>();
    type Distinct = icy_sixel::DistinctColors;
    let _: fn(&[u8]) -> Answer<palette::DistinctColors> = palette::count_colors;
    let _: fn(&[u8]) -> Answer<Distinct> = icy_sixel::count_colors;
    is_value::<Distinct>();
    type Dither = icy_sixel::Dither;
    type Form = icy_sixel::TextForm;
    is_value::<Dither>();
    type Mapping = icy_sixel::Mapping;
    is_value::<Mapping>();
    is_value::<Form>();
    is_value::<icy_sixel::PixelFormat>();
    is_value::<icy_sixel::PaletteMode<'_>>();
    type Colors<'a> = &'a [[u8; 3]];
    type Indices = Answer<Vec<u8>>;
    let _: fn(&[u8], usize, Colors<'_>, Mapping) -> Indices = icy_sixel::palette_indices;
    let _: fn(&Image, &Options) -> Answer<String> = Image::encode_compact;
    let _: fn(&Image, u16, Mapping, Form) -> Answer<String> = Image::encode_refined;
    type Background = icy_sixel::Background;
    is_value::<Background>();
    let _: fn(&Image, Background, Mapping, Form) -> Answer<String> = Image::encode_on_background;
    let _: fn(&Image, Colors<'_>, Mapping, Form) -> Answer<String> = Image::encode_with_palette;
    let _: fn(&Image, Colors<'_>, &[u8], Form) -> Answer<String> = Image::encode_indexed;
    let _: fn() -> icy_sixel::SixelReceiver = receiver::SixelReceiver::new;
    type Receiver = receiver::SixelReceiver;
    type Fed<T> = std::result::Result<T, icy_sixel::FailedFeed>;
    let _: fn(&mut Receiver, &[u8]) -> Fed<icy_sixel::Received> = Receiver::feed;
    type Layout = icy_sixel::RowLayout;
    let _: fn(&mut Receiver, &[u8]) -> Fed<receiver::ReceivedBand> = Receiver::feed_band;
    let _: fn(icy_sixel::Status) -> bool = icy_sixel::Status::has_ended;
    let _: fn(&Receiver, usize, usize, Layout, &mut [u8]) -> Answer<()> = Receiver::copy_rows;
    let _: fn(&mut Receiver, usize) -> Answer<()> = Receiver::release_rows;
    let _: fn(&mut Receiver, bool) = Receiver::set_lenient;
    let _: fn(&mut Receiver, icy_sixel::Height) = Receiver::set_height;
    let _: fn(&Receiver) -> bool = Receiver::is_lenient;
    let _: fn(&mut Receiver, bool) = Receiver::set_transparent;
    let _: fn(&Receiver) -> bool = Receiver::is_transparent;
    let _: fn(&mut Receiver, u8) = Receiver::set_first_register;
    let _: fn(&Receiver) -> u8 = Receiver::first_register;
    type Received = receiver::ReceivedImage;
    let _: fn(&mut Receiver) -> Answer<Received> = Receiver::finish;
    let _: fn(&Received, usize, usize, Layout, &mut [u8]) -> Answer<()> = Received::copy_rows;
    let _: fn(Received) -> Answer<Image> = Received::into_image;
    let _: fn(&Received) -> bool = Received::is_empty;
    let _: fn(&mut Decoder, &[u8]) -> Answer<Received> = Decoder::decode_drawn;
    let _: fn(&mut Decoder, &[u8], Settings) -> Answer<Received> = Decoder::decode_from_dcs_drawn;
    is_value::<Layout>();
    is_value::<icy_sixel::ChannelOrder>();
    is_value::<icy_sixel::Status>();
    is_value::<icy_sixel::ReceivedBand>();
    is_value::<icy_sixel::BandStatus>();
    let receiver = receiver::SixelReceiver::new();
    assert!(format!("{receiver:?}").starts_with("SixelReceiver"));
    let mut decoder = Decoder::new();
    assert!(format!("{:?}", decoder.begin_dcs()).starts_with("SixelDcsStreamDecoder"));
}
