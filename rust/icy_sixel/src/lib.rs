#![doc = include_str!("../README.md")]
#![no_std]

extern crate alloc;

#[forbid(unsafe_code)]
pub mod decoder;
#[forbid(unsafe_code)]
pub mod encoder;
#[forbid(unsafe_code)]
mod error;
#[forbid(unsafe_code)]
pub mod palette;
#[rustfmt::skip]
mod rattle;
#[forbid(unsafe_code)]
pub mod receiver;
#[forbid(unsafe_code)]
pub mod script;
#[forbid(unsafe_code)]
pub mod sixel_image;

pub use decoder::{
    DcsSettings, SixelDcsFeedResult, SixelDcsFeedStatus, SixelDcsStreamDecoder, SixelDecoder,
    SixelFeedResult, SixelFeedStatus, SixelStreamDecoder, sixel_decode, sixel_decode_from_dcs,
};
pub use encoder::{
    Amplitude, Background, Dither, EncodeOptions, Encoding, Mapping, PaletteMode, PixelFormat,
    TextForm, Tolerance, palette_indices, sixel_encode, sixel_encode_default,
    validate_encode_dimensions,
};
pub use error::{Result, SixelError};
pub use palette::{
    DistinctColors, PaletteChoice, RefinedPalette, choose_palette, count_colors, refine_palette,
    witnesses_hold,
};
use rattle::icy_sixel as proved;
pub use receiver::{
    BandStatus, ChannelOrder, FailedFeed, Height, Received, ReceivedBand, ReceivedImage, RowLayout,
    SixelReceiver,
};
pub use script::Status;
pub use sixel_image::{BackgroundMode, PixelAspectRatio, SixelImage};
