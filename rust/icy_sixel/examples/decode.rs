//! The first image in standard input: `cargo run --example decode -- [LENGTH] < FILE`
//!
//! With a length, the DCS sequence is fed in chunks of this length. The output is a line `image
//! WIDTH HEIGHT P1 P2`, the pixels and a line end, as by `sixel decode`.

use icy_sixel::{SixelDcsFeedStatus, SixelImage, SixelReceiver, Status};
use std::env;
use std::error::Error;
use std::io::{self, Read, Write};
use std::process::ExitCode;

/// Decodes the first DCS sequence of the bytes, in chunks.
fn decode_in_chunks(bytes: &[u8], length: usize) -> icy_sixel::Result<SixelImage> {
    let is_start = |at: &usize| bytes[*at..].starts_with(b"\x1bP") || bytes[*at] == 0x90;
    let start = (0..bytes.len()).find(is_start).unwrap_or(0);
    let mut receiver = SixelReceiver::new();
    receiver.begin_dcs();
    for chunk in bytes[start..].chunks(length) {
        let received = receiver.feed(chunk)?;
        if received.status != Status::Dcs(SixelDcsFeedStatus::NeedMoreData) {
            break;
        }
    }
    receiver.finish()?.into_image()
}

fn run(length: Option<usize>) -> Result<(), Box<dyn Error>> {
    let mut bytes = Vec::new();
    io::stdin().read_to_end(&mut bytes)?;
    let image = match length {
        Some(length) => decode_in_chunks(&bytes, length),
        None => SixelImage::decode(&bytes),
    }?;
    let p1 = image.aspect_ratio.to_p1_value();
    let p2 = image.background_mode.to_p2_value();
    let mut output = io::stdout().lock();
    writeln!(output, "image {} {} {p1} {p2}", image.width, image.height)?;
    output.write_all(&image.pixels)?;
    writeln!(output)?;
    Ok(())
}

fn main() -> ExitCode {
    let length = match env::args().nth(1).map(|word| word.parse()) {
        None => None,
        Some(Ok(length)) if length > 0 => Some(length),
        Some(_) => {
            eprintln!("usage: decode [LENGTH]");
            return ExitCode::from(2);
        }
    };
    match run(length) {
        Ok(()) => ExitCode::SUCCESS,
        Err(error) => {
            eprintln!("{error}");
            ExitCode::FAILURE
        }
    }
}
