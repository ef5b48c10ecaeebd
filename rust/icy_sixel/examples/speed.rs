//! Nanoseconds per pixel, in process:
//! `cargo run --release --example speed -- [-k COLORS] [-t SECONDS] FILE..`
//!
//! A file of SIXEL data is decoded in one call, then in chunks of 4096 bytes by a session on one
//! decoder, and its image is encoded. A file of raw RGBA, named as `FILE:WIDTHxHEIGHT`, is encoded.
//! Each is repeated for one second or SECONDS. The example reports the best and the median run. An
//! output has at most 256 colors, or COLORS.

use icy_sixel::{EncodeOptions, SixelDcsFeedStatus, SixelDecoder, SixelImage};
use std::env;
use std::error::Error;
use std::fs;
use std::hint::black_box;
use std::process::ExitCode;
use std::time::{Duration, Instant};

const CHUNK: usize = 4096;
const LEAST_RUNS: usize = 5;

type Outcome<T> = Result<T, Box<dyn Error>>;

/// The best and the median run, in nanoseconds per pixel.
fn measure<T>(
    time: Duration,
    pixels: usize,
    mut run: impl FnMut() -> icy_sixel::Result<T>,
) -> Outcome<String> {
    let mut runs = Vec::new();
    let mut whole = Duration::ZERO;
    while whole < time || runs.len() < LEAST_RUNS {
        let start = Instant::now();
        let answer = black_box(run());
        let taken = start.elapsed();
        answer?;
        whole += taken;
        runs.push(taken);
    }
    runs.sort_unstable();
    let in_nanoseconds = |run: Duration| run.as_secs_f64() * 1e9 / pixels as f64;
    let best = in_nanoseconds(runs[0]);
    let median = in_nanoseconds(runs[runs.len() / 2]);
    Ok(format!("{best:8.2} {median:8.2}  {:6} runs", runs.len()))
}

/// Decodes the first DCS sequence of the bytes, in chunks.
fn decode_in_chunks(decoder: &mut SixelDecoder, bytes: &[u8]) -> icy_sixel::Result<SixelImage> {
    let mut session = decoder.begin_dcs();
    for chunk in bytes.chunks(CHUNK) {
        if session.feed(chunk)?.status != SixelDcsFeedStatus::NeedMoreData {
            break;
        }
    }
    session.finish()
}

/// The file's name, and the size of its image where it is raw.
fn split(word: &str) -> (&str, Option<(usize, usize)>) {
    let size = |text: &str| {
        let (width, height) = text.split_once('x')?;
        Some((width.parse().ok()?, height.parse().ok()?))
    };
    match word.rsplit_once(':').map(|(file, text)| (file, size(text))) {
        Some((file, Some(size))) => (file, Some(size)),
        _ => (word, None),
    }
}

/// How each file is measured.
struct Plan {
    time: Duration,
    options: EncodeOptions,
    files: Vec<String>,
}

/// What the words ask for, if they can be read.
fn plan(mut words: impl Iterator<Item = String>) -> Option<Plan> {
    let (time, options) = (Duration::from_secs(1), EncodeOptions::default());
    let mut plan = Plan { time, options, files: Vec::new() };
    while let Some(word) = words.next() {
        match word.as_str() {
            "-k" => plan.options.max_colors = words.next()?.parse().ok()?,
            "-t" => plan.time = Duration::try_from_secs_f64(words.next()?.parse().ok()?).ok()?,
            _ => plan.files.push(word),
        }
    }
    (!plan.files.is_empty()).then_some(plan)
}

fn tell(plan: &Plan, word: &str) -> Outcome<()> {
    let (file, size) = split(word);
    let bytes = fs::read(file)?;
    let title = |image: &SixelImage| println!("{file}, {}x{}", image.width, image.height);
    let encode = |image: &SixelImage| {
        let pixels = image.width * image.height;
        measure(plan.time, pixels, || image.encode_with(&plan.options))
    };
    if let Some((width, height)) = size {
        let image = SixelImage::try_from_rgba(bytes, width, height)?;
        title(&image);
        println!("  encode    {}", encode(&image)?);
        return Ok(());
    }
    let image = SixelImage::decode(&bytes)?;
    let pixels = image.width * image.height;
    title(&image);
    println!("  decode    {}", measure(plan.time, pixels, || SixelImage::decode(&bytes))?);
    let start = bytes.iter().position(|byte| matches!(byte, 0x1b | 0x90)).unwrap_or(0);
    let mut decoder = SixelDecoder::new();
    let chunks = || decode_in_chunks(&mut decoder, &bytes[start..]);
    println!("  in chunks {}", measure(plan.time, pixels, chunks)?);
    println!("  encode    {}", encode(&image)?);
    Ok(())
}

fn main() -> ExitCode {
    let Some(plan) = plan(env::args().skip(1)) else {
        eprintln!("usage: speed [-k COLORS] [-t SECONDS] FILE..");
        return ExitCode::from(2);
    };
    println!("nanoseconds per pixel, best and median");
    for word in &plan.files {
        if let Err(error) = tell(&plan, word) {
            eprintln!("{word}: {error}");
            return ExitCode::FAILURE;
        }
    }
    ExitCode::SUCCESS
}
