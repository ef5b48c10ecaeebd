//! A palette of more colors than it has entries for, and images in palettes.

use icy_sixel::SixelError::{BufferSizeMismatch, InvalidData, InvalidDimensions};
use icy_sixel::{Amplitude, Background, BackgroundMode, Mapping, Tolerance};
use icy_sixel::{Dither, EncodeOptions, Encoding, PaletteMode, PixelFormat, SixelImage, TextForm};
use icy_sixel::{choose_palette, palette_indices};
use icy_sixel::{refine_palette, sixel_encode, witnesses_hold};

/// Each pixel has the entry nearest to its target.
fn exact(dither: Dither) -> Mapping {
    Mapping { dither, tolerance: Tolerance::Squared(0) }
}

/// The pixels have squared distances of 0 and 100, and of 36 and 16 to the entries.
#[test]
fn tolerances() {
    let pixels = [0, 0, 0, 255, 6, 0, 0, 255];
    let (dither, squared) = (Dither::Off, Tolerance::Squared);
    let most = [(squared(200), [0, 0]), (squared(201), [1, 1]), (squared(u32::MAX), [1, 1])];
    let runs = [(Tolerance::Auto, [0, 1]), (squared(40), [0, 1]), (squared(41), [0, 0])];
    for (tolerance, indices) in runs.into_iter().chain(most) {
        let mapping = Mapping { dither, tolerance };
        let found = palette_indices(&pixels, 2, &[[0; 3], [10, 0, 0]], mapping).unwrap();
        assert_eq!(found, indices);
    }
}

/// By an automatic amplitude, a color that is near to an entry is not moved.
#[test]
fn near_colors() {
    let colors = [[0; 3], [204; 3]];
    // The mean squared errors of the rows are 20004, 20009, 21600 and 22025. An amplitude of 255
    // moves the last pixel up by 110, one of 146 by 63, and one of 148 by 64.
    let runs = [
        (2, Amplitude::Auto, 0),
        (3, Amplitude::Auto, 1),
        (40, Amplitude::Auto, 1),
        (40, Amplitude::Refined, 0),
        (40, Amplitude::Levels(146), 1),
        (45, Amplitude::Refined, 1),
    ];
    for (gray, amplitude, index) in runs {
        let pixels: Vec<u8> = [100, 100, gray].iter().flat_map(|it| [*it, *it, *it, 255]).collect();
        let mapping = exact(Dither::Ordered { amplitude });
        let found = palette_indices(&pixels, 3, &colors, mapping).unwrap();
        assert_eq!(found, [0, 0, index], "{gray} {amplitude:?}");
    }
}

/// With more colors than entries the buffers of entries and of witnesses are full, and the entries
/// are those of the text.
#[test]
fn a_full_palette() {
    let pixels: Vec<u8> =
        (0..64 * 64u32).flat_map(|i| [i as u8, (i / 16) as u8, (i / 64) as u8, 255]).collect();
    for (max_colors, entries) in [(0, 2), (2, 2), (16, 16), (256, 256), (999, 256)] {
        let choice = choose_palette(&pixels, max_colors).unwrap();
        assert_eq!(choice.colors.len(), entries);
        assert_eq!(choice.witnesses.len(), entries + 1);
        assert_eq!(choice.witnesses[..entries], choice.colors);
        assert!(witnesses_hold(&choice.witnesses, choice.error));
        assert!(!witnesses_hold(&choice.witnesses, choice.error + 1));
        let text = sixel_encode(&pixels, 64, 64, &EncodeOptions { max_colors }).unwrap();
        let percent = |channel: u8| (u32::from(channel) * 100 + 127) / 255;
        for (entry, color) in choice.colors.iter().enumerate() {
            let [red, green, blue] = color.map(percent);
            assert!(text.contains(&format!("#{entry};2;{red};{green};{blue}")), "{entry}");
        }
    }
}

/// Black, 10 of 255 red and white.
const ROW: [u8; 12] = [0, 0, 0, 255, 10, 0, 0, 255, 255, 255, 255, 255];

const BLACK_WHITE: &[[u8; 3]] = &[[0, 0, 0], [255, 255, 255]];

/// The text of the row up to its palette.
const HEAD: &str = "\x1bP9;1;0q\"1;1;3;1";

#[test]
fn texts_in_palettes() {
    let image = SixelImage::from_rgba(ROW.to_vec(), 3, 1);
    let diffusion = exact(Dither::Diffusion { strength: 6 });
    let definitions = format!("{HEAD}#0;2;0;0;0#1;2;100;100;100");
    let plain = format!("{definitions}#0@@?$#1??@$-\x1b\\");
    let compact = format!("{definitions}#0@@#1@\x1b\\");
    let text = |form| image.encode_with_palette(BLACK_WHITE, diffusion, form).unwrap();
    assert_eq!(text(TextForm::Plain), plain);
    assert_eq!(text(TextForm::Compact), compact);
    assert_eq!(image.encode_compact(&EncodeOptions { max_colors: 2 }).unwrap(), compact);
    let text = |form| image.encode_indexed(BLACK_WHITE, &[0, 0, 1], form).unwrap();
    assert_eq!(text(TextForm::Plain), plain);
    assert_eq!(text(TextForm::Compact), compact);
    // The mean of the first two pixels is 2 percent of red.
    let refined = format!("{HEAD}#0;2;2;0;0#1;2;100;100;100#0@@#1@\x1b\\");
    for dither in
        [exact(Dither::Off), diffusion, exact(Dither::Ordered { amplitude: Amplitude::Levels(8) })]
    {
        assert_eq!(image.encode_refined(2, dither, TextForm::Compact).unwrap(), refined);
    }
}

/// Entry 0 of an opaque image is register 0 in both forms, though no pixel has it.
#[test]
fn backgrounds() {
    let colors = [[0, 255, 0], [0, 0, 0], [255, 255, 255]];
    let text = |mode, form| {
        let image = SixelImage::from_rgba(ROW.to_vec(), 3, 1).with_background_mode(mode);
        image.encode_indexed(&colors, &[2, 1, 2], form).unwrap()
    };
    let green = "\x1bP9;0;0q\"1;1;3;1#0;2;0;100;0";
    let plain = format!("{green}#1;2;0;0;0#2;2;100;100;100#1?@?$#2@?@$-\x1b\\");
    assert_eq!(text(BackgroundMode::Opaque, TextForm::Plain), plain);
    let compact = format!("{green}#2;2;0;0;0#1;2;100;100;100#1@@@$#2?@\x1b\\");
    assert_eq!(text(BackgroundMode::Opaque, TextForm::Compact), compact);
    let compact = format!("{HEAD}#1;2;0;0;0#0;2;100;100;100#0@@@$#1?@\x1b\\");
    assert_eq!(text(BackgroundMode::Transparent, TextForm::Compact), compact);
}

/// A color that no pixel is drawn in is the background, and the refined palette has one color less.
#[test]
fn backgrounds_of_their_own() {
    let image = SixelImage::from_rgba([&ROW[..], &[0; 4]].concat(), 4, 1);
    let off = exact(Dither::Off);
    // The mean of the first two pixels is 2 percent of red, that of all three 35 percent.
    let head = "\x1bP9;0;0q\"1;1;4;1#0;2;0;0;100";
    let two = "#1;2;2;0;0#2;2;100;100;100";
    let one = "#1;2;35;33;33#1@@@";
    let texts = [
        (0, Err(InvalidData("number of colors is not 1 to 256".into()))),
        (1, Ok(format!("{head}{one}\x1b\\"))),
        (2, Ok(format!("{head}{one}\x1b\\"))),
        (3, Ok(format!("{head}{two}#1@@#2@\x1b\\"))),
        (257, Err(InvalidData("number of colors is not 1 to 256".into()))),
    ];
    for (max_colors, text) in texts {
        let background = Background { color: [0, 0, 255], max_colors };
        assert_eq!(image.encode_on_background(background, off, TextForm::Compact), text);
        let encoding = Encoding::new(4, 1).palette(PaletteMode::OnBackground(background));
        assert_eq!(encoding.form(TextForm::Compact).encode(&image.pixels), text);
    }
    let background = Background { color: [0, 0, 255], max_colors: 3 };
    let plain = format!("{head}{two}#1@@??$#2??@?$-\x1b\\");
    assert_eq!(image.encode_on_background(background, off, TextForm::Plain), Ok(plain));
    // With as many colors as there can be, no pixel has another color.
    let pixels: Vec<u8> = (0..255).flat_map(|it| [it, it / 2, 0, 255]).collect();
    let image = SixelImage::from_rgba(pixels, 255, 1);
    let background = Background { color: [0, 0, 255], max_colors: 256 };
    let text = image.encode_on_background(background, off, TextForm::Plain).unwrap();
    let refined = image.encode_refined(255, off, TextForm::Plain).unwrap();
    let shown =
        |text: &str| SixelImage::decode(text.as_bytes()).unwrap().pixels[..4 * 255].to_vec();
    assert_eq!(shown(&text), shown(&refined));
}

/// Two rows have one text in all formats, with and without a byte between them.
#[test]
fn formats() {
    type Pixel = fn(&[u8], u8) -> Vec<u8>;
    let given = Encoding::new(3, 2).palette(PaletteMode::Given(BLACK_WHITE));
    let text = given.encode(&[ROW, ROW].concat()).unwrap();
    let formats: [(PixelFormat, Pixel); 6] = [
        (PixelFormat::Rgba, |it, _| it.to_vec()),
        (PixelFormat::Bgra, |it, _| vec![it[2], it[1], it[0], it[3]]),
        (PixelFormat::Rgb, |it, _| it[..3].to_vec()),
        (PixelFormat::Bgr, |it, _| vec![it[2], it[1], it[0]]),
        (PixelFormat::Indexed { transparent: None }, |_, index| vec![index]),
        (PixelFormat::Indexed { transparent: Some(7) }, |_, index| vec![index]),
    ];
    for (format, pixel) in formats {
        let row = ROW.chunks(4).zip([0, 0, 1]).flat_map(|(it, index)| pixel(it, index));
        let row: Vec<u8> = row.collect();
        let encoding = given.format(format);
        assert_eq!(encoding.encode(&row.repeat(2)).as_ref(), Ok(&text), "{format:?}");
        let apart = [&row[..], &[9], &row[..]].concat();
        let (expected, actual) = (apart.len(), apart.len() - 1);
        let encoding = encoding.stride(row.len() + 1);
        assert_eq!(encoding.encode(&apart).as_ref(), Ok(&text), "{format:?}");
        let mismatch = BufferSizeMismatch { expected, actual };
        assert_eq!(encoding.encode(&apart[1..]), Err(mismatch));
        let short = InvalidData("stride is shorter than a row".into());
        assert_eq!(encoding.stride(row.len() - 1).encode(&apart), Err(short));
    }
}

/// Opaque pixels with all 256 indices, without a transparent pixel and with one.
#[test]
fn all_indices() {
    let colors: Vec<[u8; 3]> = (0..=255).map(|it| [it; 3]).collect();
    let mut pixels: Vec<u8> = (0..=255).flat_map(|it| [it, it, it, 255]).collect();
    for (width, alpha) in [(256, 255), (257, 255), (257, 0)] {
        pixels.truncate(4 * 256);
        pixels.extend([9, 9, 9, alpha].repeat(width - 256));
        let indices: Vec<u8> = pixels.chunks(4).map(|it| it[0]).collect();
        let image = SixelImage::from_rgba(pixels.clone(), width, 1);
        let text = image.encode_with_palette(&colors, exact(Dither::Off), TextForm::Plain);
        assert_eq!(image.encode_indexed(&colors, &indices, TextForm::Plain), text);
    }
}

#[test]
fn errors_of_palettes() {
    let count = InvalidData("number of colors is not 1 to 256".into());
    assert_eq!(count.to_string(), "invalid argument: number of colors is not 1 to 256");
    let image = SixelImage::from_rgba(ROW.to_vec(), 3, 1);
    let (off, plain) = (exact(Dither::Off), TextForm::Plain);
    assert_eq!(image.encode_with_palette(&[], off, plain), Err(count.clone()));
    assert_eq!(image.encode_with_palette(&[[0; 3]; 257], off, plain), Err(count.clone()));
    for max_colors in [0, 257, 65535] {
        assert_eq!(image.encode_refined(max_colors, off, plain), Err(count.clone()));
        assert_eq!(refine_palette(&ROW, max_colors), Err(count.clone()));
    }
    let range = InvalidData("palette index out of range".into());
    assert_eq!(image.encode_indexed(BLACK_WHITE, &[0, 2, 1], plain), Err(range));
    let length = |expected, actual| BufferSizeMismatch { expected, actual };
    assert_eq!(image.encode_indexed(BLACK_WHITE, &[0, 1], plain), Err(length(3, 2)));
    let empty = SixelImage::from_rgba(vec![], 0, 1);
    let sizes = InvalidDimensions { width: 0, height: 1 };
    assert_eq!(empty.encode_refined(16, off, plain), Err(sizes));
    assert_eq!(refine_palette(&ROW[..11], 2), Err(length(8, 11)));
    assert_eq!(palette_indices(&ROW, 2, BLACK_WHITE, off), Err(length(8, 12)));
    let width = InvalidDimensions { width: 0, height: 0 };
    assert_eq!(palette_indices(&ROW, 0, BLACK_WHITE, off), Err(width));
    assert_eq!(palette_indices(&ROW, 3, &[], off), Err(count));
}

#[test]
fn a_refined_palette() {
    let palette = refine_palette(&ROW, 2).unwrap();
    assert_eq!(palette.colors, [[5, 0, 0], [255, 255, 255]]);
    assert_eq!(palette.indices, [0, 0, 1]);
    assert_eq!(palette.error, 50);
    let transparent = refine_palette(&[127; 12], 16).unwrap();
    assert_eq!((transparent.colors.len(), transparent.indices), (0, vec![0; 3]));
    let none = SixelImage::from_rgba(vec![127; 12], 3, 1);
    for dither in [Dither::Off, Dither::Diffusion { strength: 8 }] {
        let text = none.encode_refined(16, exact(dither), TextForm::Compact).unwrap();
        assert_eq!(text, format!("{HEAD}\x1b\\"));
    }
}
