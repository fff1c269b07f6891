//! Draws a picture in BGRA, packs it into two streams, RLE without alpha and raw with alpha, unpacks both, checks that R, G and B are the same,
//! and writes a PPM file to the path given or to target/examples/round_trip.ppm.
//!
//!     cargo run --offline --example round_trip

use std::error::Error;
use std::fs;
use std::path::{Path, PathBuf};

use rdp6::{stream_work_size, BgrAChannels, BitmapStreamDecoder, BitmapStreamEncoder, Refusal};

const WIDTH: usize = 160;
const HEIGHT: usize = 120;
const AREA: usize = WIDTH * HEIGHT;

/// Four bays with three shelves each, one place of them empty. The colour is R, G, B.
fn color_at(x: usize, y: usize) -> [u8; 3] {
    let sky = [90 + y, 150 + y / 2, 255 - y / 4].map(|value| value as u8);
    if y < 24 {
        return sky;
    }
    let (bay, in_bay, shelf, in_shelf) = (x / 39, x % 39, (y - 24) / 32, (y - 24) % 32);
    match (in_bay, in_shelf) {
        (0..=3, _) => [30, 70, 150], // an upright
        (_, 29..) => [230, 110, 20], // a beam
        (0..=8 | 34.., _) | (_, 0..=5) => sky,
        _ if bay == 2 && shelf == 1 => sky,
        (_, 26..) => [120, 85, 50],            // a pallet
        (18..=24, 12..=16) => [250, 250, 240], // the label of a box
        _ => [[196, 154, 96], [70, 130, 90], [170, 60, 50]][(bay + shelf) % 3],
    }
}

/// The pixels, B, G, R, A each.
fn draw() -> Vec<u8> {
    let colors = (0..AREA).map(|i| color_at(i % WIDTH, i / WIDTH));
    colors.flat_map(|[r, g, b]| [b, g, r, 255]).collect()
}

/// Packs the pixels, with their alpha or without, into a stream.
fn encode(alpha: bool, rle: bool, pixels: &[u8]) -> Result<Vec<u8>, Refusal> {
    // Always enough: the header byte, and four planes of at most two bytes a sample, or raw ones and the pad byte.
    let mut stream = vec![0; 1 + 8 * AREA];
    let mut encoder = BitmapStreamEncoder::new(WIDTH, HEIGHT);
    let count = if alpha {
        encoder.encode_bitmap_alpha::<BgrAChannels>(pixels, &mut stream, rle)?
    } else {
        encoder.encode_bitmap::<BgrAChannels>(pixels, &mut stream, rle)?
    };
    stream.truncate(count);
    if alpha {
        stream[0] &= !0x20; // there is an alpha plane: the encoder sets the bit for four planes too
    }
    Ok(stream)
}

/// Packs and unpacks the pixels; the image.
fn round_trip(what: &str, alpha: bool, rle: bool, pixels: &[u8]) -> Result<Vec<u8>, Box<dyn Error>> {
    let stream = encode(alpha, rle, pixels)?;
    println!("{what}: {} bytes, work area {} bytes", stream.len(), stream_work_size(&stream, WIDTH, HEIGHT));
    let mut image = Vec::new();
    BitmapStreamDecoder::default().decode_bitmap_stream_to_rgb24(&stream, &mut image, WIDTH, HEIGHT)?;
    let differs = |(pixel, rgb): (&[u8], &[u8])| rgb != [pixel[2], pixel[1], pixel[0]];
    if let Some(i) = pixels.chunks(4).zip(image.chunks(3)).position(differs) {
        return Err(format!("pixel {i} differs").into());
    }
    println!("  unpacked, with the same R, G and B");
    Ok(image)
}

fn write(path: &Path, image: &[u8]) -> Result<(), String> {
    let ppm = [format!("P6\n{WIDTH} {HEIGHT}\n255\n").as_bytes(), image].concat();
    let folder = path.parent().unwrap_or(Path::new(""));
    let written = fs::create_dir_all(folder).and_then(|()| fs::write(path, ppm));
    written.map_err(|why| format!("{} cannot be written: {why}", path.display()))
}

fn main() -> Result<(), Box<dyn Error>> {
    let path = std::env::args_os().nth(1).map_or(PathBuf::from("target/examples/round_trip.ppm"), PathBuf::from);
    let pixels = draw();
    println!("{WIDTH} x {HEIGHT} pixels, {} bytes", pixels.len());
    round_trip("R, G, B in RLE", false, true, &pixels)?;
    let image = round_trip("A, R, G, B raw", true, false, &pixels)?;
    write(&path, &image)?;
    println!("{} written", path.display());
    Ok(())
}
