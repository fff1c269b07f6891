//! Blends an overlay into a frame. The overlay is drawn in RGBA and packed with its alpha; the frame is in BGRA, so the stream is unpacked to BGRA,
//! with alpha. Then the same overlay packed without alpha: each A is 255, so that it covers the frame.
//!
//!     cargo run --offline --example overlay

use rdp6::{
    pixels_image_size, stream_pixels_work_size, BgrAChannels, BitmapStreamDecoder, BitmapStreamEncoder, Refusal,
    RgbAChannels,
};

const WIDTH: usize = 4;
const HEIGHT: usize = 2;
const AREA: usize = WIDTH * HEIGHT;

/// Orange, the first row less and less opaque, the second more and more: R, G, B, A.
fn draw() -> Vec<u8> {
    [255, 192, 64, 0, 0, 64, 192, 255].iter().flat_map(|alpha| [230, 110, 20, *alpha]).collect()
}

fn print_pixels(what: &str, pixels: &[u8]) {
    println!("{what}");
    for row in pixels.chunks(4 * WIDTH) {
        let pixels: Vec<String> =
            row.chunks(4).map(|p| format!("{:3} {:3} {:3} {:3}", p[0], p[1], p[2], p[3])).collect();
        println!("  {}", pixels.join("   "));
    }
}

/// Unpacks the stream, and blends it into a frame of one blue.
fn blend(what: &str, stream: &[u8]) -> Result<(), Refusal> {
    const BLUE: [u8; 4] = [150, 70, 30, 255];
    let (work_len, image_len) = (stream_pixels_work_size(stream, WIDTH, HEIGHT), pixels_image_size(WIDTH, HEIGHT));
    println!("{what}: {} bytes, work area {work_len} bytes, image {image_len} bytes", stream.len());
    let mut overlay = Vec::new();
    let mut decoder = BitmapStreamDecoder::default();
    decoder.decode_bitmap_stream_to_pixels::<BgrAChannels>(stream, &mut overlay, WIDTH, HEIGHT)?;
    print_pixels("  unpacked, B G R A", &overlay);
    let mut frame = [BLUE; AREA].concat();
    for (under, over) in frame.chunks_exact_mut(4).zip(overlay.chunks_exact(4)) {
        let alpha = u32::from(over[3]);
        for channel in 0..3 {
            let sum = u32::from(over[channel]) * alpha + u32::from(under[channel]) * (255 - alpha);
            under[channel] = ((sum + 127) / 255) as u8;
        }
    }
    print_pixels("  the frame", &frame);
    Ok(())
}

fn main() -> Result<(), Refusal> {
    let drawn = draw();
    // Always enough: the header byte, and four planes of at most two bytes a sample.
    let mut stream = vec![0; 1 + 8 * AREA];
    let mut encoder = BitmapStreamEncoder::new(WIDTH, HEIGHT);
    let count = encoder.encode_bitmap_alpha::<RgbAChannels>(&drawn, &mut stream, true)?;
    stream[0] &= !0x20; // there is an alpha plane: the encoder sets the bit for four planes too
    blend("With alpha", &stream[..count])?;
    let count = encoder.encode_bitmap::<RgbAChannels>(&drawn, &mut stream, true)?;
    blend("Without alpha", &stream[..count])
}
