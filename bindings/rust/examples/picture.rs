//! Unpacks a small picture from its body, as a program with a parser of its own for the header byte does: complete, truncated, and with an
//! invalid loss level, into slices that are made once. round_trip.rs shows whole streams.
//!
//!     cargo run --offline --example picture

use rdp6::{decode, image_size, work_size, BitmapStreamHeader, ColorPlaneDefinition};

const WIDTH: usize = 3;
const HEIGHT: usize = 2;

/// Alpha, Y, Co and Cg as RLE planes: the sides of the last two are 2 and 1.
const BODY: [u8; 16] = [0x30, 0xFF, 0xFF, 0xFF, 0x03, 0x30, 0x64, 0x64, 0xC8, 0x03, 0x20, 0x0A, 0x00, 0x20, 0x14, 0x00];

fn header(color_loss_level: u8) -> BitmapStreamHeader {
    BitmapStreamHeader {
        enable_rle_compression: true,
        use_alpha: true,
        color_plane_definition: ColorPlaneDefinition::AYCoCg { color_loss_level, use_chroma_subsampling: true },
    }
}

fn unpack(level: u8, body: &[u8], work: &mut [u8], image: &mut [u8]) {
    match decode(header(level), body, work, image, WIDTH, HEIGHT) {
        Ok(count) => println!("{count} bytes written"),
        Err(refusal) => println!("{refusal}"),
    }
    for row in image.chunks(3 * WIDTH) {
        let pixels: Vec<String> = row.chunks(3).map(|p| format!("{:3} {:3} {:3}", p[0], p[1], p[2])).collect();
        println!("{}", pixels.join("   "));
    }
}

fn main() {
    let (work_len, image_len) = (work_size(header(1), WIDTH, HEIGHT), image_size(WIDTH, HEIGHT));
    // Made once, for the largest picture, and used by each call.
    let (mut work, mut image) = (vec![0; work_len], vec![0; image_len]);
    println!("work area {work_len} bytes, image {image_len} bytes");
    unpack(1, &BODY, &mut work, &mut image);
    image.fill(0);
    unpack(1, &BODY[..9], &mut work, &mut image);
    unpack(8, &BODY, &mut work, &mut image);
}
