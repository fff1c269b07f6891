//! Packs the plane of example 14 of docs/FORMAT.md, unpacks it complete and truncated to 6 bytes, and packs it into a destination of 5 bytes.
//!
//!     cargo run --offline --example plane

use rdp6::{compress_8bpp_plane, decompress_8bpp_plane, Refusal};

const WIDTH: usize = 17;
const HEIGHT: usize = 2;
const AREA: usize = WIDTH * HEIGHT;

fn print_answer(answer: Result<usize, Refusal>, what: &str) {
    match answer {
        Ok(count) => println!("{count} bytes {what}"),
        Err(refusal) => println!("{refusal}"),
    }
}

fn print_bytes(bytes: &[u8]) {
    let bytes: Vec<String> = bytes.iter().map(|byte| format!("{byte:02X}")).collect();
    println!("{}", bytes.join(" "));
}

fn pack(samples: &[u8], room: usize) -> Vec<u8> {
    let mut packed = vec![0xEE; room];
    let answer = compress_8bpp_plane(samples, &mut packed, WIDTH, HEIGHT);
    print_answer(answer, "written");
    packed.truncate(answer.unwrap_or(room));
    print_bytes(&packed);
    packed
}

fn unpack(body: &[u8]) {
    let mut plane = [0xEE; AREA];
    print_answer(decompress_8bpp_plane(body, &mut plane, WIDTH, HEIGHT), "read");
    plane.chunks(WIDTH).for_each(print_bytes);
}

fn main() {
    let samples = [[9; WIDTH], [10; WIDTH]].concat();
    // Always enough: a packing has at most two bytes a sample.
    let packed = pack(&samples, 2 * AREA);
    unpack(&packed);
    unpack(&packed[..6]);
    pack(&samples, 5);
}
