// A program that packs and unpacks pictures. Of the codec it uses the names BitmapStreamDecoder, BitmapStreamEncoder, the layouts BgrAChannels,
// RgbAChannels, ARgbChannels and ABgrChannels, and their traits PixelFormat and PixelAlpha. The file that includes it has the `use` lines that say
// whose they are: this crate's (tests/drop_in.rs) or IronRDP's (differential/). With both it compiles and prints the same.
//
// Channels are given as `into_iter()` of vectors, which both take. Errors are not told apart: IronRDP has other variants and texts. After an
// error of the encoder the destination is not printed: IronRDP has written the header byte by then, this crate has not.

/// The pictures: a name, the width, the height, and the pixels, B, G, R, A each.
type Picture = (&'static str, usize, usize, Vec<u8>);

fn picture(name: &'static str, width: usize, height: usize, pixel_at: fn(usize, usize) -> [u8; 4]) -> Picture {
    let pixels = (0..width * height).flat_map(|i| pixel_at(i % width, i / width)).collect();
    (name, width, height, pixels)
}

fn pictures() -> Vec<Picture> {
    vec![
        picture("one pixel", 1, 1, |_, _| [1, 2, 3, 4]),
        picture("one colour", 50, 1, |_, _| [30, 110, 230, 255]),
        picture("a rectangle", 9, 4, |x, y| match (x, y) {
            (3..=7, 1..=2) => [20, 110, 230, 255],
            _ => [200, 180, 150, 128],
        }),
        picture("a gradient", 7, 5, |x, y| [x, 3 * x + y, 255 - 7 * y, 200 + y].map(|value| value as u8)),
        picture("no two neighbours equal", 16, 2, |x, y| {
            [x * 37 + y, x * 91, (x * 53) ^ y, y * 16 + x].map(|v| v as u8)
        }),
    ]
}

fn hexadecimal(bytes: &[u8]) -> String {
    bytes.iter().map(|byte| format!("{byte:02X}")).collect()
}

/// An error has a text and may be boxed. What it says is the codec's own affair.
fn failed(error: impl std::error::Error + 'static) -> String {
    let error: Box<dyn std::error::Error> = error.into();
    assert!(!error.to_string().is_empty());
    "an error".to_string()
}

/// The stream that was packed, of as many bytes as the encoder has counted.
fn stream(answer: Result<usize, impl std::error::Error + 'static>, dst: &[u8]) -> Result<Vec<u8>, String> {
    answer.map(|count| dst[..count].to_vec()).map_err(failed)
}

/// Packs pixels of a layout, with their alpha or without.
fn pack<F: PixelFormat + PixelAlpha>(
    (width, height, pixels): (usize, usize, &[u8]),
    alpha: bool,
    rle: bool,
    dst: &mut [u8],
) -> Result<Vec<u8>, String> {
    let mut encoder = BitmapStreamEncoder::new(width, height);
    let answer = if alpha {
        encoder.encode_bitmap_alpha::<F>(pixels, dst, rle)
    } else {
        encoder.encode_bitmap::<F>(pixels, dst, rle)
    };
    stream(answer, dst)
}

type Pack = fn((usize, usize, &[u8]), bool, bool, &mut [u8]) -> Result<Vec<u8>, String>;

/// The layouts: a name, the function that packs it, and where its bytes are in B, G, R, A.
const LAYOUTS: [(&str, Pack, [usize; 4]); 4] = [
    ("BGRA", pack::<BgrAChannels>, [0, 1, 2, 3]),
    ("RGBA", pack::<RgbAChannels>, [2, 1, 0, 3]),
    ("ARGB", pack::<ARgbChannels>, [3, 2, 1, 0]),
    ("ABGR", pack::<ABgrChannels>, [3, 0, 1, 2]),
];

/// The same from one vector for each channel.
fn pack_channels(
    (width, height, pixels): (usize, usize, &[u8]),
    alpha: bool,
    rle: bool,
    dst: &mut [u8],
) -> Result<Vec<u8>, String> {
    let channel = |offset| pixels.iter().copied().skip(offset).step_by(4).collect::<Vec<u8>>().into_iter();
    let (b, g, r, a) = (channel(0), channel(1), channel(2), channel(3));
    let mut encoder = BitmapStreamEncoder::new(width, height);
    let answer = if alpha {
        encoder.encode_channels_stream_alpha((r, g, b, a), dst, rle)
    } else {
        encoder.encode_channels_stream((r, g, b), dst, rle)
    };
    stream(answer, dst)
}

/// Unpacks a stream behind one byte of the destination, which is then printed.
fn unpack(decoder: &mut BitmapStreamDecoder, stream: &[u8], width: usize, height: usize) -> String {
    let mut dst = vec![0xAA];
    match decoder.decode_bitmap_stream_to_rgb24(stream, &mut dst, width, height) {
        Ok(()) => hexadecimal(&dst),
        Err(error) => format!("{}, {}", failed(error), hexadecimal(&dst)),
    }
}

/// In which form a picture is packed: with alpha or without, RLE or raw.
const FORMS: [(&str, bool, bool); 4] =
    [("RLE", false, true), ("raw", false, false), ("RLE with alpha", true, true), ("raw with alpha", true, false)];

/// Each picture packed and unpacked. A stream of four planes is unpacked as it is, and with bit 5 of its first byte cleared.
fn there_and_back(text: &mut Vec<String>) {
    let mut decoder = BitmapStreamDecoder::default();
    for (name, width, height, pixels) in pictures() {
        let picture = (width, height, &pixels[..]);
        for (form, alpha, rle) in FORMS {
            let mut dst = vec![0; 8 * width * height + 2];
            let mut stream = pack::<BgrAChannels>(picture, alpha, rle, &mut dst).expect("there is room enough");
            text.push(format!("{name}, {width} x {height}, {form}: {} bytes, {}", stream.len(), hexadecimal(&stream)));
            let same = pack_channels(picture, alpha, rle, &mut dst).as_ref() == Ok(&stream);
            text.push(format!("  from channels: {}", if same { "the same" } else { "another stream" }));
            for (layout, pack, places) in LAYOUTS.into_iter().skip(1) {
                let pixels: Vec<u8> = pixels.chunks(4).flat_map(|pixel| places.map(|place| pixel[place])).collect();
                let same = pack((width, height, &pixels), alpha, rle, &mut dst).as_ref() == Ok(&stream);
                text.push(format!("  from {layout}: {}", if same { "the same" } else { "another stream" }));
            }
            text.push(format!("  unpacked: {}", unpack(&mut decoder, &stream, width, height)));
            if alpha {
                stream[0] &= !0x20;
                text.push(format!("  unpacked with alpha: {}", unpack(&mut decoder, &stream, width, height)));
            }
        }
    }
}

/// The same bytes taken for pixels of each layout.
fn layouts(text: &mut Vec<String>) {
    for (name, width, height, pixels) in pictures().into_iter().filter(|picture| picture.1 < 8) {
        for ((layout, pack, _), (form, alpha, rle)) in
            LAYOUTS.into_iter().flat_map(|layout| FORMS.map(|form| (layout, form)))
        {
            let mut dst = vec![0; 8 * width * height + 2];
            let stream = pack((width, height, &pixels), alpha, rle, &mut dst).expect("there is room enough");
            text.push(format!("{name} as {layout}, {form}: {}", hexadecimal(&stream)));
        }
    }
}

/// Destinations without room for the header byte, for the body, for its last byte; and with room for all.
fn small_destinations(text: &mut Vec<String>) {
    for (form, alpha, rle) in FORMS {
        for room in 0..10 {
            for (from, pack) in [("pixels", pack::<BgrAChannels> as Pack), ("channels", pack_channels)] {
                let packed = pack((1, 1, &[1, 2, 3, 4][..]), alpha, rle, &mut vec![0; room]);
                let packed = packed.map_or_else(|error| error, |stream| hexadecimal(&stream));
                text.push(format!("room {room}, {form}, from {from}: {packed}"));
            }
        }
    }
}

/// Streams of other encoders: AYCoCg, and streams that are truncated or damaged.
fn other_streams(text: &mut Vec<String>) {
    let mut decoder = BitmapStreamDecoder::default();
    let streams: [(&[u8], usize, usize); 16] = [
        (&[0x01, 0xFF, 0x64, 0x0A, 0x14, 0x00], 1, 1),
        (&[0x21, 0x64, 0x0A, 0x14, 0x00], 1, 1),
        (&[0x12, 0x10, 0xFF, 0x10, 0x64, 0x10, 0x40, 0x10, 0x00], 1, 1),
        (&[0x39, 0x30, 0x64, 0x64, 0xC8, 0x20, 0x0A, 0x00, 0x20, 0x14, 0x00], 3, 1),
        (&[0x0F, 1, 2, 3, 4, 5, 6, 7, 8, 9, 10, 0], 2, 2),
        // Bits 6 and 7, bit 3 of ARGB, a pad byte that is not 0, more than is needed.
        (&[0xE8, 1, 2, 3, 0xDD], 1, 1),
        (&[0xF8, 0x10, 1, 0x10, 2, 0x10, 3], 1, 1),
        (&[0x20, 1, 2, 3, 4, 5], 1, 1),
        (&[0x30, 0x10, 1, 0x10, 2, 0x10, 3, 0x10], 1, 1),
        // Errors: empty, without pad byte, without body, truncated, damaged.
        (&[], 1, 1),
        (&[0x20], 1, 1),
        (&[0x20, 0], 1, 1),
        (&[0x20, 1, 2, 3], 1, 1),
        (&[0x30, 0x10, 1, 0x10, 2, 0x10], 1, 1),
        (&[0x30, 0x10, 1, 0x00, 2, 0x10, 3], 1, 1),
        (&[0x30, 0x20, 1, 2, 0x10, 3, 0x10, 4], 1, 1),
    ];
    for (stream, width, height) in streams {
        text.push(format!(
            "{width} x {height}, {}: {}",
            hexadecimal(stream),
            unpack(&mut decoder, stream, width, height)
        ));
    }
}

/// All results as lines of text.
pub fn run() -> String {
    let mut text = Vec::new();
    there_and_back(&mut text);
    layouts(&mut text);
    small_destinations(&mut text);
    other_streams(&mut text);
    text.join("\n") + "\n"
}
