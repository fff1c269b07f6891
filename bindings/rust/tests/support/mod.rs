//! Shared by the tests: bytes written in hexadecimal, slices with guard bytes, headers, streams, layouts, the order of refusals, random
//! samples and streams.
#![allow(dead_code)] // no test uses all of it

use rdp6::{compress_8bpp_plane, BitmapStreamHeader, ColorPlaneDefinition, Refusal};

/// Bytes written in hexadecimal: `1F 09` or `1F09`; `EE*4` for four bytes `EE`, a space or a comma behind it; `-` for none.
pub fn hex(text: &str) -> Vec<u8> {
    let mut bytes = Vec::new();
    for piece in text.split([' ', ',']).filter(|piece| !piece.is_empty() && *piece != "-") {
        let (digits, count) = piece.split_once('*').unwrap_or((piece, "1"));
        let pairs = (0..digits.len()).step_by(2).map(|i| &digits[i..i + 2]);
        bytes.extend(pairs.map(|pair| u8::from_str_radix(pair, 16).expect("two hexadecimal digits")));
        let last = *bytes.last().expect("a byte before *");
        bytes.resize(bytes.len() - 1 + count.parse::<usize>().expect("a number behind *"), last);
    }
    bytes
}

const GUARDS: usize = 40;

/// The guard bytes before and behind a slice. They differ from byte to byte, so that a byte written to another place is found too.
fn guard(i: usize) -> u8 {
    (i * 37 % 251) as u8 ^ 0x5A
}

/// Bytes between guard bytes.
pub struct Guarded {
    all: Vec<u8>,
}

impl Guarded {
    pub fn of(bytes: &[u8]) -> Guarded {
        let guards = (0..GUARDS).map(guard);
        Guarded { all: guards.clone().chain(bytes.iter().copied()).chain(guards).collect() }
    }

    pub fn filled(byte: u8, length: usize) -> Guarded {
        Guarded::of(&vec![byte; length])
    }

    /// The bytes for a call.
    pub fn slice(&mut self) -> &mut [u8] {
        let end = self.all.len() - GUARDS;
        &mut self.all[GUARDS..end]
    }

    /// The bytes after a call, which must not have changed the guard bytes.
    pub fn after(&self) -> &[u8] {
        let end = self.all.len() - GUARDS;
        let unchanged = |bytes: &[u8]| bytes.iter().enumerate().all(|(i, byte)| *byte == guard(i));
        assert!(unchanged(&self.all[..GUARDS]), "written before the slice");
        assert!(unchanged(&self.all[end..]), "written behind the slice");
        &self.all[GUARDS..end]
    }
}

pub fn argb(rle: bool, alpha: bool) -> BitmapStreamHeader {
    let color_plane_definition = ColorPlaneDefinition::Argb;
    BitmapStreamHeader { enable_rle_compression: rle, use_alpha: alpha, color_plane_definition }
}

pub fn aycocg(rle: bool, alpha: bool, color_loss_level: u8, use_chroma_subsampling: bool) -> BitmapStreamHeader {
    let color_plane_definition = ColorPlaneDefinition::AYCoCg { color_loss_level, use_chroma_subsampling };
    BitmapStreamHeader { enable_rle_compression: rle, use_alpha: alpha, color_plane_definition }
}

/// The header record of a header byte, FORMAT 1.2.
pub fn header_of(byte: u8) -> BitmapStreamHeader {
    let (rle, alpha, level) = (byte & 0x10 != 0, byte & 0x20 == 0, byte & 0x07);
    if level == 0 {
        argb(rle, alpha)
    } else {
        aycocg(rle, alpha, level, byte & 0x08 != 0)
    }
}

/// The header record and the body of a stream: in a raw stream the last byte is the pad byte.
pub fn split(stream: &[u8]) -> Result<(BitmapStreamHeader, &[u8]), Refusal> {
    let (first, rest) = stream.split_first().ok_or(Refusal::EmptyStream)?;
    let header = header_of(*first);
    if header.enable_rle_compression {
        return Ok((header, rest));
    }
    let (_pad, body) = rest.split_last().ok_or(Refusal::MissingPad)?;
    Ok((header, body))
}

/// The layouts.
#[derive(Clone, Copy, Debug, PartialEq, Eq)]
pub enum Layout {
    BgrA,
    RgbA,
    ARgb,
    ABgr,
}

pub const LAYOUTS: [Layout; 4] = [Layout::BgrA, Layout::RgbA, Layout::ARgb, Layout::ABgr];

impl Layout {
    /// The four bytes of a pixel, in the order of the layout's name.
    pub fn pixel(self, [r, g, b, a]: [u8; 4]) -> [u8; 4] {
        match self {
            Layout::BgrA => [b, g, r, a],
            Layout::RgbA => [r, g, b, a],
            Layout::ARgb => [a, r, g, b],
            Layout::ABgr => [a, b, g, r],
        }
    }

    /// Pixels, given R, G, B and A of each.
    pub fn pixels(self, rgba: &[u8]) -> Vec<u8> {
        rgba.chunks_exact(4).flat_map(|p| self.pixel([p[0], p[1], p[2], p[3]])).collect()
    }
}

/// `$call` with the type of a layout as `$name`.
#[allow(unused_macros)] // no test uses all of this module
macro_rules! with_layout {
    ($layout:expr, $name:ident, $call:expr) => {
        match $layout {
            support::Layout::BgrA => {
                type $name = rdp6::BgrAChannels;
                $call
            }
            support::Layout::RgbA => {
                type $name = rdp6::RgbAChannels;
                $call
            }
            support::Layout::ARgb => {
                type $name = rdp6::ARgbChannels;
                $call
            }
            support::Layout::ABgr => {
                type $name = rdp6::ABgrChannels;
                $call
            }
        }
    };
}

/// Sides with their refusal. FORMAT 8.2: refusal 1 comes before refusal 2, and both before all others.
pub const REFUSED_SIDES: [(usize, usize, Refusal); 16] = [
    (0, 1, Refusal::ZeroSize),
    (1, 0, Refusal::ZeroSize),
    (0, 0, Refusal::ZeroSize),
    (0, 8192, Refusal::ZeroSize),
    (0, 8193, Refusal::ZeroSize),
    (8193, 0, Refusal::ZeroSize),
    (0, usize::MAX, Refusal::ZeroSize),
    (usize::MAX, 0, Refusal::ZeroSize),
    (8193, 1, Refusal::TooLarge),
    (1, 8193, Refusal::TooLarge),
    (8193, 8193, Refusal::TooLarge),
    // Products that overflow 64 bits: their low bits are 0, 2 and 1.
    (1 << 32, 1 << 32, Refusal::TooLarge),
    ((1 << 63) + 1, 2, Refusal::TooLarge),
    (usize::MAX, usize::MAX, Refusal::TooLarge),
    (usize::MAX, 1, Refusal::TooLarge),
    (1, usize::MAX, Refusal::TooLarge),
];

/// The refusal of the first condition that is true.
pub fn first<const N: usize>(conditions: [(bool, Refusal); N]) -> Option<Refusal> {
    conditions.into_iter().find(|(holds, _)| *holds).map(|(_, refusal)| refusal)
}

/// Pseudo-random numbers, the same in every run.
pub struct Noise(pub u64);

impl Noise {
    pub fn next(&mut self) -> u64 {
        self.0 ^= self.0 << 13;
        self.0 ^= self.0 >> 7;
        self.0 ^= self.0 << 17;
        self.0
    }

    pub fn below(&mut self, limit: u64) -> u64 {
        (self.next() >> 16) % limit
    }

    /// Runs of 1 to 100 equal samples, of a few different values or of many.
    pub fn samples(&mut self, count: usize) -> Vec<u8> {
        let values = [2, 5, 256][self.below(3) as usize];
        let mut samples = Vec::new();
        while samples.len() < count {
            let run = [1, 1, 2, 3, 4, 5, 17, 40, 100][self.below(9) as usize];
            let value = self.below(values) as u8;
            samples.resize(samples.len() + run, value);
        }
        samples.truncate(count);
        samples
    }
}

/// A stream with this header byte and random samples. The pad byte of a raw stream is not 0.
pub fn random_stream(byte: u8, (width, height): (usize, usize), noise: &mut Noise) -> Vec<u8> {
    let (subsampled, alpha) = (byte & 0x07 != 0 && byte & 0x08 != 0, byte & 0x20 == 0);
    let chroma = if subsampled { ((width + 1) / 2, (height + 1) / 2) } else { (width, height) };
    let mut planes = vec![(width, height), chroma, chroma];
    planes.splice(0..0, alpha.then_some((width, height)));
    let mut stream = vec![byte];
    for (width, height) in planes {
        let samples = noise.samples(width * height);
        if byte & 0x10 == 0 {
            stream.extend(samples);
        } else {
            let mut packed = vec![0; 2 * width * height];
            let count = compress_8bpp_plane(&samples, &mut packed, width, height).unwrap();
            stream.extend(&packed[..count]);
        }
    }
    stream.extend((byte & 0x10 == 0).then_some(0xDD));
    stream
}
