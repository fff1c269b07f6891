//! RDP 6.0 planar bitmaps (MS-RDPEGDI 2.2.2.5.1, 3.1.9): safe functions over the static library `librdp6.a`, with the names of IronRDP's
//! `rdp6`, of which the library is a port. docs/FORMAT.md of the repository specifies the format and the behaviour.
//!
//! Packing a picture into a stream, and unpacking it:
//!
//! ```
//! use rdp6::{BgrAChannels, BitmapStreamDecoder, BitmapStreamEncoder};
//!
//! # fn main() -> Result<(), rdp6::Refusal> {
//! let (width, height) = (64, 2);
//! let pixels: Vec<u8> = [[30, 110, 230, 255]; 128].concat(); // B, G, R, A
//!
//! // Six bytes a pixel and one for the header byte are always enough.
//! let mut stream = vec![0; 6 * width * height + 1];
//! let count = BitmapStreamEncoder::new(width, height).encode_bitmap::<BgrAChannels>(&pixels, &mut stream, true)?;
//! stream.truncate(count);
//! assert_eq!(stream.len(), 31);
//!
//! let mut image = Vec::new();
//! BitmapStreamDecoder::default().decode_bitmap_stream_to_rgb24(&stream, &mut image, width, height)?;
//! assert_eq!(image, [[230, 110, 30]; 128].concat()); // R, G, B
//! # Ok(())
//! # }
//! ```
//!
//! Errors are [`Refusal`]s. Each function says what a refusal leaves in its slices:
//!
//! ```
//! # use rdp6::Refusal;
//! let mut plane = [0xEE; 4];
//! assert_eq!(rdp6::decompress_8bpp_plane(&[0x20, 1], &mut plane, 4, 1), Err(Refusal::ReadCompressedData));
//! assert_eq!(plane, [0xEE; 4]);
//! ```
//!
//! # Functions
//!
//! | | allocates | |
//! |---|---|---|
//! | [`stream_decode`], [`stream_work_size`], [`image_size`] | no | unpacks a picture's stream to R, G, B |
//! | [`stream_decode_pixels`], [`stream_pixels_work_size`], [`pixels_image_size`] | no | the same to pixels of four bytes, with alpha |
//! | [`BitmapStreamDecoder`] | yes | both, with a work area of its own, appended to a `Vec`; also from a body |
//! | [`BitmapStreamEncoder`] | no | packs channels or pixels to a picture's stream, or to its body |
//! | [`decode`], [`work_size`]; [`decode_pixels`], [`pixels_work_size`] | no | unpacks a picture's body, to R, G, B or to pixels |
//! | [`decompress_8bpp_plane`], [`compress_8bpp_plane`] | no | unpacks and packs an RLE plane |
//!
//! The modules [`rle`], [`bitmap_stream::decoder`] and [`bitmap_stream::encoder`] have the names of IronRDP's, so that a service that used it
//! changes the root of its `use` lines. README.md, "Moving from IronRDP", lists what else changes.
//!
//! # Layouts
//!
//! Pixels have four bytes. The layout is a type parameter, with IronRDP's names: [`BgrAChannels`], [`RgbAChannels`], [`ARgbChannels`] or
//! [`ABgrChannels`]. Each packs and unpacks:
//!
//! ```
//! use rdp6::{ARgbChannels, BgrAChannels, BitmapStreamDecoder, BitmapStreamEncoder};
//!
//! # fn main() -> Result<(), rdp6::Refusal> {
//! let pixels = [128, 230, 110, 30, 255, 230, 110, 30]; // A, R, G, B
//! let mut stream = [0; 8 * 2 + 1];
//! let count = BitmapStreamEncoder::new(2, 1).encode_bitmap_alpha::<ARgbChannels>(&pixels, &mut stream, true)?;
//! stream[0] &= !0x20; // there is an alpha plane (below)
//!
//! let mut image = Vec::new();
//! BitmapStreamDecoder::default().decode_bitmap_stream_to_pixels::<BgrAChannels>(&stream[..count], &mut image, 2, 1)?;
//! assert_eq!(image, [30, 110, 230, 128, 30, 110, 230, 255]); // B, G, R, A
//! # Ok(())
//! # }
//! ```
//!
//! A picture without an alpha plane is unpacked with A 255.
//!
//! # Header byte
//!
//! A stream is a header byte and a body; the last byte of a raw stream is the pad byte. The stream forms read and write all of it. The body
//! forms are for a service that has its own code for the header byte: [`BitmapStreamHeader`] has the bits.
//!
//! **Four planes.** The header byte that is written for them says that there is no alpha plane, as IronRDP's does: a sender clears its bit 5,
//! `stream[0] &= !0x20`. The `use_alpha` that a body form returns is false too: a sender sets it, and whoever unpacks passes it as true.
//!
//! # Row order
//!
//! The first row in a stream or a body is the first row of the image. RDP bitmap updates carry their rows bottom up: flip the rows after
//! unpacking one, and before packing one. Other codecs, such as FreeRDP's, flip them by themselves.
//!
//! # Slices, threads, stack
//!
//! Width and height are each from 1 to [`MAX_SIDE`]. No slice needs an alignment. There is no state: any number of threads may call at once. A
//! call that packs takes at most 26,280 bytes of stack, one that unpacks at most 26,377, whatever the sides. The first call takes no more,
//! since rustc links with `-z now` by default. Backtraces end in the library, since it has no unwind tables.
//!
//! # What is proved, and what must be believed
//!
//! Every function of the library is proved, for every input, to return, to stay inside its slices, and to give the answer and the bytes
//! of its definition; see the repository's README. This crate is not proved. It is small: it passes slices with their lengths, converts the
//! results, makes the header record of a packed body, and extends vectors. Tests compare its declarations of the C functions, its numbers and
//! its texts with include/rdp6.h.

#![deny(missing_docs, unsafe_op_in_unsafe_fn)]
#![warn(clippy::undocumented_unsafe_blocks)]

mod answer;
pub mod bitmap_stream;
mod ffi;
mod header;
mod refusal;
pub mod rle;

#[doc(inline)]
pub use bitmap_stream::decoder::{
    decode, decode_pixels, image_size, pixels_image_size, pixels_work_size, stream_decode, stream_decode_pixels,
    stream_pixels_work_size, stream_work_size, work_size, BitmapDecodeError, BitmapStreamDecoder,
};
#[doc(inline)]
pub use bitmap_stream::encoder::{
    ABgrChannels, ARgbChannels, AlphaChannel, BgrAChannels, BitmapEncodeError, BitmapStreamEncoder, ColorChannels,
    Encoded, PixelAlpha, PixelFormat, RgbAChannels,
};
#[doc(inline)]
pub use header::{BitmapStreamHeader, ColorPlaneDefinition};
#[doc(inline)]
pub use refusal::{Refusal, UnknownNumber};
#[doc(inline)]
pub use rle::{compress_8bpp_plane, decompress_8bpp_plane, RleDecodeError, RleEncodeError};

/// The largest width and the largest height. A larger one is refusal 2.
///
/// ```
/// assert_eq!(rdp6::image_size(rdp6::MAX_SIDE, 1), 3 * 8192);
/// assert_eq!(rdp6::image_size(rdp6::MAX_SIDE + 1, 1), 0);
/// ```
pub const MAX_SIDE: usize = 8192;
