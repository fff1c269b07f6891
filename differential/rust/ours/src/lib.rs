//! The functions of the library, librdp6.a.

// One set of declarations, which a test of the binding compares with include/rdp6.h.
#[path = "../../../../bindings/rust/src/ffi.rs"]
mod ffi;

use comparer::encoding::check::Encoders;
use comparer::picture::check::Pictures;
use comparer::stream::check::Streams;
use comparer::{Extent, Format, Layout, Library};

pub use ffi::*;

/// The library as it is compared.
pub const LIBRARY: Library = Library {
    unpack: rdp6_decompress_8bpp_plane,
    pack: rdp6_compress_8bpp_plane,
    pictures: Pictures {
        decode: rdp6_decode,
        work_size: rdp6_work_size,
        image_size: rdp6_image_size,
        decode_pixels: rdp6_decode_pixels,
        pixels_work_size: rdp6_pixels_work_size,
        pixels_image_size: rdp6_pixels_image_size,
    },
    encoders: Encoders {
        channels: rdp6_encode_channels,
        channels_alpha: rdp6_encode_channels_alpha,
        bitmap: rdp6_encode_bitmap,
        bitmap_alpha: rdp6_encode_bitmap_alpha,
    },
    streams: Streams {
        decode: rdp6_stream_decode,
        work_size: rdp6_stream_work_size,
        decode_pixels: rdp6_stream_decode_pixels,
        pixels_work_size: rdp6_stream_pixels_work_size,
        encoders: Encoders {
            channels: rdp6_stream_encode_channels,
            channels_alpha: rdp6_stream_encode_channels_alpha,
            bitmap: rdp6_stream_encode_bitmap,
            bitmap_alpha: rdp6_stream_encode_bitmap_alpha,
        },
    },
};

/// Unpacking a plane.
pub fn unpack(src: &[u8], dst: &mut [u8], width: usize, height: usize) -> i64 {
    // SAFETY: both are valid during the call, and their lengths are right.
    unsafe { rdp6_decompress_8bpp_plane(src.as_ptr(), src.len(), dst.as_mut_ptr(), dst.len(), width, height) }
}

/// Packing a plane.
pub fn pack(src: &[u8], dst: &mut [u8], width: usize, height: usize) -> i64 {
    // SAFETY: both are valid during the call, and their lengths are right.
    unsafe { rdp6_compress_8bpp_plane(src.as_ptr(), src.len(), dst.as_mut_ptr(), dst.len(), width, height) }
}

/// How a picture is coded.
#[derive(Clone, Copy)]
pub struct Form {
    pub rle: bool,
    pub alpha: bool,
    pub definition: u32,
    pub level: u32,
    pub subsampled: bool,
}

/// Unpacking a picture to three bytes a pixel, or to four.
pub fn decode(
    format: Format,
    form: Form,
    body: &[u8],
    work: &mut [u8],
    image: &mut [u8],
    width: usize,
    height: usize,
) -> i64 {
    match format {
        Format::Rgb24 => decode_rgb24(form, body, work, image, width, height),
        Format::Pixels(layout) => decode_pixels(layout, form, body, work, image, width, height),
    }
}

fn decode_pixels(
    layout: Layout,
    form: Form,
    body: &[u8],
    work: &mut [u8],
    image: &mut [u8],
    width: usize,
    height: usize,
) -> i64 {
    // SAFETY: all three are valid during the call, and their lengths are right.
    unsafe {
        rdp6_decode_pixels(
            form.rle,
            form.alpha,
            form.definition,
            form.level,
            form.subsampled,
            layout.0,
            body.as_ptr(),
            body.len(),
            work.as_mut_ptr(),
            work.len(),
            image.as_mut_ptr(),
            image.len(),
            width,
            height,
        )
    }
}

fn decode_rgb24(form: Form, body: &[u8], work: &mut [u8], image: &mut [u8], width: usize, height: usize) -> i64 {
    // SAFETY: all three are valid during the call, and their lengths are right.
    unsafe {
        rdp6_decode(
            form.rle,
            form.alpha,
            form.definition,
            form.level,
            form.subsampled,
            body.as_ptr(),
            body.len(),
            work.as_mut_ptr(),
            work.len(),
            image.as_mut_ptr(),
            image.len(),
            width,
            height,
        )
    }
}

/// Unpacking a stream to three bytes a pixel, or to four.
pub fn stream_decode(
    format: Format,
    stream: &[u8],
    work: &mut [u8],
    image: &mut [u8],
    width: usize,
    height: usize,
) -> i64 {
    let (at, len) = (stream.as_ptr(), stream.len());
    let (work_at, work_len, image_at, image_len) = (work.as_mut_ptr(), work.len(), image.as_mut_ptr(), image.len());
    // SAFETY: all three are valid during the call, and their lengths are right.
    unsafe {
        match format {
            Format::Rgb24 => rdp6_stream_decode(at, len, work_at, work_len, image_at, image_len, width, height),
            Format::Pixels(Layout(layout)) => {
                rdp6_stream_decode_pixels(layout, at, len, work_at, work_len, image_at, image_len, width, height)
            }
        }
    }
}

/// The minimum length of a stream's work area, for three bytes a pixel or for four.
pub fn stream_work_size(four_bytes: bool, stream: &[u8], width: usize, height: usize) -> usize {
    let work_size = if four_bytes { rdp6_stream_pixels_work_size } else { rdp6_stream_work_size };
    // SAFETY: it is valid during the call, and its length is right.
    unsafe { work_size(stream.as_ptr(), stream.len(), width, height) }
}

/// Packing a picture from channels: R, G and B, and A if there is one.
pub fn encode_channels(
    extent: Extent,
    [r, g, b]: [&[u8]; 3],
    alpha: Option<&[u8]>,
    dst: &mut [u8],
    rle: bool,
    width: usize,
    height: usize,
) -> i64 {
    let (r_at, g_at, b_at, dst_at) = (r.as_ptr(), g.as_ptr(), b.as_ptr(), dst.as_mut_ptr());
    let (r_len, g_len, b_len, room) = (r.len(), g.len(), b.len(), dst.len());
    let Encoders { channels, channels_alpha, .. } = LIBRARY.encoders(extent);
    // SAFETY: all are valid during the call, and their lengths are right.
    unsafe {
        match alpha {
            None => channels(r_at, r_len, g_at, g_len, b_at, b_len, dst_at, room, rle, width, height),
            Some(a) => {
                let (a_at, a_len) = (a.as_ptr(), a.len());
                channels_alpha(r_at, r_len, g_at, g_len, b_at, b_len, a_at, a_len, dst_at, room, rle, width, height)
            }
        }
    }
}

/// Packing a picture from pixels.
pub fn encode_bitmap(
    extent: Extent,
    (pixels, layout): (&[u8], Layout),
    alpha: bool,
    dst: &mut [u8],
    rle: bool,
    width: usize,
    height: usize,
) -> i64 {
    let Encoders { bitmap, bitmap_alpha, .. } = LIBRARY.encoders(extent);
    let encode = if alpha { bitmap_alpha } else { bitmap };
    // SAFETY: both are valid during the call, and their lengths are right.
    unsafe { encode(layout.0, pixels.as_ptr(), pixels.len(), dst.as_mut_ptr(), dst.len(), rle, width, height) }
}
