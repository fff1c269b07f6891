//! The layouts of pixels, with IronRDP's names. [`encoder`](super::encoder) has them, as IronRDP's does; [`decoder`](super::decoder) uses them
//! too.

/// `enum rdp6_layout` of include/rdp6.h.
const RDP6_LAYOUT_BGRA: u32 = 0;
const RDP6_LAYOUT_RGBA: u32 = 1;
const RDP6_LAYOUT_ARGB: u32 = 2;
const RDP6_LAYOUT_ABGR: u32 = 3;

mod sealed {
    /// A layout of the library.
    pub trait Layout {
        /// The number by which the C functions know it.
        const NUMBER: u32;
    }
}

pub(super) use sealed::Layout;

/// The offsets of the colours in a pixel. The library has its layouts built in, so a service cannot implement this for a type of its own:
///
/// ```compile_fail
/// struct Own;
///
/// impl rdp6::ColorChannels for Own {
///     const STRIDE: usize = 4;
///     const R: usize = 0;
///     const G: usize = 1;
///     const B: usize = 2;
/// }
/// ```
pub trait ColorChannels: Layout {
    /// The number of bytes of a pixel.
    const STRIDE: usize;
    /// The offset of R.
    const R: usize;
    /// The offset of G.
    const G: usize;
    /// The offset of B.
    const B: usize;
}

/// The offset of alpha in a pixel. A service cannot implement this either.
pub trait AlphaChannel: Layout {
    /// The offset of A.
    const A: usize;
}

/// A layout of pixels that [`encode_bitmap`](super::encoder::BitmapStreamEncoder::encode_bitmap) packs.
pub trait PixelFormat: ColorChannels {}

impl<T: ColorChannels> PixelFormat for T {}

/// A layout of pixels that [`encode_bitmap_alpha`](super::encoder::BitmapStreamEncoder::encode_bitmap_alpha) packs, and that
/// [`stream_decode_pixels`](super::decoder::stream_decode_pixels) and its like unpack to.
pub trait PixelAlpha: PixelFormat + AlphaChannel {}

impl<T: ColorChannels + AlphaChannel> PixelAlpha for T {}

/// Pixels of four bytes: A, R, G, B.
#[derive(Clone, Copy, Debug)]
pub struct ARgbChannels;

impl Layout for ARgbChannels {
    const NUMBER: u32 = RDP6_LAYOUT_ARGB;
}

impl ColorChannels for ARgbChannels {
    const STRIDE: usize = 4;
    const R: usize = 1;
    const G: usize = 2;
    const B: usize = 3;
}

impl AlphaChannel for ARgbChannels {
    const A: usize = 0;
}

/// Pixels of four bytes: R, G, B, A.
#[derive(Clone, Copy, Debug)]
pub struct RgbAChannels;

impl Layout for RgbAChannels {
    const NUMBER: u32 = RDP6_LAYOUT_RGBA;
}

impl ColorChannels for RgbAChannels {
    const STRIDE: usize = 4;
    const R: usize = 0;
    const G: usize = 1;
    const B: usize = 2;
}

impl AlphaChannel for RgbAChannels {
    const A: usize = 3;
}

/// Pixels of four bytes: A, B, G, R.
#[derive(Clone, Copy, Debug)]
pub struct ABgrChannels;

impl Layout for ABgrChannels {
    const NUMBER: u32 = RDP6_LAYOUT_ABGR;
}

impl ColorChannels for ABgrChannels {
    const STRIDE: usize = 4;
    const R: usize = 3;
    const G: usize = 2;
    const B: usize = 1;
}

impl AlphaChannel for ABgrChannels {
    const A: usize = 0;
}

/// Pixels of four bytes: B, G, R, A.
#[derive(Clone, Copy, Debug)]
pub struct BgrAChannels;

impl Layout for BgrAChannels {
    const NUMBER: u32 = RDP6_LAYOUT_BGRA;
}

impl ColorChannels for BgrAChannels {
    const STRIDE: usize = 4;
    const R: usize = 2;
    const G: usize = 1;
    const B: usize = 0;
}

impl AlphaChannel for BgrAChannels {
    const A: usize = 3;
}

#[cfg(test)]
mod tests {
    use std::ptr;

    use crate::ffi;

    /// Numbers that are no layout, though the last byte of most is one.
    const OTHERS: [u32; 12] = [4, 5, 255, 256, 257, 258, 259, 0x1_0000, 0x100_0001, 0x8000_0002, 0xFFFF_FF03, u32::MAX];

    /// Sides with their refusal; 0 if they are allowed.
    const SIDES: [(usize, usize, i64); 4] = [(2, 1, 0), (0, 8193, -1), (2, 8193, -2), (usize::MAX, 1, -2)];

    /// The first answer in the order of the checks.
    fn first<const N: usize>(conditions: [(bool, i64); N]) -> i64 {
        conditions.into_iter().find(|(holds, _)| *holds).expect("one of them holds").1
    }

    /// 3 comes behind 1 and 2, before 11 and 12, and changes nothing.
    #[test]
    fn other_numbers_are_not_packed() {
        let packers: [ffi::EncodeBitmap; 4] = [
            ffi::rdp6_stream_encode_bitmap,
            ffi::rdp6_stream_encode_bitmap_alpha,
            ffi::rdp6_encode_bitmap,
            ffi::rdp6_encode_bitmap_alpha,
        ];
        let pixels = [1, 2, 3, 4, 5, 6, 7, 8];
        for encode in packers {
            for (layout, (width, height, refused)) in OTHERS.iter().flat_map(|n| SIDES.map(|sides| (*n, sides))) {
                for (rle, src, room) in [(true, 8, 20), (false, 8, 20), (true, 7, 20), (false, 8, 0), (true, 0, 0)] {
                    let mut dst = [0xEE; 20];
                    // SAFETY: the arrays are valid for the call with these lengths, which are at most theirs, and do not overlap.
                    let answer =
                        unsafe { encode(layout, pixels.as_ptr(), src, dst.as_mut_ptr(), room, rle, width, height) };
                    let expected = first([(refused != 0, refused), (true, -3)]);
                    assert_eq!(answer, expected, "layout {layout}, {width} x {height}, {src} and {room} bytes");
                    assert_eq!(dst, [0xEE; 20]);
                }
            }
        }
    }

    /// 3 comes behind 13, 14, 1 and 2, before 4, 5 and 6, and changes nothing.
    #[test]
    fn other_numbers_are_not_unpacked() {
        let rle = [0x10, 0x20, 1, 2, 0x20, 3, 4, 0x20, 5, 6, 0x20, 7, 8];
        let raw = [0x00, 1, 2, 3, 4, 5, 6, 7, 8, 0];
        for (layout, (width, height, refused)) in OTHERS.iter().flat_map(|n| SIDES.map(|sides| (*n, sides))) {
            for (stream, length) in [(&rle[..], 0), (&rle, 1), (&rle, 13), (&raw, 0), (&raw, 1), (&raw, 2), (&raw, 10)]
            {
                for (work_len, image_len) in [(8, 8), (7, 8), (8, 7), (0, 0)] {
                    let (mut work, mut image) = ([0xEE; 8], [0xEE; 8]);
                    // SAFETY: the arrays are valid for the call with these lengths, which are at most theirs, and do not overlap.
                    let answer = unsafe {
                        ffi::rdp6_stream_decode_pixels(
                            layout,
                            stream.as_ptr(),
                            length,
                            work.as_mut_ptr(),
                            work_len,
                            image.as_mut_ptr(),
                            image_len,
                            width,
                            height,
                        )
                    };
                    let without_pad = length == 1 && stream[0] & 0x10 == 0;
                    let expected = first([(length == 0, -13), (without_pad, -14), (refused != 0, refused), (true, -3)]);
                    assert_eq!(answer, expected, "layout {layout}, {length} bytes, {width} x {height}");
                    assert_eq!((work, image), ([0xEE; 8], [0xEE; 8]));
                }
            }
        }
    }

    /// The same for a body: behind 1 and 2.
    #[test]
    fn nor_from_a_body() {
        let body = [1, 2, 3, 4, 5, 6, 7, 8];
        for (layout, (width, height, refused)) in OTHERS.iter().flat_map(|n| SIDES.map(|sides| (*n, sides))) {
            for (definition, level, length, image_len) in
                [(0, 0, 8, 8), (0, 0, 7, 8), (0, 0, 8, 7), (1, 1, 8, 8), (1, 0, 0, 0), (2, 1, 8, 8)]
            {
                let mut image = [0xEE; 8];
                // SAFETY: the arrays are valid for the call with these lengths, which are at most theirs, and do not overlap; the length of
                // the null pointer is 0.
                let answer = unsafe {
                    ffi::rdp6_decode_pixels(
                        false,
                        true,
                        definition,
                        level,
                        false,
                        layout,
                        body.as_ptr(),
                        length,
                        ptr::null_mut(),
                        0,
                        image.as_mut_ptr(),
                        image_len,
                        width,
                        height,
                    )
                };
                let expected = first([(refused != 0, refused), (true, -3)]);
                assert_eq!(answer, expected, "layout {layout}, {width} x {height}, {length} and {image_len} bytes");
                assert_eq!(image, [0xEE; 8]);
            }
        }
    }
}
