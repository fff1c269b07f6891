//! Packing a picture.

use super::layout::Layout;
use crate::answer::to_result;
use crate::ffi;
use crate::{BitmapStreamHeader, ColorPlaneDefinition, Refusal};

#[doc(inline)]
pub use super::layout::{
    ABgrChannels, ARgbChannels, AlphaChannel, BgrAChannels, ColorChannels, PixelAlpha, PixelFormat, RgbAChannels,
};

/// IronRDP's name for its error. Here it is a refusal of [`BitmapStreamEncoder`]: 1, 2, 11 or 12.
pub type BitmapEncodeError = Refusal;

/// What the body forms return: the length of the body, and its header record.
#[derive(Clone, Copy, Debug, PartialEq, Eq, Hash)]
pub struct Encoded {
    /// The number of bytes written, the length of the body. The count of the stream forms is one more.
    pub bytes: usize,
    /// The record for the header byte: RLE as asked for, ARGB, no alpha. The byte is `0x30` for RLE and `0x20` for raw.
    ///
    /// **Four planes.** The alpha flag here is false for them too, as IronRDP sends it. A sender sets `use_alpha` (header byte `0x10` for RLE,
    /// `0x00` for raw), as MS-RDPEGDI asks: without it a receiver takes A for R, R for G and G for B.
    pub header: BitmapStreamHeader,
}

impl Encoded {
    fn of(bytes: usize, rle: bool) -> Encoded {
        let header = BitmapStreamHeader {
            enable_rle_compression: rle,
            use_alpha: false,
            color_plane_definition: ColorPlaneDefinition::Argb,
        };
        Encoded { bytes, header }
    }
}

/// Packs pictures of one width and height.
///
/// Four methods write a whole stream to the start of `dst`, and return the number of bytes written, with the header byte:
/// [`encode_bitmap`], [`encode_bitmap_alpha`], [`encode_channels_stream`] and [`encode_channels_stream_alpha`]. They have the names and the
/// results of IronRDP's. The four with `body` in their names write the body alone, for a caller that writes the header byte itself.
///
/// ```
/// use rdp6::{BgrAChannels, BitmapStreamEncoder};
///
/// let pixels = [7; 4 * 4 * 2];
/// let mut stream = [0; 6 * 4 * 2 + 1];
/// let count = BitmapStreamEncoder::new(4, 2).encode_bitmap::<BgrAChannels>(&pixels, &mut stream, true)?;
/// assert_eq!(stream[..count], [0x30, 0x13, 7, 0x13, 0, 0x13, 7, 0x13, 0, 0x13, 7, 0x13, 0]);
/// # Ok::<(), rdp6::Refusal>(())
/// ```
///
/// The bytes of `dst` behind what is written are unchanged. Nothing is allocated, and no slice needs an alignment. The first row of the source
/// is the first row in the stream ([row order](crate#row-order)).
///
/// | | header byte | body | bytes of the stream | with alpha |
/// |---|---|---|---|---|
/// | `rle` | `0x30` | the planes one after the other, each as [`compress_8bpp_plane`](crate::compress_8bpp_plane) packs it | at most 6 × width × height + 1 | at most 8 × width × height + 1 |
/// | not `rle` | `0x20` | the samples of the planes, then one zero byte, the pad byte | 3 × width × height + 2 | 4 × width × height + 2 |
///
/// **Four planes.** The header byte is `0x30` or `0x20` for them too, as IronRDP writes it. These say that there is no alpha plane, so a receiver
/// takes A for R, R for G and G for B. To tell receivers of the alpha plane, clear bit 5 of the stream's first byte: `stream[0] &= !0x20`.
///
/// # Errors
///
/// All methods return these, in the order in which they are checked:
///
/// | Number | Condition | `dst` |
/// |---|---|---|
/// | 1 | the width or the height is 0 | unchanged |
/// | 2 | the width or the height is over 8,192 | unchanged |
/// | 11 | a channel has fewer than width × height samples, or a slice of pixels fewer complete pixels | unchanged |
/// | 12 | RLE: the header byte or the next segment does not fit | the segments before it are written, the rest is unchanged; the header byte is not written |
/// | 12 | raw: the stream or the body does not fit | unchanged |
///
/// IronRDP writes the header byte first, so that it stays there after an error. Here the first byte of a stream is written last.
///
/// [`encode_bitmap`]: BitmapStreamEncoder::encode_bitmap
/// [`encode_bitmap_alpha`]: BitmapStreamEncoder::encode_bitmap_alpha
/// [`encode_channels_stream`]: BitmapStreamEncoder::encode_channels_stream
/// [`encode_channels_stream_alpha`]: BitmapStreamEncoder::encode_channels_stream_alpha
#[derive(Clone, Debug)]
pub struct BitmapStreamEncoder {
    width: usize,
    height: usize,
}

/// Whole streams.
impl BitmapStreamEncoder {
    /// For pictures of these sides, which each method checks.
    pub fn new(width: usize, height: usize) -> Self {
        Self { width, height }
    }

    /// Packs R, G and B from one slice each into a stream: one byte a pixel, row by row. What follows the first width × height bytes is not
    /// read.
    ///
    /// IronRDP's method takes iterators. Here a channel is anything that is a slice of bytes: `&[u8]`, an array, a `Vec`, `slice.iter()`. What
    /// `into_iter()` of a `Vec<u8>` returns is both, so a program that passes it compiles with either crate.
    ///
    /// ```
    /// let (r, g, b) = (vec![1, 2], vec![3, 4], vec![5, 6]);
    /// let mut stream = [0xEE; 9];
    /// let channels = (r.into_iter(), g.into_iter(), b.into_iter());
    /// assert_eq!(rdp6::BitmapStreamEncoder::new(2, 1).encode_channels_stream(channels, &mut stream, false), Ok(8));
    /// assert_eq!(stream, [0x20, 1, 2, 3, 4, 5, 6, 0, 0xEE]);
    /// ```
    ///
    /// # Errors
    ///
    /// Those of [the type](BitmapStreamEncoder#errors).
    pub fn encode_channels_stream<R, G, B>(
        &mut self,
        (r, g, b): (R, G, B),
        dst: &mut [u8],
        rle: bool,
    ) -> Result<usize, BitmapEncodeError>
    where
        R: AsRef<[u8]>,
        G: AsRef<[u8]>,
        B: AsRef<[u8]>,
    {
        self.channels(ffi::rdp6_stream_encode_channels, [r.as_ref(), g.as_ref(), b.as_ref()], dst, rle)
    }

    /// The same with an alpha plane, which is the first: A, R, G, B. The header byte is that of three planes
    /// ([four planes](BitmapStreamEncoder)).
    ///
    /// ```
    /// let (r, g, b, a) = ([1], [2], [3], [255]);
    /// let mut stream = [0; 9];
    /// assert_eq!(rdp6::BitmapStreamEncoder::new(1, 1).encode_channels_stream_alpha((r, g, b, a), &mut stream, true), Ok(9));
    /// assert_eq!(stream, [0x30, 0x10, 255, 0x10, 1, 0x10, 2, 0x10, 3]);
    /// ```
    ///
    /// # Errors
    ///
    /// Those of [the type](BitmapStreamEncoder#errors).
    pub fn encode_channels_stream_alpha<R, G, B, A>(
        &mut self,
        (r, g, b, a): (R, G, B, A),
        dst: &mut [u8],
        rle: bool,
    ) -> Result<usize, BitmapEncodeError>
    where
        R: AsRef<[u8]>,
        G: AsRef<[u8]>,
        B: AsRef<[u8]>,
        A: AsRef<[u8]>,
    {
        let channels = [r.as_ref(), g.as_ref(), b.as_ref(), a.as_ref()];
        self.channels_alpha(ffi::rdp6_stream_encode_channels_alpha, channels, dst, rle)
    }

    /// Packs R, G and B of pixels, row by row, into a stream. Alpha is left out. What follows the first width × height pixels is not read.
    ///
    /// The layout of the pixels is [`BgrAChannels`], [`RgbAChannels`], [`ARgbChannels`] or [`ABgrChannels`].
    ///
    /// ```
    /// use rdp6::{ARgbChannels, BgrAChannels, BitmapStreamEncoder};
    ///
    /// let mut encoder = BitmapStreamEncoder::new(2, 1);
    /// let mut stream = [0; 8];
    /// let pixels = [1, 2, 3, 255, 4, 5, 6, 255];
    /// assert_eq!(encoder.encode_bitmap::<BgrAChannels>(&pixels, &mut stream, false), Ok(8));
    /// assert_eq!(stream, [0x20, 3, 6, 2, 5, 1, 4, 0]);
    ///
    /// let pixels = [255, 3, 2, 1, 255, 6, 5, 4]; // the same
    /// assert_eq!(encoder.encode_bitmap::<ARgbChannels>(&pixels, &mut stream, false), Ok(8));
    /// assert_eq!(stream, [0x20, 3, 6, 2, 5, 1, 4, 0]);
    /// ```
    ///
    /// # Errors
    ///
    /// Those of [the type](BitmapStreamEncoder#errors).
    pub fn encode_bitmap<F>(&mut self, src: &[u8], dst: &mut [u8], rle: bool) -> Result<usize, BitmapEncodeError>
    where
        F: PixelFormat,
    {
        self.pixels::<F>(ffi::rdp6_stream_encode_bitmap, src, dst, rle)
    }

    /// The same with alpha: A, R, G, B. The header byte is that of three planes ([four planes](BitmapStreamEncoder)).
    ///
    /// ```
    /// use rdp6::{BgrAChannels, BitmapStreamDecoder, BitmapStreamEncoder};
    ///
    /// # fn main() -> Result<(), rdp6::Refusal> {
    /// let pixels = [1, 2, 3, 128];
    /// let mut stream = [0; 6];
    /// BitmapStreamEncoder::new(1, 1).encode_bitmap_alpha::<BgrAChannels>(&pixels, &mut stream, false)?;
    /// assert_eq!(stream, [0x20, 128, 3, 2, 1, 0]);
    ///
    /// stream[0] &= !0x20; // there is an alpha plane
    /// let mut image = Vec::new();
    /// BitmapStreamDecoder::default().decode_bitmap_stream_to_pixels::<BgrAChannels>(&stream, &mut image, 1, 1)?;
    /// assert_eq!(image, pixels);
    /// # Ok(())
    /// # }
    /// ```
    ///
    /// # Errors
    ///
    /// Those of [the type](BitmapStreamEncoder#errors).
    pub fn encode_bitmap_alpha<F>(&mut self, src: &[u8], dst: &mut [u8], rle: bool) -> Result<usize, BitmapEncodeError>
    where
        F: PixelFormat + PixelAlpha,
    {
        self.pixels::<F>(ffi::rdp6_stream_encode_bitmap_alpha, src, dst, rle)
    }
}

/// Bodies: what follows the header byte, for a caller that writes the header byte itself. They need one byte less.
impl BitmapStreamEncoder {
    /// [`encode_channels_stream`](BitmapStreamEncoder::encode_channels_stream) without the header byte.
    ///
    /// ```
    /// let (r, g, b) = ([1, 2], [3, 4], [5, 6]);
    /// let mut body = [0xEE; 8];
    /// let packed = rdp6::BitmapStreamEncoder::new(2, 1).encode_channels_body((r, g, b), &mut body, false)?;
    /// assert_eq!(packed.bytes, 7);
    /// assert_eq!(body, [1, 2, 3, 4, 5, 6, 0, 0xEE]);
    /// assert!(!packed.header.enable_rle_compression);
    /// # Ok::<(), rdp6::Refusal>(())
    /// ```
    ///
    /// # Errors
    ///
    /// Those of [the type](BitmapStreamEncoder#errors).
    pub fn encode_channels_body<R, G, B>(
        &mut self,
        (r, g, b): (R, G, B),
        dst: &mut [u8],
        rle: bool,
    ) -> Result<Encoded, BitmapEncodeError>
    where
        R: AsRef<[u8]>,
        G: AsRef<[u8]>,
        B: AsRef<[u8]>,
    {
        let answer = self.channels(ffi::rdp6_encode_channels, [r.as_ref(), g.as_ref(), b.as_ref()], dst, rle);
        answer.map(|bytes| Encoded::of(bytes, rle))
    }

    /// [`encode_channels_stream_alpha`](BitmapStreamEncoder::encode_channels_stream_alpha) without the header byte. The returned `use_alpha` is
    /// false here too: a sender of four planes sets it; whoever unpacks passes it as true.
    ///
    /// ```
    /// let (r, g, b, a) = ([1], [2], [3], [255]);
    /// let mut body = [0; 8];
    /// let packed = rdp6::BitmapStreamEncoder::new(1, 1).encode_channels_body_alpha((r, g, b, a), &mut body, true)?;
    /// assert_eq!(body[..packed.bytes], [0x10, 255, 0x10, 1, 0x10, 2, 0x10, 3]);
    /// # Ok::<(), rdp6::Refusal>(())
    /// ```
    ///
    /// # Errors
    ///
    /// Those of [the type](BitmapStreamEncoder#errors).
    pub fn encode_channels_body_alpha<R, G, B, A>(
        &mut self,
        (r, g, b, a): (R, G, B, A),
        dst: &mut [u8],
        rle: bool,
    ) -> Result<Encoded, BitmapEncodeError>
    where
        R: AsRef<[u8]>,
        G: AsRef<[u8]>,
        B: AsRef<[u8]>,
        A: AsRef<[u8]>,
    {
        let channels = [r.as_ref(), g.as_ref(), b.as_ref(), a.as_ref()];
        let answer = self.channels_alpha(ffi::rdp6_encode_channels_alpha, channels, dst, rle);
        answer.map(|bytes| Encoded::of(bytes, rle))
    }

    /// [`encode_bitmap`](BitmapStreamEncoder::encode_bitmap) without the header byte.
    ///
    /// ```
    /// use rdp6::{BgrAChannels, BitmapStreamEncoder};
    ///
    /// let pixels = [1, 2, 3, 255, 4, 5, 6, 255];
    /// let mut body = [0; 7];
    /// let packed = BitmapStreamEncoder::new(2, 1).encode_bitmap_body::<BgrAChannels>(&pixels, &mut body, false)?;
    /// assert_eq!(packed.bytes, 7);
    /// assert_eq!(body, [3, 6, 2, 5, 1, 4, 0]);
    /// # Ok::<(), rdp6::Refusal>(())
    /// ```
    ///
    /// # Errors
    ///
    /// Those of [the type](BitmapStreamEncoder#errors).
    pub fn encode_bitmap_body<F>(&mut self, src: &[u8], dst: &mut [u8], rle: bool) -> Result<Encoded, BitmapEncodeError>
    where
        F: PixelFormat,
    {
        let answer = self.pixels::<F>(ffi::rdp6_encode_bitmap, src, dst, rle);
        answer.map(|bytes| Encoded::of(bytes, rle))
    }

    /// [`encode_bitmap_alpha`](BitmapStreamEncoder::encode_bitmap_alpha) without the header byte. The returned `use_alpha` is false here too: a
    /// sender of four planes sets it; whoever unpacks passes it as true.
    ///
    /// ```
    /// use rdp6::{BgrAChannels, BitmapStreamEncoder};
    ///
    /// let pixels = [1, 2, 3, 255];
    /// let mut body = [0; 5];
    /// let packed = BitmapStreamEncoder::new(1, 1).encode_bitmap_body_alpha::<BgrAChannels>(&pixels, &mut body, false)?;
    /// assert_eq!(body, [255, 3, 2, 1, 0]);
    /// assert!(!packed.header.use_alpha);
    /// # Ok::<(), rdp6::Refusal>(())
    /// ```
    ///
    /// # Errors
    ///
    /// Those of [the type](BitmapStreamEncoder#errors).
    pub fn encode_bitmap_body_alpha<F>(
        &mut self,
        src: &[u8],
        dst: &mut [u8],
        rle: bool,
    ) -> Result<Encoded, BitmapEncodeError>
    where
        F: PixelFormat + PixelAlpha,
    {
        let answer = self.pixels::<F>(ffi::rdp6_encode_bitmap_alpha, src, dst, rle);
        answer.map(|bytes| Encoded::of(bytes, rle))
    }
}

// The calls. `encode` is one of the library's functions: only this module passes one.
impl BitmapStreamEncoder {
    fn channels(
        &self,
        encode: ffi::EncodeChannels,
        [r, g, b]: [&[u8]; 3],
        dst: &mut [u8],
        rle: bool,
    ) -> Result<usize, Refusal> {
        // SAFETY: the slices are valid for the call with these lengths, and nothing keeps them; `dst`, a `&mut`, overlaps no other.
        let answer = unsafe {
            encode(
                r.as_ptr(),
                r.len(),
                g.as_ptr(),
                g.len(),
                b.as_ptr(),
                b.len(),
                dst.as_mut_ptr(),
                dst.len(),
                rle,
                self.width,
                self.height,
            )
        };
        to_result(answer)
    }

    fn channels_alpha(
        &self,
        encode: ffi::EncodeChannelsAlpha,
        [r, g, b, a]: [&[u8]; 4],
        dst: &mut [u8],
        rle: bool,
    ) -> Result<usize, Refusal> {
        // SAFETY: the slices are valid for the call with these lengths, and nothing keeps them; `dst`, a `&mut`, overlaps no other.
        let answer = unsafe {
            encode(
                r.as_ptr(),
                r.len(),
                g.as_ptr(),
                g.len(),
                b.as_ptr(),
                b.len(),
                a.as_ptr(),
                a.len(),
                dst.as_mut_ptr(),
                dst.len(),
                rle,
                self.width,
                self.height,
            )
        };
        to_result(answer)
    }

    fn pixels<F: Layout>(
        &self,
        encode: ffi::EncodeBitmap,
        src: &[u8],
        dst: &mut [u8],
        rle: bool,
    ) -> Result<usize, Refusal> {
        // SAFETY: both slices are valid for the call with these lengths, and nothing keeps them; `dst`, a `&mut`, overlaps no other.
        let answer = unsafe {
            encode(F::NUMBER, src.as_ptr(), src.len(), dst.as_mut_ptr(), dst.len(), rle, self.width, self.height)
        };
        to_result(answer)
    }
}
