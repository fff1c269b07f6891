//! Unpacking a picture.

use std::fmt;

use super::layout::PixelAlpha;
use crate::answer::to_result;
use crate::ffi;
use crate::header::Definition;
use crate::{BitmapStreamHeader, Refusal};

/// IronRDP's name for its error. Here it is a refusal of a function of this module or of [`BitmapStreamDecoder`]: 1 to 9, 13 or 14.
pub type BitmapDecodeError = Refusal;

/// Unpacks a picture from its stream into the first 3 × `width` × `height` bytes of `image`: R, G and B of each pixel, row by row. Returns that
/// number. Nothing is allocated, and no slice needs an alignment.
///
/// The first row in the stream is the first row of the image ([row order](crate#row-order)). Alpha, if there is any, is not part of the image;
/// [`stream_decode_pixels`] unpacks it too.
///
/// An RLE picture is unpacked into `work`, which then has its three colour planes one after the other; [`stream_work_size`] is its minimum
/// length. A raw picture does not use `work`, which may be empty. Bytes of both slices behind what is written are unchanged. The pad byte of a
/// raw stream, which is its last byte, and what follows the last plane have no effect.
///
/// ```
/// // Loss level 1, RLE, with alpha; then a plane of one sample each: alpha, Y, Co and Cg.
/// let stream = [0x11, 0x10, 0xFF, 0x10, 100, 0x10, 10, 0x10, 20];
/// let mut work = vec![0; rdp6::stream_work_size(&stream, 1, 1)];
/// let mut image = vec![0; rdp6::image_size(1, 1)];
/// assert_eq!(rdp6::stream_decode(&stream, &mut work, &mut image, 1, 1), Ok(3));
/// assert_eq!(image, [90, 120, 70]);
/// ```
///
/// # Errors
///
/// In the order in which they are checked. None of them changes the image:
///
/// | Number | Condition | `work` |
/// |---|---|---|
/// | 13 | `stream` is empty | unchanged |
/// | 14 | `stream` is raw and has one byte: there is no pad byte | unchanged |
/// | 1 | `width` or `height` is 0 | unchanged |
/// | 2 | `width` or `height` is over 8,192 | unchanged |
/// | 4 | the body, that is `stream` without the header byte and the pad byte, is shorter than its minimum size | unchanged |
/// | 5 | `work` is shorter than [`stream_work_size`] (RLE only) | unchanged |
/// | 6 | `image` is shorter than [`image_size`] | unchanged |
/// | 7, 8, 9 | as [`decode`] has them (RLE only) | as there |
///
/// Refusal 3 never occurs: a header byte has no loss level but 0, which is ARGB, and 1 to 7. [`decode`] says what the minimum size of a body is.
pub fn stream_decode(
    stream: &[u8],
    work: &mut [u8],
    image: &mut [u8],
    width: usize,
    height: usize,
) -> Result<usize, BitmapDecodeError> {
    // SAFETY: the three slices are valid for the call with these lengths, and nothing keeps them; `work` and `image`, each a `&mut`,
    // overlap no other.
    let answer = unsafe {
        ffi::rdp6_stream_decode(
            stream.as_ptr(),
            stream.len(),
            work.as_mut_ptr(),
            work.len(),
            image.as_mut_ptr(),
            image.len(),
            width,
            height,
        )
    };
    to_result(answer)
}

/// The minimum length of the work area of [`stream_decode`]: the size of the three colour planes, or 0 if the picture is raw. Only the first
/// byte of `stream` is read. It is 0 for an empty stream and for sides that are refused.
///
/// ```
/// assert_eq!(rdp6::stream_work_size(&[0x30], 3, 3), 3 * 9);
/// assert_eq!(rdp6::stream_work_size(&[0x39], 3, 3), 9 + 2 * 4); // loss level 1, subsampled
/// assert_eq!(rdp6::stream_work_size(&[0x20], 3, 3), 0); // raw
/// ```
pub fn stream_work_size(stream: &[u8], width: usize, height: usize) -> usize {
    // SAFETY: the slice is valid for the call with this length, and nothing keeps it.
    unsafe { ffi::rdp6_stream_work_size(stream.as_ptr(), stream.len(), width, height) }
}

/// Unpacks a picture from its stream as [`stream_decode`] does, but to pixels of four bytes in the layout `F`, which is [`BgrAChannels`],
/// [`RgbAChannels`], [`ARgbChannels`] or [`ABgrChannels`]: the first 4 × `width` × `height` bytes of `image`, row by row. Returns that number.
/// Nothing is allocated, and no slice needs an alignment.
///
/// R, G and B of each pixel are those that [`stream_decode`] writes. A is the sample of the alpha plane, or 255 if there is no alpha plane.
///
/// An RLE picture is unpacked into `work`, which then has its three colour planes one after the other and, behind them, its alpha plane, if
/// there is one; [`stream_pixels_work_size`] is its minimum length. A raw picture does not use `work`, which may be empty. Bytes of both slices
/// behind what is written are unchanged.
///
/// ```
/// use rdp6::{ARgbChannels, BgrAChannels};
///
/// // RLE, with alpha; then planes of two samples each: alpha, R, G and B.
/// let stream = [0x10, 0x20, 128, 255, 0x20, 1, 2, 0x20, 3, 4, 0x20, 5, 6];
/// let mut work = vec![0; rdp6::stream_pixels_work_size(&stream, 2, 1)];
/// let mut image = vec![0; rdp6::pixels_image_size(2, 1)];
/// assert_eq!(rdp6::stream_decode_pixels::<BgrAChannels>(&stream, &mut work, &mut image, 2, 1), Ok(8));
/// assert_eq!(image, [5, 3, 1, 128, 6, 4, 2, 255]);
/// assert_eq!(work, [1, 2, 3, 4, 5, 6, 128, 255]);
///
/// // Raw, without alpha.
/// let stream = [0x20, 1, 2, 3, 4, 5, 6, 0];
/// assert_eq!(rdp6::stream_decode_pixels::<ARgbChannels>(&stream, &mut [], &mut image, 2, 1), Ok(8));
/// assert_eq!(image, [255, 1, 3, 5, 255, 2, 4, 6]);
/// ```
///
/// # Errors
///
/// In the order in which they are checked. None of them changes the image:
///
/// | Number | Condition | `work` |
/// |---|---|---|
/// | 13 | `stream` is empty | unchanged |
/// | 14 | `stream` is raw and has one byte: there is no pad byte | unchanged |
/// | 1 | `width` or `height` is 0 | unchanged |
/// | 2 | `width` or `height` is over 8,192 | unchanged |
/// | 4 | the body, that is `stream` without the header byte and the pad byte, is shorter than its minimum size | unchanged |
/// | 5 | `work` is shorter than [`stream_pixels_work_size`] (RLE only) | unchanged |
/// | 6 | `image` is shorter than [`pixels_image_size`] | unchanged |
/// | 7, 8, 9 | as [`decode_pixels`] has them (RLE only) | as there |
///
/// Refusal 3 never occurs. Where both functions have room, the refusals are those of [`stream_decode`].
///
/// [`ABgrChannels`]: crate::ABgrChannels
/// [`ARgbChannels`]: crate::ARgbChannels
/// [`BgrAChannels`]: crate::BgrAChannels
/// [`RgbAChannels`]: crate::RgbAChannels
pub fn stream_decode_pixels<F>(
    stream: &[u8],
    work: &mut [u8],
    image: &mut [u8],
    width: usize,
    height: usize,
) -> Result<usize, BitmapDecodeError>
where
    F: PixelAlpha,
{
    // SAFETY: the three slices are valid for the call with these lengths, and nothing keeps them; `work` and `image`, each a `&mut`,
    // overlap no other.
    let answer = unsafe {
        ffi::rdp6_stream_decode_pixels(
            F::NUMBER,
            stream.as_ptr(),
            stream.len(),
            work.as_mut_ptr(),
            work.len(),
            image.as_mut_ptr(),
            image.len(),
            width,
            height,
        )
    };
    to_result(answer)
}

/// The minimum length of the work area of [`stream_decode_pixels`]: the size of the planes, alpha included, or 0 if the picture is raw. Only
/// the first byte of `stream` is read. It is 0 for an empty stream and for sides that are refused, and does not depend on the layout.
///
/// ```
/// assert_eq!(rdp6::stream_pixels_work_size(&[0x10], 3, 3), 4 * 9);
/// assert_eq!(rdp6::stream_pixels_work_size(&[0x30], 3, 3), 3 * 9); // no alpha
/// assert_eq!(rdp6::stream_pixels_work_size(&[0x19], 3, 3), 9 + 2 * 4 + 9); // loss level 1, subsampled
/// assert_eq!(rdp6::stream_pixels_work_size(&[0x00], 3, 3), 0); // raw
/// ```
pub fn stream_pixels_work_size(stream: &[u8], width: usize, height: usize) -> usize {
    // SAFETY: the slice is valid for the call with this length, and nothing keeps it.
    unsafe { ffi::rdp6_stream_pixels_work_size(stream.as_ptr(), stream.len(), width, height) }
}

/// Does what [`stream_decode`] does for a caller that reads the header byte itself: unpacks a picture from its body, which is what follows
/// the header byte, into the first 3 × `width` × `height` bytes of `image`, R, G and B of each pixel, row by row. Returns that number.
/// Nothing is allocated, and no slice needs an alignment.
///
/// The first row in the body is the first row of the image ([row order](crate#row-order)). A body of four planes is unpacked with `use_alpha`
/// as true; alpha is not part of the image, and [`decode_pixels`] unpacks it too.
///
/// An RLE picture is unpacked into `work`, which then has its three colour planes one after the other; [`work_size`] is its minimum length.
/// A raw picture does not use `work`, which may be empty. Bytes of both slices behind what is written are unchanged, and what follows the
/// last plane in `body` has no effect.
///
/// ```
/// use rdp6::{BitmapStreamHeader, ColorPlaneDefinition};
///
/// let header = BitmapStreamHeader {
///     enable_rle_compression: true,
///     use_alpha: true,
///     color_plane_definition: ColorPlaneDefinition::AYCoCg { color_loss_level: 1, use_chroma_subsampling: false },
/// };
/// // A plane of one sample each: alpha, Y, Co and Cg.
/// let body = [0x10, 0xFF, 0x10, 100, 0x10, 10, 0x10, 20];
/// let mut work = vec![0; rdp6::work_size(header, 1, 1)];
/// let mut image = vec![0; rdp6::image_size(1, 1)];
/// assert_eq!(rdp6::decode(header, &body, &mut work, &mut image, 1, 1), Ok(3));
/// assert_eq!(image, [90, 120, 70]);
/// ```
///
/// # Errors
///
/// In the order in which they are checked. None of them changes the image:
///
/// | Number | Condition | `work` |
/// |---|---|---|
/// | 1 | `width` or `height` is 0 | unchanged |
/// | 2 | `width` or `height` is over 8,192 | unchanged |
/// | 3 | AYCoCg with a loss level other than 1 to 7 | unchanged |
/// | 4 | `body` is shorter than its minimum size | unchanged |
/// | 5 | `work` is shorter than [`work_size`] (RLE only) | unchanged |
/// | 6 | `image` is shorter than [`image_size`] | unchanged |
/// | 7 | a control byte or a raw byte is missing (RLE only) | the planes before are complete, and the refused one is as [`decompress_8bpp_plane`](crate::decompress_8bpp_plane) leaves it. If it is the first colour plane, the part that it did not write still has alpha, if there is any |
/// | 8 | a control byte is 0 (RLE only) | the same |
/// | 9 | a segment overruns its row (RLE only) | the same |
///
/// The minimum size of a raw body is the number of its samples. That of an RLE body is the sum over its planes of height × (width / 47
/// rounded up).
pub fn decode(
    header: BitmapStreamHeader,
    body: &[u8],
    work: &mut [u8],
    image: &mut [u8],
    width: usize,
    height: usize,
) -> Result<usize, BitmapDecodeError> {
    let definition = Definition::from(header.color_plane_definition);
    // SAFETY: the three slices are valid for the call with these lengths, and nothing keeps them; `work` and `image`, each a `&mut`,
    // overlap no other.
    let answer = unsafe {
        ffi::rdp6_decode(
            header.enable_rle_compression,
            header.use_alpha,
            definition.number,
            definition.color_loss_level,
            definition.chroma_subsampling,
            body.as_ptr(),
            body.len(),
            work.as_mut_ptr(),
            work.len(),
            image.as_mut_ptr(),
            image.len(),
            width,
            height,
        )
    };
    to_result(answer)
}

/// The minimum length of the work area of [`decode`]: the size of the three colour planes, or 0 if the picture is raw. It is 0 for sides that
/// are refused, and does not depend on the loss level.
///
/// ```
/// use rdp6::{BitmapStreamHeader, ColorPlaneDefinition};
///
/// let color_plane_definition = ColorPlaneDefinition::AYCoCg { color_loss_level: 1, use_chroma_subsampling: true };
/// let mut header = BitmapStreamHeader { enable_rle_compression: true, use_alpha: true, color_plane_definition };
/// assert_eq!(rdp6::work_size(header, 3, 3), 9 + 2 * 4);
/// header.enable_rle_compression = false;
/// assert_eq!(rdp6::work_size(header, 3, 3), 0);
/// ```
pub fn work_size(header: BitmapStreamHeader, width: usize, height: usize) -> usize {
    let definition = Definition::from(header.color_plane_definition);
    // SAFETY: the function takes only numbers.
    unsafe {
        ffi::rdp6_work_size(
            header.enable_rle_compression,
            definition.number,
            definition.chroma_subsampling,
            width,
            height,
        )
    }
}

/// Does what [`stream_decode_pixels`] does for a caller that reads the header byte itself: unpacks a picture from its body, which is what
/// follows the header byte, to pixels of four bytes in the layout `F`, the first 4 × `width` × `height` bytes of `image`, row by row. Returns
/// that number. Nothing is allocated, and no slice needs an alignment.
///
/// R, G and B of each pixel are those that [`decode`] writes. A is the sample of the alpha plane, or 255 if `use_alpha` is false.
///
/// An RLE picture is unpacked into `work`, which then has its three colour planes one after the other and, behind them, its alpha plane, if
/// there is one; [`pixels_work_size`] is its minimum length. Alpha is unpacked first, and no colour plane overwrites it. A raw picture does not
/// use `work`, which may be empty. Bytes of both slices behind what is written are unchanged, and what follows the last plane in `body` has no
/// effect.
///
/// ```
/// use rdp6::{BitmapStreamHeader, ColorPlaneDefinition, RgbAChannels};
///
/// let header = BitmapStreamHeader {
///     enable_rle_compression: true,
///     use_alpha: true,
///     color_plane_definition: ColorPlaneDefinition::AYCoCg { color_loss_level: 1, use_chroma_subsampling: false },
/// };
/// // A plane of one sample each: alpha, Y, Co and Cg.
/// let body = [0x10, 128, 0x10, 100, 0x10, 10, 0x10, 20];
/// let mut work = vec![0; rdp6::pixels_work_size(header, 1, 1)];
/// let mut image = vec![0; rdp6::pixels_image_size(1, 1)];
/// assert_eq!(rdp6::decode_pixels::<RgbAChannels>(header, &body, &mut work, &mut image, 1, 1), Ok(4));
/// assert_eq!(image, [90, 120, 70, 128]);
/// assert_eq!(work, [100, 10, 20, 128]);
/// ```
///
/// # Errors
///
/// In the order in which they are checked. None of them changes the image:
///
/// | Number | Condition | `work` |
/// |---|---|---|
/// | 1 | `width` or `height` is 0 | unchanged |
/// | 2 | `width` or `height` is over 8,192 | unchanged |
/// | 3 | AYCoCg with a loss level other than 1 to 7 | unchanged |
/// | 4 | `body` is shorter than its minimum size, which is that of [`decode`] | unchanged |
/// | 5 | `work` is shorter than [`pixels_work_size`] (RLE only) | unchanged |
/// | 6 | `image` is shorter than [`pixels_image_size`] | unchanged |
/// | 7 | a control byte or a raw byte is missing (RLE only) | the planes before are complete, alpha too; the refused one is as [`decompress_8bpp_plane`](crate::decompress_8bpp_plane) leaves it; the rest is unchanged |
/// | 8 | a control byte is 0 (RLE only) | the same |
/// | 9 | a segment overruns its row (RLE only) | the same |
///
/// Where both functions have room, the refusals are those of [`decode`].
pub fn decode_pixels<F>(
    header: BitmapStreamHeader,
    body: &[u8],
    work: &mut [u8],
    image: &mut [u8],
    width: usize,
    height: usize,
) -> Result<usize, BitmapDecodeError>
where
    F: PixelAlpha,
{
    let definition = Definition::from(header.color_plane_definition);
    // SAFETY: the three slices are valid for the call with these lengths, and nothing keeps them; `work` and `image`, each a `&mut`,
    // overlap no other.
    let answer = unsafe {
        ffi::rdp6_decode_pixels(
            header.enable_rle_compression,
            header.use_alpha,
            definition.number,
            definition.color_loss_level,
            definition.chroma_subsampling,
            F::NUMBER,
            body.as_ptr(),
            body.len(),
            work.as_mut_ptr(),
            work.len(),
            image.as_mut_ptr(),
            image.len(),
            width,
            height,
        )
    };
    to_result(answer)
}

/// The minimum length of the work area of [`decode_pixels`]: the size of the planes, alpha included, or 0 if the picture is raw. It is 0 for
/// sides that are refused, and depends neither on the loss level nor on the layout.
///
/// ```
/// use rdp6::{BitmapStreamHeader, ColorPlaneDefinition};
///
/// let color_plane_definition = ColorPlaneDefinition::AYCoCg { color_loss_level: 1, use_chroma_subsampling: true };
/// let mut header = BitmapStreamHeader { enable_rle_compression: true, use_alpha: true, color_plane_definition };
/// assert_eq!(rdp6::pixels_work_size(header, 3, 3), 9 + 2 * 4 + 9);
/// header.use_alpha = false;
/// assert_eq!(rdp6::pixels_work_size(header, 3, 3), 9 + 2 * 4);
/// ```
pub fn pixels_work_size(header: BitmapStreamHeader, width: usize, height: usize) -> usize {
    let definition = Definition::from(header.color_plane_definition);
    // SAFETY: the function takes only numbers.
    unsafe {
        ffi::rdp6_pixels_work_size(
            header.enable_rle_compression,
            header.use_alpha,
            definition.number,
            definition.chroma_subsampling,
            width,
            height,
        )
    }
}

/// The minimum length of the image of [`stream_decode_pixels`] and [`decode_pixels`], 4 × `width` × `height`. It is 0 for sides that are
/// refused, and at most 268,435,456.
///
/// ```
/// assert_eq!(rdp6::pixels_image_size(640, 480), 1_228_800);
/// assert_eq!(rdp6::pixels_image_size(8_193, 1), 0);
/// ```
pub fn pixels_image_size(width: usize, height: usize) -> usize {
    // SAFETY: the function takes only numbers.
    unsafe { ffi::rdp6_pixels_image_size(width, height) }
}

/// The minimum length of the image of [`stream_decode`] and [`decode`], 3 × `width` × `height`. It is 0 for sides that are refused, and at most
/// 201,326,592.
///
/// ```
/// assert_eq!(rdp6::image_size(640, 480), 921_600);
/// assert_eq!(rdp6::image_size(8_193, 1), 0);
/// ```
pub fn image_size(width: usize, height: usize) -> usize {
    // SAFETY: the function takes only numbers.
    unsafe { ffi::rdp6_image_size(width, height) }
}

/// A decoder that keeps its work area from picture to picture, so that it is allocated once for the largest.
///
/// [`stream_decode`], [`stream_decode_pixels`], [`decode`] and [`decode_pixels`] do the same with slices of the caller and without allocation.
#[derive(Default)]
pub struct BitmapStreamDecoder {
    planes_buffer: Vec<u8>,
}

/// The clone has an empty work area: what is in a work area means nothing to the next picture.
impl Clone for BitmapStreamDecoder {
    fn clone(&self) -> Self {
        Self::default()
    }
}

/// Shows the length of the work area, not its bytes.
impl fmt::Debug for BitmapStreamDecoder {
    fn fmt(&self, f: &mut fmt::Formatter<'_>) -> fmt::Result {
        let length = self.planes_buffer.len();
        f.debug_struct("BitmapStreamDecoder").field("planes_buffer", &format_args!("{length} bytes")).finish()
    }
}

impl BitmapStreamDecoder {
    /// Unpacks a picture from its stream and appends R, G and B of each pixel, row by row, to `dst`. The first row in the stream is the first
    /// row of the image ([row order](crate#row-order)). This is IronRDP's method, with its parameters.
    ///
    /// ```
    /// let stream = [0x20, 1, 2, 3, 4, 5, 6, 0]; // raw R, G and B of two pixels, and the pad byte
    /// let mut decoder = rdp6::BitmapStreamDecoder::default();
    /// let mut image = Vec::new();
    /// decoder.decode_bitmap_stream_to_rgb24(&stream, &mut image, 2, 1)?;
    /// assert_eq!(image, [1, 3, 5, 2, 4, 6]);
    /// # Ok::<(), rdp6::Refusal>(())
    /// ```
    ///
    /// # Errors
    ///
    /// 13, 14, 1, 2, 4, 7, 8 and 9, as [`stream_decode`] has them and in its order; never 5 or 6, since the work area and the image get their
    /// minimum lengths. No refusal changes `dst`, and nothing is allocated before the first five are checked.
    ///
    /// # Aborts
    ///
    /// If memory runs out, as every `Vec` does. The image has at most 201,326,592 bytes, and the work area too.
    pub fn decode_bitmap_stream_to_rgb24(
        &mut self,
        bitmap_stream: &[u8],
        dst: &mut Vec<u8>,
        image_width: usize,
        image_height: usize,
    ) -> Result<(), BitmapDecodeError> {
        let sizes = Sizes {
            work: stream_work_size(bitmap_stream, image_width, image_height),
            image: image_size(image_width, image_height),
        };
        self.append(dst, sizes, |work, image| stream_decode(bitmap_stream, work, image, image_width, image_height))
    }

    /// Unpacks a picture from its stream and appends its pixels, row by row, to `dst`: four bytes each, in the layout `F`, with alpha, or 255 if
    /// there is no alpha plane. IronRDP has no such method.
    ///
    /// ```
    /// use rdp6::{BgrAChannels, BitmapStreamDecoder, RgbAChannels};
    ///
    /// let stream = [0x00, 128, 255, 1, 2, 3, 4, 5, 6, 0]; // raw A, R, G and B of two pixels, and the pad byte
    /// let mut decoder = BitmapStreamDecoder::default();
    /// let mut image = Vec::new();
    /// decoder.decode_bitmap_stream_to_pixels::<RgbAChannels>(&stream, &mut image, 2, 1)?;
    /// assert_eq!(image, [1, 3, 5, 128, 2, 4, 6, 255]);
    ///
    /// image.clear();
    /// decoder.decode_bitmap_stream_to_pixels::<BgrAChannels>(&stream, &mut image, 2, 1)?;
    /// assert_eq!(image, [5, 3, 1, 128, 6, 4, 2, 255]);
    /// # Ok::<(), rdp6::Refusal>(())
    /// ```
    ///
    /// # Errors
    ///
    /// 13, 14, 1, 2, 4, 7, 8 and 9, as [`stream_decode_pixels`] has them and in its order. No refusal changes `dst`, and nothing is allocated
    /// before the first five are checked.
    ///
    /// # Aborts
    ///
    /// If memory runs out, as every `Vec` does. The image has at most 268,435,456 bytes, and the work area too.
    pub fn decode_bitmap_stream_to_pixels<F>(
        &mut self,
        bitmap_stream: &[u8],
        dst: &mut Vec<u8>,
        image_width: usize,
        image_height: usize,
    ) -> Result<(), BitmapDecodeError>
    where
        F: PixelAlpha,
    {
        let sizes = Sizes {
            work: stream_pixels_work_size(bitmap_stream, image_width, image_height),
            image: pixels_image_size(image_width, image_height),
        };
        self.append(dst, sizes, |work, image| {
            stream_decode_pixels::<F>(bitmap_stream, work, image, image_width, image_height)
        })
    }

    /// Does what [`decode_bitmap_stream_to_rgb24`](BitmapStreamDecoder::decode_bitmap_stream_to_rgb24) does for a caller that reads the header
    /// byte itself, and passes what it says as `header` and the bytes behind it as `body`, with or without the pad byte at the end of a raw stream.
    ///
    /// ```
    /// use rdp6::{BitmapStreamDecoder, BitmapStreamHeader, ColorPlaneDefinition};
    ///
    /// let color_plane_definition = ColorPlaneDefinition::Argb;
    /// let header = BitmapStreamHeader { enable_rle_compression: false, use_alpha: false, color_plane_definition };
    /// let mut decoder = BitmapStreamDecoder::default();
    /// let mut image = Vec::new();
    /// decoder.decode_body_to_rgb24(header, &[1, 2, 3, 4, 5, 6], &mut image, 2, 1)?;
    /// assert_eq!(image, [1, 3, 5, 2, 4, 6]);
    /// # Ok::<(), rdp6::Refusal>(())
    /// ```
    ///
    /// # Errors
    ///
    /// 1, 2, 3, 4, 7, 8 and 9, as [`decode`] has them and in its order. No refusal changes `dst`, and nothing is allocated before the first
    /// four are checked.
    ///
    /// # Aborts
    ///
    /// As [`decode_bitmap_stream_to_rgb24`](BitmapStreamDecoder::decode_bitmap_stream_to_rgb24) does.
    pub fn decode_body_to_rgb24(
        &mut self,
        header: BitmapStreamHeader,
        body: &[u8],
        dst: &mut Vec<u8>,
        image_width: usize,
        image_height: usize,
    ) -> Result<(), BitmapDecodeError> {
        let sizes =
            Sizes { work: work_size(header, image_width, image_height), image: image_size(image_width, image_height) };
        self.append(dst, sizes, |work, image| decode(header, body, work, image, image_width, image_height))
    }

    /// Does what [`decode_bitmap_stream_to_pixels`](BitmapStreamDecoder::decode_bitmap_stream_to_pixels) does for a caller that reads the header
    /// byte itself.
    ///
    /// ```
    /// use rdp6::{ABgrChannels, BitmapStreamDecoder, BitmapStreamHeader, ColorPlaneDefinition};
    ///
    /// let color_plane_definition = ColorPlaneDefinition::Argb;
    /// let header = BitmapStreamHeader { enable_rle_compression: false, use_alpha: false, color_plane_definition };
    /// let mut decoder = BitmapStreamDecoder::default();
    /// let mut image = Vec::new();
    /// decoder.decode_body_to_pixels::<ABgrChannels>(header, &[1, 2, 3, 4, 5, 6], &mut image, 2, 1)?;
    /// assert_eq!(image, [255, 5, 3, 1, 255, 6, 4, 2]);
    /// # Ok::<(), rdp6::Refusal>(())
    /// ```
    ///
    /// # Errors
    ///
    /// 1, 2, 3, 4, 7, 8 and 9, as [`decode_pixels`] has them and in its order. No refusal changes `dst`, and nothing is allocated before the
    /// first four are checked.
    ///
    /// # Aborts
    ///
    /// As [`decode_bitmap_stream_to_pixels`](BitmapStreamDecoder::decode_bitmap_stream_to_pixels) does.
    pub fn decode_body_to_pixels<F>(
        &mut self,
        header: BitmapStreamHeader,
        body: &[u8],
        dst: &mut Vec<u8>,
        image_width: usize,
        image_height: usize,
    ) -> Result<(), BitmapDecodeError>
    where
        F: PixelAlpha,
    {
        let sizes = Sizes {
            work: pixels_work_size(header, image_width, image_height),
            image: pixels_image_size(image_width, image_height),
        };
        self.append(dst, sizes, |work, image| decode_pixels::<F>(header, body, work, image, image_width, image_height))
    }

    /// Appends the image that `decode` writes, given a work area and an image of these sizes. If it refuses, `dst` is unchanged.
    fn append(
        &mut self,
        dst: &mut Vec<u8>,
        sizes: Sizes,
        decode: impl Fn(&mut [u8], &mut [u8]) -> Result<usize, Refusal>,
    ) -> Result<(), Refusal> {
        // The refusals before 5, before anything is allocated: with an empty work area and an empty image the next one is 5 or 6.
        match decode(&mut [], &mut []) {
            Err(Refusal::ShortWork | Refusal::ShortImage) => (),
            answer => return answer.map(|_| ()),
        }
        let work = self.work_area(sizes.work);
        let start = dst.len();
        dst.resize(start + sizes.image, 0);
        let answer = decode(work, &mut dst[start..]);
        if answer.is_err() {
            dst.truncate(start);
        }
        answer.map(|_| ())
    }

    /// The first `size` bytes of the work area, which are not cleared.
    fn work_area(&mut self, size: usize) -> &mut [u8] {
        if self.planes_buffer.len() < size {
            self.planes_buffer.resize(size, 0);
        }
        &mut self.planes_buffer[..size]
    }
}

/// The minimum lengths of the work area and the image of a picture.
struct Sizes {
    work: usize,
    image: usize,
}

#[cfg(test)]
mod tests {
    use std::ptr;

    use super::*;

    /// The answer for a raw picture of one pixel, of four bytes.
    fn pixels_answer(definition: u32, level: u32) -> i64 {
        let (body, mut image) = ([1, 2, 3], [0; 4]);
        // SAFETY: the arrays are valid for the call with these lengths and do not overlap; the length of the null pointer is 0.
        unsafe {
            ffi::rdp6_decode_pixels(
                false,
                false,
                definition,
                level,
                false,
                0,
                body.as_ptr(),
                body.len(),
                ptr::null_mut(),
                0,
                image.as_mut_ptr(),
                image.len(),
                1,
                1,
            )
        }
    }

    /// The same of three bytes.
    fn answer(definition: u32, level: u32) -> i64 {
        let (body, mut image) = ([1, 2, 3], [0; 3]);
        // SAFETY: the arrays are valid for the call with these lengths and do not overlap; the length of the null pointer is 0.
        unsafe {
            ffi::rdp6_decode(
                false,
                false,
                definition,
                level,
                false,
                body.as_ptr(),
                body.len(),
                ptr::null_mut(),
                0,
                image.as_mut_ptr(),
                image.len(),
                1,
                1,
            )
        }
    }

    /// A definition or a loss level is refused also if its last byte is an allowed number.
    #[test]
    fn definitions_and_levels_have_32_bits() {
        for level in 1..=7 {
            assert_eq!((answer(1, level), pixels_answer(1, level)), (3, 4), "level {level}");
        }
        for level in [0, 8, 255, 256, 257, 263, 0x1_0001, u32::MAX] {
            assert_eq!((answer(1, level), pixels_answer(1, level)), (-3, -3), "level {level}");
            assert_eq!((answer(0, level), pixels_answer(0, level)), (3, 4), "ARGB, level {level}");
        }
        for definition in [2, 255, 256, 257, 0x1_0000, 0x1_0001, u32::MAX] {
            assert_eq!((answer(definition, 1), pixels_answer(definition, 1)), (-3, -3), "definition {definition}");
            // SAFETY: the functions take only numbers.
            let sizes = unsafe {
                (
                    ffi::rdp6_work_size(true, definition, true, 3, 2),
                    ffi::rdp6_pixels_work_size(true, true, definition, true, 3, 2),
                )
            };
            assert_eq!(sizes, (6 + 2 * 2, 6 + 2 * 2 + 6), "definition {definition}");
        }
    }
}
