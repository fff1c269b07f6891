//! RLE planes (MS-RDPEGDI 3.1.9.2).

use crate::answer::to_result;
use crate::ffi;
use crate::Refusal;

/// IronRDP's name for its error. Here it is a refusal of [`decompress_8bpp_plane`]: 1, 2, 7, 8, 9 or 10.
pub type RleDecodeError = Refusal;

/// IronRDP's name for its error. Here it is a refusal of [`compress_8bpp_plane`]: 1, 2, 11 or 12.
pub type RleEncodeError = Refusal;

/// Unpacks an RLE plane of `width` × `height` samples from `src` into the first bytes of `dst`, row by row, and returns the
/// number of bytes that its segments take. What follows them in `src` may be read, but has no effect. The bytes of `dst` behind the
/// plane are unchanged.
///
/// ```
/// let body = [0x1F, 0x09, 0x10, 0x09, 0x1F, 0x02, 0x10, 0x02];
/// let mut plane = [0; 34];
/// assert_eq!(rdp6::rle::decompress_8bpp_plane(&body, &mut plane, 17, 2), Ok(8));
/// assert_eq!(plane[..17], [9; 17]);
/// assert_eq!(plane[17..], [10; 17]);
/// ```
///
/// # Errors
///
/// In the order in which they are checked:
///
/// | Number | Condition | `dst` |
/// |---|---|---|
/// | 1 | `width` or `height` is 0 | unchanged |
/// | 2 | `width` or `height` is over 8,192 | unchanged |
/// | 10 | `dst` is shorter than `width` × `height` | unchanged |
/// | 7 | a control byte or a raw byte is missing | the rows before are complete; the refused row has the coded values (docs/FORMAT.md, 4.1) of its earlier segments, the row above not yet added; the rest is unchanged |
/// | 8 | a control byte is 0 | the same |
/// | 9 | a segment overruns its row | the same |
///
/// Within one segment: missing control byte (7), control byte 0 (8), missing raw bytes (7), then 9.
pub fn decompress_8bpp_plane(src: &[u8], dst: &mut [u8], width: usize, height: usize) -> Result<usize, RleDecodeError> {
    // SAFETY: both slices are valid for the call with these lengths, and nothing keeps them; `dst`, a `&mut`, overlaps no other.
    let answer =
        unsafe { ffi::rdp6_decompress_8bpp_plane(src.as_ptr(), src.len(), dst.as_mut_ptr(), dst.len(), width, height) };
    to_result(answer)
}

/// Packs the first `width` × `height` samples of `src`, row by row, as an RLE plane into the first bytes of `dst`, and returns
/// the number of bytes written. What follows the samples is not read, and the bytes of `dst` behind the packing are unchanged.
///
/// At most two bytes a sample are written: with a `dst` of 2 × `width` × `height` bytes there is no refusal 12.
///
/// IronRDP's function takes an iterator of samples and a cursor. Here both are slices; for a cursor that is `&mut bytes[position..]`.
///
/// ```
/// let mut packed = [0; 40];
/// let n = rdp6::rle::compress_8bpp_plane(&[9; 20], &mut packed, 20, 1)?;
/// assert_eq!(packed[..n], [0x1F, 0x09, 0x13, 0x09]);
/// # Ok::<(), rdp6::Refusal>(())
/// ```
///
/// # Errors
///
/// In the order in which they are checked:
///
/// | Number | Condition | `dst` |
/// |---|---|---|
/// | 1 | `width` or `height` is 0 | unchanged |
/// | 2 | `width` or `height` is over 8,192 | unchanged |
/// | 11 | `src` is shorter than `width` × `height` | unchanged |
/// | 12 | the next segment does not fit | the segments before it are written; the rest is unchanged |
pub fn compress_8bpp_plane(src: &[u8], dst: &mut [u8], width: usize, height: usize) -> Result<usize, RleEncodeError> {
    // SAFETY: both slices are valid for the call with these lengths, and nothing keeps them; `dst`, a `&mut`, overlaps no other.
    let answer =
        unsafe { ffi::rdp6_compress_8bpp_plane(src.as_ptr(), src.len(), dst.as_mut_ptr(), dst.len(), width, height) };
    to_result(answer)
}
