//! Smaller streams.

use super::call::lower_side;
use super::{lower, picture};
use crate::picture::OwnedPicture;
use crate::stream::header::{form_of, joined, split, SPARE};
use crate::stream::{OwnedStream, OwnedStreamSize};

/// The picture of a stream. Without a header byte its form is the plainest one.
pub fn picture(case: &OwnedStream) -> OwnedPicture {
    let &OwnedStream { width, height, format, .. } = case;
    let form = form_of(case.stream.first().copied().unwrap_or(0x20));
    let body = split(&case.stream).map_or(Vec::new(), |parts| parts.body.to_vec());
    OwnedPicture { width, height, form, format, body, work: case.work.clone(), image: case.image.clone() }
}

/// Streams that lack a part, then with plainer ignored bits, then what makes the stream's picture smaller. Of these each lowers one and
/// none that stands before it, so shrinking ends.
pub fn smaller<'a>(case: &'a OwnedStream, picture: &'a OwnedPicture) -> impl Iterator<Item = OwnedStream> + 'a {
    let shorter = shorter_streams(&case.stream).map(|stream| OwnedStream { stream, ..case.clone() });
    let plainer = plainer_streams(&case.stream).map(|stream| OwnedStream { stream, ..case.clone() });
    let smaller = picture::smaller(picture).filter_map(|smaller| with_picture(case, smaller));
    shorter.chain(plainer).chain(smaller)
}

/// None, the header byte alone, all but the last byte.
fn shorter_streams(stream: &[u8]) -> impl Iterator<Item = Vec<u8>> + '_ {
    let len = stream.len();
    [0, 1, len.saturating_sub(1)].into_iter().filter(move |&end| end < len).map(|end| stream[..end].to_vec())
}

/// The ignored bits of the header byte 0, or one of them; a lower pad byte.
fn plainer_streams(stream: &[u8]) -> impl Iterator<Item = Vec<u8>> + '_ {
    let first = stream.first().copied().unwrap_or(0);
    let headers = [SPARE, 0x80, 0x40].map(|bits| first & !bits).into_iter().filter(move |&byte| byte != first);
    let pad = split(stream).ok().filter(|parts| !parts.form.rle).map(|_| stream.len() - 1);
    let pads = pad.into_iter().flat_map(move |at| lower(usize::from(stream[at])).map(move |pad| (at, pad as u8)));
    headers.map(|byte| (0, byte)).chain(pads).map(|(at, byte)| with_byte(stream, at, byte))
}

fn with_byte(stream: &[u8], at: usize, byte: u8) -> Vec<u8> {
    let mut changed = stream.to_vec();
    changed[at] = byte;
    changed
}

/// The case with another picture, if that has a header byte. A raw stream keeps its pad byte, and one that was RLE gets one. A stream that
/// lacks a part keeps lacking it.
fn with_picture(case: &OwnedStream, picture: OwnedPicture) -> Option<OwnedStream> {
    let OwnedPicture { width, height, form, format, body, work, image } = picture;
    let (first, last) = (case.stream.first().copied().unwrap_or(0), case.stream.last().copied().unwrap_or(0));
    let pad = if form_of(first).rle { 0 } else { last };
    let mut stream = joined(form, first, &body, pad)?;
    if split(&case.stream).is_err() {
        stream.truncate(case.stream.len());
    }
    Some(OwnedStream { width, height, format, stream, work, image })
}

/// Lower sides, shorter streams, lower header bytes.
pub fn smaller_size(case: &OwnedStreamSize) -> impl Iterator<Item = OwnedStreamSize> + '_ {
    let heights = lower_side(case.height).map(|height| OwnedStreamSize { height, ..case.clone() });
    let widths = lower_side(case.width).map(|width| OwnedStreamSize { width, ..case.clone() });
    let first = case.stream.first().copied().unwrap_or(0);
    let lower = lower(usize::from(first)).map(|byte| with_byte(&case.stream, 0, byte as u8));
    let streams = shorter_streams(&case.stream).chain(lower);
    heights.chain(widths).chain(streams.map(|stream| OwnedStreamSize { stream, ..case.clone() }))
}
