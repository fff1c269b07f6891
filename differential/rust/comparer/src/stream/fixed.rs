//! The part that is the same in every run: every header byte, streams that lack one of their parts, refusals and their order, sizes; and
//! pictures that are compared as bodies too.

use crate::case::{BOUNDARY_SIDES, MAX_SIDE};
use crate::check::{Comparer, Outcome};
use crate::extent::Extent;
use crate::layout::{Format, LAYOUTS, UNKNOWN};
use crate::picture::planes::{Befores, Formats, Sent};
use crate::picture::{fixed, refused, Planes};
use crate::planes::PlaneKind;
use crate::rng::Rng;
use crate::stream::header::{form_of, joined};
use crate::stream::{examples, StreamSize};
use crate::strings::each_string;
use crate::tally::Kind;

pub fn run(comparer: &mut Comparer) -> Outcome {
    let befores = &mut Befores::new(Extent::Stream, Formats::Rgb24);
    examples::run(comparer)?;
    sizes(comparer, false)?;
    run_of(comparer, befores)
}

/// The same streams unpacked to four-byte pixels, and what is about these alone.
pub fn run_pixels(comparer: &mut Comparer) -> Outcome {
    let befores = &mut Befores::new(Extent::Stream, Formats::pixels());
    examples::run_pixels(comparer)?;
    sizes(comparer, true)?;
    unknown_layouts(comparer, befores)?;
    run_of(comparer, befores)?;
    refused::run_layouts(comparer, befores)?;
    fixed::array_widths(comparer, befores)
}

fn run_of(comparer: &mut Comparer, befores: &mut Befores) -> Outcome {
    short_streams(comparer, befores)?;
    missing_parts(comparer, befores)?;
    every_header(comparer, befores)?;
    other_headers(comparer, befores)?;
    fixed::run_of(comparer, befores)
}

/// The size of the work area for every header byte at all pairs of boundary sides; the bytes behind the header byte have no effect.
fn sizes(comparer: &mut Comparer, four_bytes: bool) -> Outcome {
    for (width, height) in BOUNDARY_SIDES.into_iter().flat_map(|width| BOUNDARY_SIDES.map(|height| (width, height))) {
        comparer.compare_stream_size(Kind::SizesTable, StreamSize { width, height, four_bytes, stream: &[] })?;
        for byte in 0..=255 {
            for stream in [&[byte][..], &[byte, byte ^ 0x10, 0xFF]] {
                comparer.compare_stream_size(Kind::SizesTable, StreamSize { width, height, four_bytes, stream })?;
            }
        }
    }
    Ok(())
}

/// The sides of the smallest pictures.
const SMALL: [(usize, usize); 3] = [(1, 1), (2, 1), (3, 3)];

/// All streams of up to two bytes, with buffers that are long enough and with none.
fn short_streams(comparer: &mut Comparer, befores: &mut Befores) -> Outcome {
    let bytes: Vec<u8> = (0..=255).collect();
    for len in 0..=2 {
        each_string(&bytes, len, &mut |stream| {
            let at = stream.iter().map(|&byte| usize::from(byte)).sum::<usize>();
            let most = befores.most(1, 1);
            befores.compare_stream(comparer, Kind::StreamShort, (1, 1), stream, (most, most))?;
            befores.compare_stream(comparer, Kind::StreamShort, SMALL[at % 3], stream, (0, 0))
        })?;
    }
    Ok(())
}

const STREAMS: [&[u8]; 9] = [&[], &[0x20], &[0x00], &[0xEF], &[0x30], &[0x1B], &[0x20, 0], &[0x09, 5], &[0xF8, 0xF2]];

/// The same with every layout and with those that there are not: 13 and 14 come before 1, 1 and 2 before 3, 3 before all others.
fn unknown_layouts(comparer: &mut Comparer, befores: &mut Befores) -> Outcome {
    for (layout, stream) in LAYOUTS.into_iter().chain(UNKNOWN).flat_map(|layout| STREAMS.map(|stream| (layout, stream)))
    {
        for sides in [(0, 0), (0, 1), (1, 0), (1, 1), (2, 3), (MAX_SIDE + 1, 1), (1, MAX_SIDE + 1), (0, MAX_SIDE + 1)] {
            for room in [(0, 0), (9, 0), (0, 9), (64, 64)] {
                let (format, case) = (Format::Pixels(layout), (sides, stream));
                befores.compare_stream_to(comparer, Kind::PictureLayouts, format, case, room)?;
            }
        }
    }
    Ok(())
}

/// Streams that lack the header byte, the pad byte or the body, with sides and buffers right and wrong.
fn missing_parts(comparer: &mut Comparer, befores: &mut Befores) -> Outcome {
    let sides = || BOUNDARY_SIDES.into_iter().chain([MAX_SIDE + 2, 47]);
    for (width, height) in sides().flat_map(|width| sides().map(move |height| (width, height))) {
        for (stream, room) in
            STREAMS.into_iter().flat_map(|stream| [(0, 0), (9, 0), (0, 9), (64, 64)].map(|room| (stream, room)))
        {
            befores.compare_stream(comparer, Kind::StreamRefused, (width, height), stream, room)?;
        }
    }
    Ok(())
}

/// Every header byte with small pictures: streams that are complete, one byte shorter and longer, and truncated to a byte or two; in buffers
/// that are exact, one byte shorter and longer.
fn every_header(comparer: &mut Comparer, befores: &mut Befores) -> Outcome {
    let rng = &mut Rng::new(41);
    for (byte, (width, height)) in (0..=255).flat_map(|byte| SMALL.map(|sides| (byte, sides))) {
        let form = form_of(byte);
        let body = Planes::with_kinds(rng, form, (width, height), &[PlaneKind::Noise]).body(form, width, height);
        let mut stream = joined(form, byte, &body, rng.byte()).expect("every byte has a form");
        let complete = stream.len();
        stream.push(rng.byte());
        let (work, image) = befores.needs(Sent { width, height, form, body: &body });
        for end in [1, 2, complete - 1, complete, complete + 1] {
            for room in [
                (work, image),
                (work + 1, image + 1),
                (work.saturating_sub(1), image),
                (work, image - 1),
                (work.saturating_sub(1), image - 1),
            ] {
                befores.compare_stream(comparer, Kind::StreamHeaders, (width, height), &stream[..end], room)?;
            }
        }
    }
    Ok(())
}

/// Complete streams whose header byte is changed to all others, in buffers that are long enough for all of them.
fn other_headers(comparer: &mut Comparer, befores: &mut Befores) -> Outcome {
    let rng = &mut Rng::new(42);
    for (width, height) in [(1, 1), (2, 2), (3, 2), (5, 3)] {
        for form in refused::few_forms() {
            let body = Planes::random(rng, form, width, height).body(form, width, height);
            let mut stream = joined(form, 0, &body, 0).expect("a form inside the domain");
            let needed = befores.most(width, height);
            for byte in 0..=255 {
                stream[0] = byte;
                befores.compare_stream(comparer, Kind::StreamHeaders, (width, height), &stream, (needed, needed))?;
            }
        }
    }
    Ok(())
}
