//! Pictures to pack: their planes as channels and as pixels, and the destinations that they are tried with.

use crate::check::{Comparer, Outcome};
use crate::encoding::{Encoding, Sources};
use crate::extent::Extent;
use crate::layout::{Layout, BGRA, STRIDE};
use crate::picture::{Form, Planes};
use crate::planes::{longest_packing, segment_starts, Earlier};
use crate::tally::Kind;

/// Three planes and four.
pub const ALPHAS: [bool; 2] = [false, true];
/// RLE and raw.
pub const FORMS: [bool; 2] = [true, false];

/// The planes as samples.
pub fn channels(planes: &Planes) -> Sources<Vec<u8>> {
    Sources::Channels { colours: planes.colours.clone(), alpha: planes.alpha.clone() }
}

/// The planes as pixels of a layout. Where there is no alpha, A changes from pixel to pixel and must not matter.
pub fn pixels(planes: &Planes, layout: Layout) -> Sources<Vec<u8>> {
    let [r, g, b] = &planes.colours;
    let mut pixels = Vec::with_capacity(STRIDE * r.len());
    for (at, ((&r, &g), &b)) in r.iter().zip(g).zip(b).enumerate() {
        let a = planes.alpha.as_ref().map_or((at * 89 + 7) as u8, |alpha| alpha[at]);
        pixels.extend(layout.pixel([r, g, b, a]));
    }
    Sources::Pixels { pixels, layout, alpha: planes.alpha.is_some() }
}

/// Both. The layout is BGRA; `layouts` has the others.
pub fn both(planes: &Planes) -> [Sources<Vec<u8>>; 2] {
    [channels(planes), pixels(planes, BGRA)]
}

/// The form that the planes are chosen by: three or four of the picture's sides.
pub fn form(alpha: bool) -> Form {
    Form::argb(true, alpha)
}

/// Both entries of a picture, RLE and raw, with the rooms that are chosen for each.
pub fn in_rooms<Rooms: IntoIterator<Item = usize>>(
    comparer: &mut Comparer,
    earlier: &mut Earlier,
    (kind, extent): (Kind, Extent),
    sides: (usize, usize),
    planes: &Planes,
    rooms: impl Fn(Encoding<&[u8]>) -> Rooms,
) -> Outcome {
    for (sources, rle) in both(planes).iter().flat_map(|sources| FORMS.map(|rle| (sources, rle))) {
        let case = given(extent, rle, sides, sources.view());
        for room in rooms(case) {
            case.compare_in(comparer, earlier, kind, room)?;
        }
    }
    Ok(())
}

/// What is given to an encoder without a destination.
pub fn given(extent: Extent, rle: bool, (width, height): (usize, usize), sources: Sources<&[u8]>) -> Encoding<&[u8]> {
    Encoding { extent, width, height, rle, sources, before: &[] }
}

impl Encoding<&[u8]> {
    /// The body that IronRDP makes of the first width times height samples if there is room. Nothing is refused at entry.
    pub fn packing(self) -> Vec<u8> {
        let mut after = vec![0; 2 + self.sources.planes() * longest_packing(self.width, self.height)];
        let encoded = self.with_first_samples().by_ironrdp(&mut after).expect("a layout that IronRDP has");
        let count = encoded.body_answer().number().expect("complete planes with room");
        after.drain(1..).take(usize::try_from(count).expect("a count")).collect()
    }

    /// The same case with a destination that has so many bytes for the body, compared; a stream for whose body there is none is also
    /// compared with a destination that is empty.
    pub fn compare_in(self, comparer: &mut Comparer, earlier: &mut Earlier, kind: Kind, room: usize) -> Outcome {
        if self.extent == Extent::Stream && room == 0 {
            comparer.compare_encoding(kind, Encoding { before: &[], ..self })?;
        }
        let before = earlier.bytes(room + self.extent.header_len());
        comparer.compare_encoding(kind, Encoding { before, ..self })
    }

    /// With the rooms around each limit: for RLE the end of each segment of each plane, up to so many of them; for a raw picture
    /// what it needs, what it would need without the last byte, with another number of planes, and the end of each plane.
    pub fn rooms(self, segments: usize) -> Vec<usize> {
        let packing = self.packing();
        let len = packing.len();
        let plane = self.width * self.height;
        let mut rooms = vec![0, 1, len - 1, len, len + 1, len + 100];
        if len <= EVERY_ROOM {
            rooms.extend(0..=len);
        } else if self.rle {
            let starts = segment_starts(&packing);
            let step = starts.len().div_ceil(segments);
            rooms.extend(starts.iter().step_by(step).flat_map(|&at| [at.saturating_sub(1), at, at + 1]));
        }
        if !self.rle {
            rooms.extend((1..=5).flat_map(|planes| [planes * plane - 1, planes * plane, planes * plane + 1]));
        }
        rooms.sort_unstable();
        rooms.dedup();
        rooms
    }
}

/// Packings up to this length are tried with every room.
const EVERY_ROOM: usize = 40;
