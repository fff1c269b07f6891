//! Makes a case of an entry from any bytes, such as a fuzzer's. The first bytes choose sides, lengths and forms; each has a fixed place,
//! so that a fuzzer that changes one byte changes one choice. The rest fills the buffers.

use crate::entry::Entry;
use comparer::case::{Operation, BOUNDARY_SIDES, MAX_SIDE};
use comparer::encoding::{Encoding, OwnedEncoding, Sources};
use comparer::picture::{Form, OwnedPicture, Sizes};
use comparer::planes::counts;
use comparer::stream::header::{form_of, joined};
use comparer::stream::{OwnedStream, OwnedStreamSize};
use comparer::{Extent, Format, Input, Layout, Owned};

/// A plane inside the domain has at most so many samples, so that no case takes long.
const MOST_SAMPLES: usize = 1 << 13;

/// The length of a buffer where the sides are refused.
const SOME: usize = 24;

/// The case that these bytes make.
pub fn case_from_bytes(entry: Entry, bytes: &[u8]) -> Input {
    let mut maker = CaseMaker { rest: bytes, at: 0 };
    match entry {
        Entry::Unpack => maker.unpack(),
        Entry::Pack => maker.pack(),
        Entry::Decode => maker.decode(false),
        Entry::Sizes => maker.sizes(false),
        Entry::DecodePixels => maker.decode(true),
        Entry::PixelsSizes => maker.sizes(true),
        Entry::Channels => maker.channels(Extent::Body, false),
        Entry::ChannelsAlpha => maker.channels(Extent::Body, true),
        Entry::Bitmap => maker.bitmap(Extent::Body, false),
        Entry::BitmapAlpha => maker.bitmap(Extent::Body, true),
        Entry::StreamDecode => maker.stream_decode(false),
        Entry::StreamWorkSize => maker.stream_work_size(false),
        Entry::StreamDecodePixels => maker.stream_decode(true),
        Entry::StreamPixelsWorkSize => maker.stream_work_size(true),
        Entry::StreamChannels => maker.channels(Extent::Stream, false),
        Entry::StreamChannelsAlpha => maker.channels(Extent::Stream, true),
        Entry::StreamBitmap => maker.bitmap(Extent::Stream, false),
        Entry::StreamBitmapAlpha => maker.bitmap(Extent::Stream, true),
    }
}

/// How a body of RLE planes comes about.
enum Making {
    /// The bytes as they are.
    Plain,
    /// Segments that fit their rows, by the bytes.
    Fitted,
    /// The bytes as samples, packed by IronRDP.
    Packed,
}

/// The bytes of a case. Those that choose are taken from the front; the rest fills buffers, repeated if it is short.
struct CaseMaker<'a> {
    rest: &'a [u8],
    at: usize,
}

impl CaseMaker<'_> {
    fn byte(&mut self) -> u8 {
        let Some((&first, rest)) = self.rest.split_first() else {
            return 0;
        };
        self.rest = rest;
        first
    }

    /// The next byte of what fills buffers.
    fn next(&mut self) -> u8 {
        let byte = self.rest.get(self.at).copied().unwrap_or(0);
        self.at = if self.at + 1 < self.rest.len() { self.at + 1 } else { 0 };
        byte
    }

    fn bytes(&mut self, count: usize) -> Vec<u8> {
        (0..count).map(|_| self.next()).collect()
    }

    /// Mostly a small side, sometimes one at a limit or beyond.
    fn side(&mut self) -> usize {
        let (form, value) = (self.byte(), usize::from(self.byte()));
        match form {
            0..=191 => 1 + value % 32,
            192..=231 => 1 + value,
            _ => BOUNDARY_SIDES[value % BOUNDARY_SIDES.len()],
        }
    }

    fn sides(&mut self) -> (usize, usize) {
        let (width, height) = (self.side(), self.side());
        if is_inside(width, height) {
            (width, height.min(MOST_SAMPLES / width).max(1))
        } else {
            (width, height)
        }
    }

    /// Mostly this length, sometimes one that is a little or much shorter or longer.
    fn length(&mut self, exact: usize) -> usize {
        let byte = self.byte();
        let low = usize::from(byte & 15);
        match byte >> 4 {
            0..=8 => exact,
            9 => exact + 1,
            10 => exact.saturating_sub(1),
            11 => exact + low,
            12 => exact.saturating_sub(low),
            13 => exact * low / 16,
            14 => low,
            _ => 0,
        }
    }

    /// What a buffer holds before a call: different from place to place and from case to case.
    fn before(&mut self, len: usize) -> Vec<u8> {
        let seed = u64::from(self.byte()) << 32;
        (0..len as u64).map(|at| ((at + seed).wrapping_mul(0x9E37_79B9_7F4A_7C15) >> 53) as u8).collect()
    }

    fn making(&mut self) -> Making {
        match self.byte() % 4 {
            0 | 1 => Making::Plain,
            2 => Making::Fitted,
            _ => Making::Packed,
        }
    }

    /// A body of planes of these sides, which are inside the domain, perhaps truncated, longer or with a byte changed.
    fn body(&mut self, planes: &[(usize, usize)]) -> Vec<u8> {
        let (making, harm, place, value) = (self.making(), self.byte(), self.byte(), self.byte());
        let mut body = Vec::new();
        for &(width, height) in planes {
            match making {
                Making::Plain => {
                    body = self.rest.to_vec();
                    break;
                }
                Making::Fitted => self.fitted(width, height, &mut body),
                Making::Packed => {
                    let samples = self.bytes(width * height);
                    body.extend(original::pack(&samples, width, height).expect("complete planes with room"));
                }
            }
        }
        harmed(body, harm, usize::from(place), value)
    }

    /// Rows of segments by the bytes; one that would not fit its row has raw bytes instead.
    fn fitted(&mut self, width: usize, height: usize, body: &mut Vec<u8>) {
        for _ in 0..height {
            let mut left = width;
            while left > 0 {
                let mut control = self.next();
                let (raw, run) = counts(control);
                if control == 0 || raw + run > left {
                    control = (left.min(15) << 4) as u8;
                }
                let (raw, run) = counts(control);
                body.push(control);
                body.extend((0..raw).map(|_| self.next()));
                left -= raw + run;
            }
        }
    }

    fn unpack(&mut self) -> Input {
        let (width, height) = self.sides();
        let room = self.length(samples(width, height));
        let before = self.before(room);
        let planes = if is_inside(width, height) { vec![(width, height)] } else { Vec::new() };
        let source = self.body(&planes);
        Input::Call(Owned { operation: Operation::Unpack, width, height, source, before })
    }

    fn pack(&mut self) -> Input {
        let (width, height) = self.sides();
        let len = self.length(samples(width, height));
        let (by_packing, room) = (self.byte() & 1 == 0, self.byte());
        let seed = self.byte();
        let source = self.bytes(len);
        let packed = if is_inside(width, height) && by_packing && len >= width * height {
            original::pack(&source, width, height).map_or(0, |packing| packing.len())
        } else {
            2 * samples(width, height)
        };
        let before = with_byte(room, |maker| maker.length(packed));
        let before = with_byte(seed, |maker| maker.before(before));
        Input::Call(Owned { operation: Operation::Pack, width, height, source, before })
    }

    /// Mostly a definition and a level inside the domain, sometimes others, also such as do not fit a byte.
    fn form(&mut self) -> Form {
        let (flags, definition, level) = (self.byte(), self.byte(), self.byte());
        let flag = |bit: u8| flags >> bit & 1 == 1;
        let definition = match definition {
            0..=215 => u32::from(definition % 2),
            216..=223 => u32::from(definition),
            _ => wide_number(definition),
        };
        let level = match level {
            0..=191 => u32::from(level % 8),
            192..=223 => u32::from(level),
            _ => wide_number(level),
        };
        Form { rle: flag(0), alpha: flag(1), definition, level, subsampled: flag(2) }
    }

    /// Mostly a layout that there is, sometimes another, also such as does not fit a byte.
    fn layout(&mut self) -> Layout {
        let byte = self.byte();
        Layout(match byte {
            0..=215 => u32::from(byte % 4),
            216..=223 => u32::from(byte),
            _ => wide_number(byte),
        })
    }

    fn format(&mut self, four_bytes: bool) -> Format {
        if four_bytes {
            Format::Pixels(self.layout())
        } else {
            Format::Rgb24
        }
    }

    fn decode(&mut self, four_bytes: bool) -> Input {
        let (form, format, sides) = (self.form(), self.format(four_bytes), self.sides());
        Input::Picture(self.picture(form, format, sides))
    }

    /// Mostly a complete stream, with any header byte, sometimes its first bytes alone.
    fn stream_decode(&mut self, four_bytes: bool) -> Input {
        let (header, format, sides, cut) = (self.byte(), self.format(four_bytes), self.sides(), self.byte());
        let form = form_of(header);
        let OwnedPicture { width, height, body, work, image, .. } = self.picture(form, format, sides);
        let mut stream = joined(form, header, &body, cut).expect("every byte has a form");
        if cut >= 232 {
            stream.truncate(usize::from(cut % 4));
        }
        Input::Stream(OwnedStream { width, height, format, stream, work, image })
    }

    /// A picture of a form and of sides.
    fn picture(&mut self, form: Form, format: Format, (width, height): (usize, usize)) -> OwnedPicture {
        let inside = is_inside(width, height);
        let (min_work, min_body) = match inside {
            true => (form.work_len(format, width, height), form.min_body(width, height)),
            false => (SOME, SOME),
        };
        let work_len = self.length(min_work);
        let image_len = self.length(format.bytes() * samples(width, height));
        let body_len = self.byte();
        let (work, image) = (self.before(work_len), self.before(image_len));
        let body = if form.rle && inside {
            self.body(&planes_of(form, width, height))
        } else {
            let len = with_byte(body_len, |maker| maker.length(min_body));
            self.bytes(len)
        };
        OwnedPicture { width, height, form, format, body, work, image }
    }

    fn sizes(&mut self, four_bytes: bool) -> Input {
        let Form { rle, alpha, definition, subsampled, .. } = self.form();
        let (width, height) = self.any_sides();
        let alpha = four_bytes.then_some(alpha);
        Input::Sizes(Sizes { width, height, rle, alpha, definition, subsampled })
    }

    /// A stream of up to three bytes.
    fn stream_work_size(&mut self, four_bytes: bool) -> Input {
        let len = usize::from(self.byte() % 4);
        let (width, height) = self.any_sides();
        Input::StreamSize(OwnedStreamSize { width, height, four_bytes, stream: self.bytes(len) })
    }

    /// Sides of which buffers need not be made.
    fn any_sides(&mut self) -> (usize, usize) {
        match self.byte() % 4 {
            0 => (self.word(), self.word()),
            _ => (self.side(), self.side()),
        }
    }

    /// Any number, its high bytes last, so that few bytes make a small one.
    fn word(&mut self) -> usize {
        (0..8).map(|at| usize::from(self.byte()) << (8 * at)).sum()
    }

    fn channels(&mut self, extent: Extent, alpha: bool) -> Input {
        let (rle, (width, height)) = (self.byte() & 3 != 0, self.sides());
        let lens: [usize; 4] = std::array::from_fn(|_| self.length(samples(width, height)));
        let (by_packing, room, seed) = (self.byte() & 1 == 0, self.byte(), self.byte());
        let colours = [self.bytes(lens[0]), self.bytes(lens[1]), self.bytes(lens[2])];
        let alpha = alpha.then(|| self.bytes(lens[3]));
        let sources = Sources::Channels { colours, alpha };
        encoding(Encoding { extent, width, height, rle, sources, before: Vec::new() }, (by_packing, room, seed))
    }

    fn bitmap(&mut self, extent: Extent, alpha: bool) -> Input {
        let (rle, layout, (width, height)) = (self.byte() & 3 != 0, self.layout(), self.sides());
        let len = self.length(4 * samples(width, height));
        let (by_packing, room, seed) = (self.byte() & 1 == 0, self.byte(), self.byte());
        let pixels = self.bytes(len);
        let sources = Sources::Pixels { pixels, layout, alpha };
        encoding(Encoding { extent, width, height, rle, sources, before: Vec::new() }, (by_packing, room, seed))
    }
}

/// A number that does not fit a byte, and most of which are 0 to 7 if they are truncated to one byte or two.
fn wide_number(byte: u8) -> u32 {
    let low = u32::from(byte & 7);
    match byte >> 3 & 3 {
        0 => (1 << 8) + low,
        1 => (1 << 16) + low,
        2 => (1 << 31) + low,
        _ => u32::MAX - low,
    }
}

/// What a byte chooses that was taken from the front before.
fn with_byte<T>(byte: u8, choose: impl FnOnce(&mut CaseMaker<'_>) -> T) -> T {
    choose(&mut CaseMaker { rest: &[byte], at: 0 })
}

fn is_inside(width: usize, height: usize) -> bool {
    (1..=MAX_SIDE).contains(&width) && (1..=MAX_SIDE).contains(&height)
}

/// The samples of a plane, or `SOME` where the sides are refused.
fn samples(width: usize, height: usize) -> usize {
    if is_inside(width, height) {
        width * height
    } else {
        SOME
    }
}

/// The sides of each plane of an RLE picture, in their order.
fn planes_of(form: Form, width: usize, height: usize) -> Vec<(usize, usize)> {
    let chroma = form.chroma_sides(width, height);
    let mut planes = vec![(width, height); 1 + usize::from(form.alpha)];
    planes.extend([chroma, chroma]);
    planes
}

fn harmed(mut body: Vec<u8>, harm: u8, place: usize, value: u8) -> Vec<u8> {
    let at = if body.is_empty() { 0 } else { place * body.len() / 256 };
    match harm % 8 {
        0 => body.truncate(at),
        1 => body.truncate(body.len().saturating_sub(1 + place % 4)),
        2 => body.extend(std::iter::repeat_n(value, 1 + place % 40)),
        3 if !body.is_empty() => body[at] = value,
        _ => {}
    }
    body
}

/// A picture to pack into a destination that is chosen by the length of its packing, or by what is always enough.
fn encoding(case: OwnedEncoding, (by_packing, room, seed): (bool, u8, u8)) -> Input {
    let exact = if by_packing && case.refused_at_entry().is_none() {
        case.view().packing().len()
    } else {
        2 * case.sources.planes() * samples(case.width, case.height) + 1
    };
    let len = with_byte(room, |maker| maker.length(case.extent.header_len() + exact));
    let before = with_byte(seed, |maker| maker.before(len));
    Input::Encoding(Encoding { before, ..case })
}

#[cfg(test)]
mod tests {
    use super::case_from_bytes;
    use crate::entry::{Entry, ENTRIES};
    use comparer::{Format, Input, Rng};
    use std::collections::BTreeSet;

    /// Any bytes make a case, and the case's text is read as the same case.
    #[test]
    fn every_input_is_a_case() {
        let mut rng = Rng::new(5);
        for entry in ENTRIES {
            for len in 0..60 {
                let case = case_from_bytes(entry, &rng.bytes(len));
                assert_eq!(Input::parse(&case.to_string()), Some(case));
            }
        }
    }

    /// Most streams are complete, and some lack a part.
    #[test]
    fn streams_of_every_header_byte_and_without_one_are_reached() {
        let (mut headers, mut refused) = (BTreeSet::new(), BTreeSet::new());
        let mut rng = Rng::new(6);
        for byte in 0..=255_u8 {
            let bytes = [&[byte, 0, 0, 0, 0, byte.wrapping_mul(89)], &rng.bytes(40)[..]].concat();
            let Input::Stream(case) = case_from_bytes(Entry::StreamDecode, &bytes) else { panic!("no stream") };
            headers.extend(case.stream.first().copied());
            refused.insert(case.view().refused_outside());
            let Input::StreamSize(case) = case_from_bytes(Entry::StreamWorkSize, &bytes) else { panic!("no size") };
            assert_eq!(case.stream.len(), usize::from(byte % 4));
        }
        assert!(headers.len() > 200, "{} header bytes", headers.len());
        assert!([None, Some(13), Some(14)].iter().all(|answer| refused.contains(answer)), "{refused:?}");
    }

    /// Of a packer from pixels the second byte chooses the layout, of four-byte pixels the fourth, of a stream the second.
    #[test]
    fn layouts_of_every_width_are_reached() {
        let (mut packed, mut unpacked, mut streams) = (BTreeSet::new(), BTreeSet::new(), BTreeSet::new());
        for byte in 0..=255 {
            let Input::Encoding(case) = case_from_bytes(Entry::Bitmap, &[0, byte]) else { panic!("no packing") };
            packed.extend(case.sources.layout().map(|layout| layout.0));
            let Input::Picture(case) = case_from_bytes(Entry::DecodePixels, &[0, 0, 0, byte]) else {
                panic!("no picture")
            };
            unpacked.insert(number(case.format));
            let Input::Stream(case) = case_from_bytes(Entry::StreamDecodePixels, &[0, byte]) else {
                panic!("no stream")
            };
            streams.insert(number(case.format));
        }
        for layout in [0, 1, 2, 3, 216, 223, 256, 257, 65_536, 65_537, 1 << 31, u32::MAX - 1, u32::MAX] {
            let reached = [&packed, &unpacked, &streams].iter().all(|layouts| layouts.contains(&layout));
            assert!(reached, "no layout {layout}");
        }
    }

    /// The number of a format's layout.
    fn number(format: Format) -> u32 {
        match format {
            Format::Pixels(layout) => layout.0,
            Format::Rgb24 => panic!("three bytes"),
        }
    }

    /// The second byte chooses the definition, the third one the level.
    #[test]
    fn definitions_and_levels_of_every_width_are_reached() {
        let (mut definitions, mut levels) = (BTreeSet::new(), BTreeSet::new());
        for byte in 0..=255 {
            let Input::Picture(case) = case_from_bytes(Entry::Decode, &[0, byte, byte]) else { panic!("no picture") };
            definitions.insert(case.form.definition);
            levels.insert(case.form.level);
            let Input::Sizes(sizes) = case_from_bytes(Entry::Sizes, &[0, byte]) else { panic!("no sizes") };
            assert_eq!(sizes.definition, case.form.definition);
        }
        for number in [0, 1, 216, 223, 256, 257, 65_536, 65_537, 1 << 31, (1 << 31) + 1, u32::MAX - 1, u32::MAX] {
            assert!(definitions.contains(&number), "no definition {number}");
        }
        for number in [0, 1, 7, 192, 223, 256, 257, 263, 65_537, (1 << 31) + 1, u32::MAX - 1, u32::MAX] {
            assert!(levels.contains(&number), "no level {number}");
        }
    }
}
