//! What is measured: the same call of IronRDP and of the library, from the same source into the same buffers.

use comparer::encoding::given::pixels;
use comparer::encoding::Sources;
use comparer::layout::BGRA;
use comparer::picture::{Form, Planes};
use comparer::planes::longest_packing;
use comparer::stream::header::joined;
use comparer::{Extent, Format};
use original::{Answer, Encoded};
use std::hint::black_box;

#[derive(Clone, Copy)]
pub enum Entry {
    UnpackPlane,
    PackPlane,
    Unpack(Form, Extent),
    /// From pixels of B, G, R and A, of which three planes are packed.
    PackPixels {
        rle: bool,
        extent: Extent,
    },
    PackChannels {
        rle: bool,
        extent: Extent,
    },
}

const LEVEL: u32 = 3;

/// The entries with their names, in the order of the tables.
pub fn entries() -> [(&'static str, Entry); 9] {
    let extent = Extent::Body;
    [
        ("plane unpack", Entry::UnpackPlane),
        ("plane pack", Entry::PackPlane),
        ("picture unpack, RLE ARGB", Entry::Unpack(Form::argb(true, false), extent)),
        ("picture unpack, raw AYCoCg", Entry::Unpack(Form::aycocg(false, false, LEVEL, false), extent)),
        ("picture unpack, raw AYCoCg subsampled", Entry::Unpack(Form::aycocg(false, false, LEVEL, true), extent)),
        ("picture pack, RLE, pixels", Entry::PackPixels { rle: true, extent }),
        ("picture pack, raw, pixels", Entry::PackPixels { rle: false, extent }),
        ("picture pack, RLE, channels", Entry::PackChannels { rle: true, extent }),
        ("picture pack, raw, channels", Entry::PackChannels { rle: false, extent }),
    ]
}

/// The same of whole streams. What is done for a body is the most of it, so one kind of picture is enough.
pub fn stream_entries() -> [(&'static str, Entry); 6] {
    let extent = Extent::Stream;
    [
        ("stream unpack, RLE ARGB", Entry::Unpack(Form::argb(true, false), extent)),
        ("stream unpack, raw ARGB", Entry::Unpack(Form::argb(false, false), extent)),
        ("stream pack, RLE, pixels", Entry::PackPixels { rle: true, extent }),
        ("stream pack, raw, pixels", Entry::PackPixels { rle: false, extent }),
        ("stream pack, RLE, channels", Entry::PackChannels { rle: true, extent }),
        ("stream pack, raw, channels", Entry::PackChannels { rle: false, extent }),
    ]
}

/// What a call writes to: the work area of a picture, and the output, which to IronRDP's decoder is a vector that keeps what it has
/// allocated.
pub struct Buffers {
    pub work: Vec<u8>,
    pub out: Vec<u8>,
}

/// R, G and B, one behind the other.
fn thirds(source: &[u8]) -> [&[u8]; 3] {
    let third = source.len() / 3;
    [0, 1, 2].map(|at| &source[at * third..][..third])
}

impl Entry {
    /// The form that a picture of this entry has.
    pub fn form(self) -> Form {
        match self {
            Entry::Unpack(form, _) => form,
            _ => Form::argb(true, false),
        }
    }

    /// The source of a call: a picture, or its first plane.
    pub fn source(self, planes: &Planes, side: usize) -> Vec<u8> {
        let [first, _, _] = &planes.colours;
        match self {
            Entry::UnpackPlane => original::pack(first, side, side).expect("a complete plane with room"),
            Entry::PackPlane => first.clone(),
            Entry::Unpack(form, Extent::Body) => planes.body(form, side, side),
            Entry::Unpack(form, Extent::Stream) => {
                joined(form, 0, &planes.body(form, side, side), 0).expect("a form that has a header byte")
            }
            Entry::PackChannels { .. } => planes.colours.concat(),
            Entry::PackPixels { .. } => match pixels(planes, BGRA) {
                Sources::Pixels { pixels, .. } => pixels,
                Sources::Channels { .. } => unreachable!("pixels"),
            },
        }
    }

    /// Buffers that have room for any result.
    pub fn buffers(self, side: usize) -> Buffers {
        let room = match self {
            Entry::UnpackPlane => side * side,
            Entry::PackPlane => longest_packing(side, side),
            Entry::Unpack(..) => 3 * side * side,
            Entry::PackPixels { .. } | Entry::PackChannels { .. } => 2 + 3 * longest_packing(side, side),
        };
        let work = match self {
            Entry::Unpack(form, _) => form.work_len(Format::Rgb24, side, side),
            _ => 0,
        };
        Buffers { work: vec![0; work], out: vec![0; room] }
    }

    /// Where the output stands: behind the byte that IronRDP writes as a header where the library packs a body.
    pub fn start(self) -> usize {
        match self {
            Entry::PackPixels { extent, .. } | Entry::PackChannels { extent, .. } => 1 - extent.header_len(),
            _ => 0,
        }
    }

    /// How long the output is, by the answer.
    pub fn output_len(self, answer: i64, side: usize) -> usize {
        match self {
            Entry::UnpackPlane => side * side,
            _ => usize::try_from(answer).expect("a count"),
        }
    }

    /// IronRDP's answer as one number.
    pub fn by_ironrdp(self, source: &[u8], buffers: &mut Buffers, side: usize) -> i64 {
        let (source, Buffers { work, out }) = (black_box(source), black_box(buffers));
        let answer = match self {
            Entry::UnpackPlane => original::unpack(source, out, side, side),
            Entry::PackPlane => original::compress(source, out, side, side),
            Entry::Unpack(form, Extent::Body) => {
                out.clear();
                original::decode(form.header().expect("a form that IronRDP has"), source, work, out, side, side)
            }
            Entry::Unpack(_, Extent::Stream) => {
                out.clear();
                original::stream_decode(source, work, out, side, side)
            }
            Entry::PackPixels { rle, extent } => {
                packed(extent, original::encode_bitmap(original::Layout::BgrA, source, false, out, rle, side, side))
            }
            Entry::PackChannels { rle, extent } => {
                packed(extent, original::encode_channels(thirds(source), None, out, rle, side, side))
            }
        };
        answer.number().expect("an answer")
    }

    /// The library's.
    pub fn by_library(self, source: &[u8], buffers: &mut Buffers, side: usize) -> i64 {
        let (source, Buffers { work, out }) = (black_box(source), black_box(buffers));
        let out = &mut out[self.start()..];
        match self {
            Entry::UnpackPlane => ours::unpack(source, out, side, side),
            Entry::PackPlane => ours::pack(source, out, side, side),
            Entry::Unpack(Form { rle, alpha, definition, level, subsampled }, Extent::Body) => {
                let form = ours::Form { rle, alpha, definition, level, subsampled };
                ours::decode(Format::Rgb24, form, source, work, out, side, side)
            }
            Entry::Unpack(_, Extent::Stream) => ours::stream_decode(Format::Rgb24, source, work, out, side, side),
            Entry::PackPixels { rle, extent } => {
                ours::encode_bitmap(extent, (source, BGRA), false, out, rle, side, side)
            }
            Entry::PackChannels { rle, extent } => {
                ours::encode_channels(extent, thirds(source), None, out, rle, side, side)
            }
        }
    }
}

/// IronRDP's answer for what the library packs.
fn packed(extent: Extent, encoded: Encoded) -> Answer {
    match extent {
        Extent::Body => encoded.body_answer(),
        Extent::Stream => encoded.answer,
    }
}
