//! Compares the packing of one picture.

use crate::check::{answer_text, After, Comparer, Difference, Outcome};
use crate::encoding::round_trip::Wrong;
use crate::encoding::{round_trip, Encoding, OwnedEncoding, Sources};
use crate::extent::Extent;
use crate::guarded::{Buffer, Side, SIDES};
use crate::input::{Input, View};
use crate::layout::{Format, Layout};
use crate::stream::Stream;
use crate::tally::{Group, Kind, Reference};
use original::{Answer, Definition, Encoded, Header};

/// `rdp6_encode_channels` and `rdp6_stream_encode_channels` as C declares them: R, G, B, destination, RLE, width, height; bytes written,
/// or minus the refusal's number.
pub type EncodeChannels = unsafe extern "C" fn(
    *const u8,
    usize,
    *const u8,
    usize,
    *const u8,
    usize,
    *mut u8,
    usize,
    bool,
    usize,
    usize,
) -> i64;

/// The same with A behind B.
pub type EncodeChannelsAlpha = unsafe extern "C" fn(
    *const u8,
    usize,
    *const u8,
    usize,
    *const u8,
    usize,
    *const u8,
    usize,
    *mut u8,
    usize,
    bool,
    usize,
    usize,
) -> i64;

/// The same from pixels, whose layout comes first.
pub type EncodeBitmap = unsafe extern "C" fn(u32, *const u8, usize, *mut u8, usize, bool, usize, usize) -> i64;

/// The functions of a library that pack pictures, into bodies or into streams.
#[derive(Clone, Copy)]
pub struct Encoders {
    pub channels: EncodeChannels,
    pub channels_alpha: EncodeChannelsAlpha,
    pub bitmap: EncodeBitmap,
    pub bitmap_alpha: EncodeBitmap,
}

/// What the destination must hold after a call, and what it holds.
#[derive(Default)]
pub(crate) struct Packed {
    /// IronRDP's destination, which has so many bytes before the library's.
    wanted: Vec<u8>,
    bytes_before: usize,
    got: Vec<u8>,
}

impl Packed {
    fn wanted(&self) -> &[u8] {
        &self.wanted[self.bytes_before..]
    }

    /// What the destination must hold after the last case that was asked.
    pub(crate) fn wanted_after(&self) -> After {
        destination(self.wanted())
    }

    fn fault(&self, same_answer: bool) -> Option<String> {
        if !same_answer {
            Some("the answer".to_owned())
        } else if self.wanted() != self.got {
            Some("the destination".to_owned())
        } else {
            None
        }
    }
}

fn destination(after: &[u8]) -> After {
    After(vec![("destination", after.to_vec())])
}

/// The header record of FORMAT 7.5: RLE as asked, ARGB, and alpha false whatever the planes are.
pub fn record(rle: bool) -> Header {
    Header { rle, alpha: false, definition: Definition::Argb }
}

impl Comparer {
    /// Compares a picture that is packed and counts it.
    pub fn compare_encoding(&mut self, kind: Kind, case: Encoding<&[u8]>) -> Outcome {
        self.compare_encoding_at(kind, case, &SIDES)
    }

    /// The same with the buffers at these sides of their pages only, where both would take too long.
    pub fn compare_encoding_at(&mut self, kind: Kind, case: Encoding<&[u8]>, sides: &[Side]) -> Outcome {
        let wanted = self.ask_encoding(case)?;
        self.tally.count_in(
            Group::of(case.extent, Format::Rgb24),
            kind,
            Reference::ironrdp_if(case.is_inside()),
            &wanted,
        );
        self.compare_encoder(case, wanted, sides)
    }

    pub(crate) fn check_encoding(&mut self, case: &OwnedEncoding) -> Outcome {
        let wanted = self.ask_encoding(case.view())?;
        self.compare_encoder(case.view(), wanted, &SIDES)
    }

    /// The answer that is required; `packed` gets what the destination must hold. Where a source is longer than the picture, IronRDP
    /// is asked with the samples that are used. The header that IronRDP writes is compared with `record`. It writes the header byte
    /// first; in the library's destination the byte there is unchanged after a refusal.
    pub(crate) fn ask_encoding(&mut self, case: Encoding<&[u8]>) -> Result<Answer, Box<Difference>> {
        let Packed { wanted, bytes_before, .. } = &mut self.packed;
        case.fill_destination(wanted);
        *bytes_before = case.bytes_before();
        if let Some(number) = case.refused_at_entry() {
            return Ok(Answer::Refused(number));
        }
        let asked = if case.is_inside() { case } else { case.with_first_samples() };
        let encoded = asked.by_ironrdp(wanted).expect("a layout that IronRDP has");
        let no_room = wanted.is_empty() && encoded == Encoded { answer: Answer::Refused(12), header: None };
        if encoded.header == Some(record(case.rle)) || no_room {
            let answer = case.answer(encoded);
            if let (Answer::Refused(_), Extent::Stream, Some(first)) = (&answer, case.extent, case.before.first()) {
                wanted[0] = *first;
            }
            return Ok(answer);
        }
        let got = format!("{}, {:?}", encoded.answer, encoded.header);
        let after = || destination(case.before);
        Err(self.unlike(case, "the record".to_owned(), encoded.answer, after(), ("IronRDP", got, after())))
    }

    fn compare_encoder(&mut self, case: Encoding<&[u8]>, wanted: Answer, sides: &[Side]) -> Outcome {
        for &side in sides {
            let (got, harm) = self.call_encoder(case, side);
            if let Some(reason) = harm.or_else(|| self.packed.fault(wanted.number() == Some(got))) {
                let (wanted_after, got_after) = (destination(self.packed.wanted()), destination(&self.packed.got));
                let got = ("rdp6", answer_text(got), got_after);
                return Err(self.unlike(case, reason, wanted, wanted_after, got));
            }
        }
        match wanted {
            Answer::Done(count) => self.compare_round_trip(case, count),
            _ => Ok(()),
        }
    }

    /// What the library wrote must be unpacked to the samples that were packed: by IronRDP, and a stream by the library too.
    fn compare_round_trip(&mut self, case: Encoding<&[u8]>, count: usize) -> Outcome {
        self.tally.count_unpacked_again(Group::of(case.extent, Format::Rgb24));
        // The library's decoder is called with the memory of this comparer, so this is taken out of it.
        let got = std::mem::take(&mut self.packed.got);
        let by_ironrdp = round_trip::wrong(case, &got[..count]).map(|wrong| (wrong, "rdp6, unpacked by IronRDP"));
        let found = by_ironrdp
            .or_else(|| self.wrong_by_library(case, &got[..count]).map(|wrong| (wrong, "rdp6, unpacked by itself")));
        self.packed.got = got;
        let Some((wrong, by)) = found else {
            return Ok(());
        };
        let reason = format!("the {} unpacked again", wrong.name);
        let [wanted_after, got_after] = [wrong.wanted, wrong.got].map(|bytes| After(vec![(wrong.name, bytes)]));
        Err(self.unlike(case, reason, Answer::Done(count), wanted_after, (by, wrong.answer, got_after)))
    }

    /// What is wrong with a stream of three planes if the library unpacks it.
    fn wrong_by_library(&mut self, case: Encoding<&[u8]>, packed: &[u8]) -> Option<Wrong> {
        if case.extent == Extent::Body || case.sources.has_alpha() {
            return None;
        }
        let image = vec![0; 3 * case.width * case.height];
        let work = if case.rle { &image[..] } else { &[] };
        let (width, height, format) = (case.width, case.height, Format::Rgb24);
        let stream = Stream { width, height, format, stream: packed, work, image: &image };
        let (answer, harm) = self.call_stream_decoder(stream, Side::End);
        let answer = harm.unwrap_or_else(|| answer_text(answer));
        round_trip::wrong_image(case, answer, self.afters.got_image().to_vec())
    }

    fn unlike(
        &self,
        case: Encoding<&[u8]>,
        reason: String,
        wanted: Answer,
        wanted_after: After,
        (side, got, got_after): (&'static str, String, After),
    ) -> Box<Difference> {
        let case = Input::Encoding(case.to_owned());
        Box::new(Difference { case, reason, wanted, wanted_after, side, got, got_after })
    }

    fn call_encoder(&mut self, case: Encoding<&[u8]>, side: Side) -> (i64, Option<String>) {
        match case.sources {
            Sources::Channels { colours, alpha: None } => self.call_channels(case, colours, side),
            Sources::Channels { colours, alpha: Some(alpha) } => self.call_channels_alpha(case, colours, alpha, side),
            Sources::Pixels { pixels, layout, alpha } => self.call_bitmap(case, (pixels, layout), alpha, side),
        }
    }

    fn call_channels(&mut self, case: Encoding<&[u8]>, [r, g, b]: [&[u8]; 3], side: Side) -> (i64, Option<String>) {
        let Encoding { width, height, rle, before, .. } = case;
        let encode = self.library.encoders(case.extent).channels;
        let buffers = [
            Buffer::read("samples of R", r),
            Buffer::read("samples of G", g),
            Buffer::read("samples of B", b),
            Buffer::written("destination", before, &mut self.packed.got),
        ];
        let lens = [r, g, b].map(<[u8]>::len);
        // SAFETY: all buffers are valid during the call. That it stays inside them is tested.
        self.memory.call(View::Encoding(case), side, buffers, |[r, g, b, dst]| unsafe {
            encode(r, lens[0], g, lens[1], b, lens[2], dst, before.len(), rle, width, height)
        })
    }

    fn call_channels_alpha(
        &mut self,
        case: Encoding<&[u8]>,
        [r, g, b]: [&[u8]; 3],
        a: &[u8],
        side: Side,
    ) -> (i64, Option<String>) {
        let Encoding { width, height, rle, before, .. } = case;
        let encode = self.library.encoders(case.extent).channels_alpha;
        let buffers = [
            Buffer::read("samples of R", r),
            Buffer::read("samples of G", g),
            Buffer::read("samples of B", b),
            Buffer::read("samples of A", a),
            Buffer::written("destination", before, &mut self.packed.got),
        ];
        let lens = [r, g, b, a].map(<[u8]>::len);
        // SAFETY: all buffers are valid during the call. That it stays inside them is tested.
        self.memory.call(View::Encoding(case), side, buffers, |[r, g, b, a, dst]| unsafe {
            encode(r, lens[0], g, lens[1], b, lens[2], a, lens[3], dst, before.len(), rle, width, height)
        })
    }

    fn call_bitmap(
        &mut self,
        case: Encoding<&[u8]>,
        (pixels, layout): (&[u8], Layout),
        alpha: bool,
        side: Side,
    ) -> (i64, Option<String>) {
        let Encoding { width, height, rle, before, .. } = case;
        let encoders = self.library.encoders(case.extent);
        let encode = if alpha { encoders.bitmap_alpha } else { encoders.bitmap };
        let buffers = [Buffer::read("pixels", pixels), Buffer::written("destination", before, &mut self.packed.got)];
        let len = pixels.len();
        // SAFETY: both buffers are valid during the call. That it stays inside them is tested.
        self.memory.call(View::Encoding(case), side, buffers, |[pixels, dst]| unsafe {
            encode(layout.0, pixels, len, dst, before.len(), rle, width, height)
        })
    }
}
