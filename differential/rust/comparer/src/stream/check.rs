//! Compares the unpacking of one stream, or the size of its work area.

use crate::check::{Comparer, Outcome};
use crate::encoding::check::Encoders;
use crate::extent::Extent;
use crate::guarded::{Buffer, Side, SIDES};
use crate::input::View;
use crate::layout::Format;
use crate::picture::check::other_size;
use crate::stream::{OwnedStream, Stream, StreamSize};
use crate::tally::{Group, Kind, Reference};
use original::Answer;

/// A stream decoder as C declares it: stream, work area, image; width, height; bytes of the image, or minus the refusal's number.
pub type StreamDecode = unsafe extern "C" fn(*const u8, usize, *mut u8, usize, *mut u8, usize, usize, usize) -> i64;

/// The same to four-byte pixels, whose layout comes first.
pub type StreamDecodePixels =
    unsafe extern "C" fn(u32, *const u8, usize, *mut u8, usize, *mut u8, usize, usize, usize) -> i64;

/// The length of the work area: stream, width, height.
pub type StreamWorkSize = unsafe extern "C" fn(*const u8, usize, usize, usize) -> usize;

/// The functions of a library that unpack and pack streams.
#[derive(Clone, Copy)]
pub struct Streams {
    pub decode: StreamDecode,
    pub work_size: StreamWorkSize,
    pub decode_pixels: StreamDecodePixels,
    pub pixels_work_size: StreamWorkSize,
    pub encoders: Encoders,
}

impl Comparer {
    /// Compares a stream and counts it.
    pub fn compare_stream(&mut self, kind: Kind, case: Stream<&[u8]>) -> Outcome {
        let reference = Reference::ironrdp_if(case.refused_outside().is_none());
        let wanted = self.ask_stream(case);
        self.tally.count_in(Group::of(Extent::Stream, case.format), kind, reference, &wanted);
        self.compare_stream_decoder(case, wanted)
    }

    pub(crate) fn check_stream(&mut self, case: &OwnedStream) -> Outcome {
        let wanted = self.ask_stream(case.view());
        self.compare_stream_decoder(case.view(), wanted)
    }

    /// The answer that is required; `afters.wanted` gets what the buffers must hold.
    pub(crate) fn ask_stream(&mut self, case: Stream<&[u8]>) -> Answer {
        let by_ironrdp = |work: &mut Vec<u8>, image: &mut Vec<u8>| case.by_ironrdp(work, image);
        self.afters.ask((case.work, case.image), case.refused_outside(), by_ironrdp)
    }

    fn compare_stream_decoder(&mut self, case: Stream<&[u8]>, wanted: Answer) -> Outcome {
        self.compare_decoder(View::Stream(case), wanted, &SIDES, |comparer, side| {
            comparer.call_stream_decoder(case, side)
        })
    }

    pub(crate) fn call_stream_decoder(&mut self, case: Stream<&[u8]>, side: Side) -> (i64, Option<String>) {
        let Stream { width, height, format, stream, work, image } = case;
        let Streams { decode, decode_pixels, .. } = self.library.streams;
        let [stream_len, work_len, image_len] = [stream.len(), work.len(), image.len()];
        let buffers = (Buffer::read("stream", stream), work, image);
        // SAFETY: all three buffers are valid during the call. That it stays inside them is tested.
        self.call_on_afters(View::Stream(case), side, buffers, |[stream, work, image]| unsafe {
            match format {
                Format::Rgb24 => decode(stream, stream_len, work, work_len, image, image_len, width, height),
                Format::Pixels(layout) => {
                    decode_pixels(layout.0, stream, stream_len, work, work_len, image, image_len, width, height)
                }
            }
        })
    }

    /// Compares the size of a stream's work area, and counts the case.
    pub fn compare_stream_size(&mut self, kind: Kind, case: StreamSize<&[u8]>) -> Outcome {
        let group = if case.four_bytes { Group::StreamPixels } else { Group::Streams };
        self.tally.count_in(group, kind, Reference::Format, &Answer::Done(case.work()));
        self.check_stream_size(case)
    }

    pub(crate) fn check_stream_size(&mut self, case: StreamSize<&[u8]>) -> Outcome {
        let StreamSize { width, height, four_bytes, stream } = case;
        let Streams { work_size, pixels_work_size, .. } = self.library.streams;
        let (work_size, wanted) = (if four_bytes { pixels_work_size } else { work_size }, case.work());
        for side in SIDES {
            let mut got = 0;
            let buffers = [Buffer::read("stream", stream)];
            // SAFETY: the buffer is valid during the call. That it stays inside it is tested.
            let (_, harm) = self.memory.call(View::StreamSize(case), side, buffers, |[at]| unsafe {
                got = work_size(at, stream.len(), width, height);
                0
            });
            let other = (got != wanted).then(|| "the size of the work area".to_owned());
            if let Some(reason) = harm.or(other) {
                return Err(other_size(View::StreamSize(case).to_owned(), reason, wanted, got));
            }
        }
        Ok(())
    }
}
