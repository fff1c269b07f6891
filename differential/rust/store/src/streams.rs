//! Asks IronRDP for streams and keeps its answers; for four-byte pixels its three bytes of each pixel and its alpha plane.

use crate::pictures::{add, layout_text, Asked};
use crate::{stream_sample, Lines, BEFORE};
use comparer::bytes;
use comparer::stream::examples::{EXAMPLES, PIXELS_EXAMPLES};
use comparer::stream::{OwnedStream, StreamSize};
use comparer::{Format, Layout, Rng};

/// Cases of streams.
pub struct Streams {
    lines: Lines,
    rng: Rng,
    four_bytes: bool,
}

/// The lines of all cases.
pub fn lines() -> Lines {
    let mut stored = Streams { lines: Lines::default(), rng: Rng::new(10), four_bytes: false };
    stream_sample::keep_all(&mut stored, &EXAMPLES);
    stored.lines
}

/// The same of four-byte pixels.
pub fn pixels_lines() -> Lines {
    let mut stored = Streams { lines: Lines::default(), rng: Rng::new(12), four_bytes: true };
    stream_sample::keep_all(&mut stored, &PIXELS_EXAMPLES);
    stored.lines
}

impl Streams {
    /// A stream, with a work area and an image that have what it needs, or a little more.
    pub fn keep(&mut self, (width, height): (usize, usize), stream: &[u8]) {
        let more = [0; 2].map(|_| *self.rng.pick(&[0, 0, 0, 1, 2, 5]));
        let four_bytes = self.four_bytes;
        let format = match four_bytes {
            true => Format::Pixels(Layout(self.rng.below(4) as u32)),
            false => Format::Rgb24,
        };
        let work = vec![BEFORE; StreamSize { width, height, four_bytes, stream }.work() + more[0]];
        let image = vec![BEFORE; format.bytes() * width * height + more[1]];
        self.keep_case(&OwnedStream { width, height, format, stream: stream.to_vec(), work, image });
    }

    /// Asks IronRDP and keeps its answer, with the size of the work area.
    pub fn keep_case(&mut self, case: &OwnedStream) {
        let OwnedStream { width, height, format, ref stream, ref work, ref image } = *case;
        assert!(is_kept(case), "a case outside the domain");
        let asked = Asked::new((work, image), |work, image| case.view().by_ironrdp(work, image));
        let size = StreamSize { width, height, four_bytes: format.keeps_alpha(), stream: &stream[..] }.work();
        let bytes = [stream, &asked.work, &asked.image].map(|some| bytes::text(some)).join(" ");
        let (layout, rooms) = (layout_text(format), asked.rooms());
        add(&mut self.lines, format!("{width} {height}{layout} {rooms} {size} {} {bytes}\n", asked.number));
    }
}

/// Whether a case can be stored: inside the domain, or a stream that lacks a part, with a layout that there is.
pub fn is_kept(case: &OwnedStream) -> bool {
    !case.format.is_unknown() && matches!(case.view().refused_outside(), None | Some(13 | 14))
}
