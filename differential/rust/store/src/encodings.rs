//! Asks IronRDP to pack pictures and keeps its answers.

use crate::pictures::add;
use crate::{encoding_sample, Lines, BEFORE, LONGEST};
use comparer::bytes;
use comparer::encoding::case::OwnedEncoding;
use comparer::encoding::check::record;
use comparer::encoding::given::{channels, given, pixels};
use comparer::encoding::{Encoding, Sources};
use comparer::layout::BGRA;
use comparer::picture::case::ARGB;
use comparer::picture::Planes;
use comparer::{Extent, Layout};
use original::{Answer, Definition, Header};

/// Which entries are stored.
#[derive(Clone, Copy, PartialEq, Eq)]
pub enum Entry {
    Channels,
    Bitmap,
}

/// Cases of packing pictures by one kind of entry.
pub struct Encodings {
    pub entry: Entry,
    pub extent: Extent,
    lines: Lines,
}

/// The lines of all cases.
pub fn lines(entry: Entry, extent: Extent) -> Lines {
    let mut stored = Encodings { entry, extent, lines: Lines::default() };
    encoding_sample::keep_all(&mut stored);
    stored.lines
}

fn flag(set: bool) -> u8 {
    u8::from(set)
}

impl Encodings {
    /// The planes as this entry takes them; pixels have this layout.
    pub fn sources_in(&self, planes: &Planes, layout: Layout) -> Sources<Vec<u8>> {
        match self.entry {
            Entry::Channels => channels(planes),
            Entry::Bitmap => pixels(planes, layout),
        }
    }

    /// The same, as B, G, R and A.
    pub fn sources(&self, planes: &Planes) -> Sources<Vec<u8>> {
        self.sources_in(planes, BGRA)
    }

    /// The picture that this entry is given, without a destination.
    pub fn given<'a>(&self, rle: bool, sides: (usize, usize), sources: &'a Sources<Vec<u8>>) -> Encoding<&'a [u8]> {
        given(self.extent, rle, sides, sources.view())
    }

    /// A picture with a destination that has so many bytes for the body; a stream for whose body there is none also with an empty one.
    pub fn keep(&mut self, rle: bool, sides: (usize, usize), sources: &Sources<Vec<u8>>, room: usize) {
        let case = self.given(rle, sides, sources);
        if self.extent == Extent::Stream && room == 0 {
            self.keep_case(&case.to_owned());
        }
        let before = vec![BEFORE; room + self.extent.header_len()];
        self.keep_case(&Encoding { before: &before[..], ..case }.to_owned());
    }

    /// Asks IronRDP and keeps its answer. What it writes is kept without the header byte where a body is stored. After a refusal the first
    /// byte of a stream's destination is what it was, though IronRDP has written its header byte.
    pub fn keep_case(&mut self, case: &OwnedEncoding) {
        assert!(case.is_inside(), "a case outside the domain");
        assert!(case.before.iter().all(|&byte| byte == BEFORE), "a destination that holds something else");
        let longest = case.sources.slices().iter().map(|(slice, _)| slice.len()).max();
        assert!(longest.max(Some(case.before.len())) <= Some(LONGEST), "a case that is too long");
        let mut after = Vec::new();
        case.view().fill_destination(&mut after);
        let encoded = case.view().by_ironrdp(&mut after).expect("a layout that IronRDP has");
        let header = encoded.header;
        assert!(header == Some(record(case.rle)) || after.is_empty(), "another record: {header:?}");
        let answer = case.view().answer(encoded);
        let Some(number) = answer.number() else {
            panic!("IronRDP answers {answer} inside the domain");
        };
        let after = &mut after[case.bytes_before()..];
        let sent = match case.extent {
            Extent::Body => sent_text(&answer, header),
            Extent::Stream => String::new(),
        };
        if let (Extent::Stream, Answer::Refused(_), Some(first)) = (case.extent, &answer, after.first_mut()) {
            *first = BEFORE;
        }
        let numbers = format!("{} {number}{sent}", case.before.len());
        let form = format!("{} {}", flag(case.rle), flag(case.sources.has_alpha()));
        let bytes = format!("{} {}", sources_text(&case.sources), bytes::text(after));
        let layout = case.sources.layout().map_or(String::new(), |layout| format!(" {}", layout.0));
        add(&mut self.lines, format!("{} {}{layout} {form} {numbers} {bytes}\n", case.width, case.height));
    }
}

/// The record that is to be sent as a line has it, each number behind a space: RLE, alpha, the definition's number; zeros if nothing is to
/// be sent.
fn sent_text(answer: &Answer, header: Option<Header>) -> String {
    match (answer, header) {
        (Answer::Done(_), Some(Header { rle, alpha, definition: Definition::Argb })) => {
            format!(" {} {} {ARGB}", flag(rle), flag(alpha))
        }
        (Answer::Done(_), other) => panic!("no record of ARGB: {other:?}"),
        _ => " 0 0 0".to_owned(),
    }
}

/// The sources as a line has them. A of three channels is none.
fn sources_text(sources: &Sources<Vec<u8>>) -> String {
    let mut texts: Vec<String> = sources.slices().iter().map(|(slice, _)| bytes::text(slice)).collect();
    if matches!(sources, Sources::Channels { alpha: None, .. }) {
        texts.push(bytes::text(&[]));
    }
    texts.join(" ")
}
