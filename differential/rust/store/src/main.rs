//! Writes samples of IronRDP's answers inside the domain, one case a line: two files each for unpacking and packing of
//! planes,
//!
//!   WIDTH HEIGHT ROOM ANSWER SOURCE AFTER
//!
//! one for unpacking of pictures,
//!
//!   WIDTH HEIGHT RLE ALPHA DEFINITION LEVEL SUBSAMPLED WORKROOM IMAGEROOM ANSWER BODY WORK-AFTER IMAGE-AFTER
//!
//! two for packing of pictures, from channels and from pixels,
//!
//!   WIDTH HEIGHT RLE ALPHA ROOM ANSWER SENTRLE SENTALPHA SENTDEFINITION R G B A AFTER
//!   WIDTH HEIGHT LAYOUT RLE ALPHA ROOM ANSWER SENTRLE SENTALPHA SENTDEFINITION PIXELS AFTER
//!
//! and the same of whole streams,
//!
//!   WIDTH HEIGHT WORKROOM IMAGEROOM WORKSIZE ANSWER STREAM WORK-AFTER IMAGE-AFTER
//!   WIDTH HEIGHT RLE ALPHA ROOM ANSWER R G B A AFTER
//!   WIDTH HEIGHT LAYOUT RLE ALPHA ROOM ANSWER PIXELS AFTER
//!
//! Bodies and streams are unpacked to four-byte pixels in two more,
//!
//!   WIDTH HEIGHT RLE ALPHA DEFINITION LEVEL SUBSAMPLED LAYOUT WORKROOM IMAGEROOM ANSWER BODY WORK-AFTER IMAGE-AFTER
//!   WIDTH HEIGHT LAYOUT WORKROOM IMAGEROOM WORKSIZE ANSWER STREAM WORK-AFTER IMAGE-AFTER
//!
//! which have IronRDP's three bytes of each pixel and its alpha plane: it has no function that gives both.
//! WORKSIZE, the first byte of a stream's destination after a refusal, and the refusals 13 and 14 are not IronRDP's but FORMAT's.
//! docs/TESTS.md has the format. The samples are the same in every run. `USAGE` has the command line.

mod boundary_sample;
mod encoding_sample;
mod encodings;
mod pack_boundary_sample;
mod pack_sample;
mod picture_sample;
mod pictures;
mod sample;
mod stream_sample;
mod streams;

use comparer::arguments::{asks_for_help, refused, unexpected};
use comparer::bytes;
use comparer::case::{Operation, Owned};
use comparer::Extent;
use encodings::Entry;
use std::collections::HashSet;
use std::path::Path;
use std::process::ExitCode;

/// What the destination holds before the call.
const BEFORE: u8 = 0xEE;
/// The longest source and the longest destination that a reader of the file must be able to hold.
const LONGEST: usize = 20_000;

/// The lines so far. A case that came before is left out.
#[derive(Default)]
pub struct Lines {
    lines: Vec<String>,
    seen: HashSet<String>,
}

impl Lines {
    fn add(&mut self, line: String) {
        if self.seen.insert(line.clone()) {
            self.lines.push(line);
        }
    }

    fn write(&self, file: &Path) -> Result<(), ExitCode> {
        let text = self.lines.concat();
        let folder = file.parent().expect("a folder");
        std::fs::create_dir_all(folder).and_then(|()| std::fs::write(file, &text)).map_err(|why| {
            eprintln!("{}: {why}", file.display());
            ExitCode::FAILURE
        })?;
        println!("{}: {} cases, {} bytes", file.display(), self.lines.len(), text.len());
        Ok(())
    }
}

/// Cases of planes.
pub struct Stored {
    operation: Operation,
    lines: Lines,
}

impl Stored {
    /// The lines of all cases that something chooses.
    fn lines_of(operation: Operation, keep_all: fn(&mut Stored)) -> Lines {
        let mut stored = Stored { operation, lines: Lines::default() };
        keep_all(&mut stored);
        stored.lines
    }

    /// Asks IronRDP and keeps its answer.
    pub fn keep(&mut self, width: usize, height: usize, room: usize, source: &[u8]) {
        let before = vec![BEFORE; room];
        let case = Owned { operation: self.operation, width, height, source: source.to_vec(), before };
        assert_eq!(case.view().refused_at_entry(), None, "a case outside the domain");
        assert!(room <= LONGEST && source.len() <= LONGEST, "a case that is too long");
        let mut after = case.before.clone();
        let answer = case.view().by_ironrdp(&mut after);
        let Some(number) = answer.number() else {
            panic!("IronRDP answers {answer} inside the domain");
        };
        let line = format!("{width} {height} {room} {number} {} {}\n", bytes::text(source), bytes::text(&after));
        self.lines.add(line);
    }
}

/// A file, in the folder of the program that replays it, and what makes its lines.
type Sample = (&'static str, fn() -> Lines);

const SAMPLES: [Sample; 12] = [
    ("plane_vectors/data/plane-unpack.txt", || Stored::lines_of(Operation::Unpack, sample::keep_all)),
    ("plane_vectors/data/plane-unpack-boundaries.txt", || {
        Stored::lines_of(Operation::Unpack, boundary_sample::keep_all)
    }),
    ("plane_vectors/data/plane-pack.txt", || Stored::lines_of(Operation::Pack, pack_sample::keep_all)),
    ("plane_vectors/data/plane-pack-boundaries.txt", || {
        Stored::lines_of(Operation::Pack, pack_boundary_sample::keep_all)
    }),
    ("picture_vectors/data/picture-unpack.txt", pictures::lines),
    ("picture_vectors/data/stream-unpack.txt", streams::lines),
    ("picture_vectors/data/pixels-unpack.txt", pictures::pixels_lines),
    ("picture_vectors/data/stream-pixels-unpack.txt", streams::pixels_lines),
    ("encode_vectors/data/channels-pack.txt", || encodings::lines(Entry::Channels, Extent::Body)),
    ("encode_vectors/data/bitmap-pack.txt", || encodings::lines(Entry::Bitmap, Extent::Body)),
    ("encode_vectors/data/stream-channels-pack.txt", || encodings::lines(Entry::Channels, Extent::Stream)),
    ("encode_vectors/data/stream-bitmap-pack.txt", || encodings::lines(Entry::Bitmap, Extent::Stream)),
];

const USAGE: &str = "\
usage: store FOLDER   writes IronRDP's answers to files in plane_vectors/data, picture_vectors/data and encode_vectors/data of FOLDER,
                      which is crates or a folder like it
       store --help   prints this";

fn main() -> ExitCode {
    let words: Vec<String> = std::env::args().skip(1).collect();
    let words: Vec<&str> = words.iter().map(String::as_str).collect();
    if asks_for_help(&words) {
        println!("{USAGE}");
        return ExitCode::SUCCESS;
    }
    let folder = match words[..] {
        [] => return refused("store", "no FOLDER"),
        [folder] if !folder.starts_with('-') => folder,
        [word] | [_, word, ..] => return refused("store", &unexpected(word)),
    };
    for (name, lines) in SAMPLES {
        if let Err(status) = lines().write(&Path::new(folder).join(name)) {
            return status;
        }
    }
    ExitCode::SUCCESS
}
