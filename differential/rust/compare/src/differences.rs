//! Inputs where IronRDP and the library differ, the smallest for each way, and some where they agree. docs/DIFFERENCES.md lists them.

use comparer::arguments::refused;
use comparer::bytes;
use comparer::case::Operation;
use comparer::check::{answer_text, After};
use comparer::encoding::{Encoding, OwnedEncoding, Sources};
use comparer::extent::Extent;
use comparer::picture::{OwnedPicture, Sizes};
use comparer::prefix::{Plane, PrefixCase};
use comparer::report::shortened;
use comparer::stream::{OwnedStream, OwnedStreamSize};
use comparer::{Case, Comparer, Format, Input, Owned};
use original::{Answer, Header};
use std::process::ExitCode;

/// A place and its inputs, the smallest that show it.
type Place = (&'static str, &'static [&'static str]);

const UNPACKING: [Place; 5] = [
    ("width 0", &["pu 0 1 - -", "pu 0 9000 - -"]),
    ("height 0", &["pu 1 0 1005 EE", "pu 1 0 - -", "pu 1 0 1005 -"]),
    (
        "a side over 8192",
        &[
            "pu 8193 1 - -",
            "pu 8193 1 F2*174,0F EE*8193",
            "pu 3 8193 03*8193 EE*24579",
            "pu 18446744073709551615 1 03 EE*3",
            "pu 3 18446744073709551615 03 EE*3",
        ],
    ),
    (
        "the destination ends in the first row",
        &["pu 1 1 1005 -", "pu 2 1 200102 EE", "pu 1 1 - -", "pu 1 1 00 -", "pu 1 1 10 -", "pu 1 1 200102 -"],
    ),
    ("the destination ends in a later row", &["pu 1 2 10051000 EE", "pu 1 2 1005 EE", "pu 1 3 100500 EE*2"]),
];

const PACKING: [Place; 6] = [
    ("width 0", &["pp 0 1 - -", "pp 0 1 05 EE", "pp 0 0 - -", "pp 0 9000 - -"]),
    ("height 0", &["pp 1 0 - -", "pp 1 0 05 EE*2"]),
    (
        "a side over 8192",
        &[
            "pp 8193 1 - -",
            "pp 8193 1 05 EE*2",
            "pp 8193 1 05*8193 EE*176",
            "pp 1 8193 - -",
            "pp 1 8193 05 EE*2",
            "pp 18446744073709551615 1 - -",
            "pp 1 18446744073709551615 - -",
            "pp 1 18446744073709551615 05 EE*2",
        ],
    ),
    (
        "the source ends inside the last row, and what the decoder answers to that",
        &["pp 2 1 05 EE*2", "pu 2 1 1005 EE*2", "pp 3 2 01020304 EE*6", "pu 3 2 300102031006 EE*6"],
    ),
    (
        "the source ends at a row's start, or inside a row before the last",
        &["pp 1 1 - -", "pp 1 2 05 EE*2", "pp 2 2 05 EE*2", "pp 3 2 010203 EE*4"],
    ),
    ("the source is short, and so is the destination", &["pp 2 1 05 -", "pp 1 2 05 -", "pp 3 2 01020304 EE*4"]),
];

const PICTURES: [Place; 9] = [
    ("width 0", &["iu 0 1 1 0 argb - - -", "iu 0 1 0 0 argb - - -", "iu 0 9000 1 0 argb - - -"]),
    (
        "height 0",
        &["iu 1 0 1 0 argb - - -", "iu 1 0 1 0 argb 1005 - -", "iu 1 0 0 0 argb - - -", "iu 1 0 1 0 argb 00 - -"],
    ),
    (
        "a side over 8192",
        &[
            "iu 8193 1 0 0 argb 05*24579 - EE*24579",
            "iu 1 8193 0 0 argb 05*24579 - EE*24579",
            "iu 3 8193 1 0 argb 03*24579 EE*73737 EE*73737",
            "iu 8193 1 0 0 argb - - -",
            "iu 4294967296 1073741824 0 0 argb - - -",
            "iu 18446744073709551615 1 1 0 argb - - -",
        ],
    ),
    (
        "a loss level of 0 or over 7, an unknown definition",
        &[
            "iu 1 1 0 1 0:0 00644000 - EE*3",
            "iu 1 1 0 1 8:0 00640100 - EE*3",
            "iu 1 1 0 1 9:0 00640100 - EE*3",
            "iu 1 1 0 1 255:0 00640100 - EE*3",
            "iu 1 1 0 1 257:0 00640100 - EE*3",
            "iu 1 1 0 1 4294967295:0 00640100 - EE*3",
            "iu 1 1 0 0 2:1:0 000000 - EE*3",
            "iu 1 1 0 0 256:1:0 000000 - EE*3",
            "iu 1 1 0 0 257:1:0 000000 - EE*3",
        ],
    ),
    (
        "the same, and the body is short or damaged",
        &["iu 1 1 0 0 0:0 - - -", "iu 1 1 1 0 0:0 - - -", "iu 1 1 1 0 0:0 000000 - -", "iu 1 1 1 0 9:0 10 - -"],
    ),
    (
        "the work area is short",
        &["iu 1 1 1 0 argb 100110021003 EE*2 EE*3", "iu 1 1 1 0 argb 100110021003 - EE*3", "iu 1 1 1 0 argb 0000 - -"],
    ),
    (
        "the work area is longer than needed, and what a raw picture does to it",
        &["iu 1 1 1 0 argb 100110021003 EE*5 EE*3", "iu 1 1 0 0 argb 010203 EE*5 EE*3"],
    ),
    (
        "the image is short, or longer than needed",
        &["iu 1 1 0 0 argb 010203 - EE*2", "iu 1 1 0 0 argb 010203 - -", "iu 1 1 0 0 argb 010203 - EE*4"],
    ),
    (
        "the work area or the image is short, and the body is damaged",
        &["iu 1 1 1 0 argb 000000 - -", "iu 1 1 1 0 argb 000000 EE*3 -", "iu 1 1 1 0 argb 100000 EE -"],
    ),
];

const ENCODING: [Place; 10] = [
    (
        "width 0",
        &[
            "pc 0 1 1 - - - none -",
            "pc 0 1 0 - - - none EE",
            "pc 0 1 0 - - - none -",
            "pb 0 1 bgra 1 0 - -",
            "pb 0 1 bgra 0 0 - EE",
        ],
    ),
    (
        "height 0",
        &[
            "pc 1 0 1 - - - none -",
            "pc 1 0 1 01 02 03 none EE*6",
            "pc 1 0 0 01 02 03 none EE*4",
            "pc 1 0 0 01 02 03 none EE",
            "pb 1 0 bgra 0 1 01020304 EE*5",
        ],
    ),
    (
        "a side over 8192",
        &[
            "pc 8193 1 1 - - - none -",
            "pc 1 8193 1 - - - none -",
            "pc 8193 1 1 05*8193 05*8193 05*8193 none EE*528",
            "pc 8193 1 0 05*8193 05*8193 05*8193 none EE*24580",
            "pb 1 8193 bgra 0 0 05*32772 EE*24580",
            "pc 4294967296 4294967296 0 - - - none EE",
            "pc 4294967296 4294967296 0 - - - - EE",
            "pc 18446744073709551615 1 0 - - - none EE",
            "pc 18446744073709551615 1 1 - - - none -",
        ],
    ),
    (
        "RLE, a source ends inside the last row, and what the decoder answers to that",
        &[
            "pc 2 1 1 05 0505 0505 none EE*8",
            "iu 2 1 1 0 argb 1005200505200505 EE*6 EE*6",
            "pb 2 1 bgra 1 0 01020304 EE*6",
            "iu 2 1 1 0 argb 100310021001 EE*6 EE*6",
            "pc 2 1 1 02 0304 0506 01 EE*10",
            "iu 2 1 1 0 argb 10011002200304200506 EE*6 EE*6",
        ],
    ),
    (
        "RLE, a source ends at a row's start",
        &[
            "pc 1 1 1 - 02 03 none -",
            "pc 1 1 1 01 02 - none EE*4",
            "pc 1 2 1 01 0202 0303 none EE*12",
            "pb 1 1 bgra 1 0 010203 -",
        ],
    ),
    (
        "RLE, a source is short, and so is the destination",
        &["pc 2 1 1 05 0505 0505 none -", "pc 1 1 1 01 02 - none EE*3", "pc 1 1 1 01 02 03 - -"],
    ),
    (
        "raw, a source is short",
        &[
            "pc 1 1 0 - 02 03 none EE*4",
            "pc 1 1 0 - - - none EE*4",
            "pc 1 1 0 01 02 03 - EE*5",
            "pb 1 1 bgra 0 0 010203 EE*4",
            "pc 1 1 0 - 02 03 none EE*3",
        ],
    ),
    (
        "raw, a source is short and another long by as much",
        &["pc 1 1 0 - 0202 03 none EE*4", "pc 2 1 0 01 020304 0506 none EE*7"],
    ),
    (
        "raw, long sources, with room",
        &[
            "pc 1 1 0 0101 02 03 none EE*5",
            "pc 2 1 0 010203 0405 0607 none EE*8",
            "pb 1 1 bgra 0 0 0102030405060708 EE*7",
        ],
    ),
    (
        "raw, long sources, without room for all of it",
        &[
            "pc 1 1 0 0101 02 03 none EE*4",
            "pc 1 1 0 010101 02 03 none EE*4",
            "pb 1 1 bgra 0 0 0102030405060708 EE*4",
            "pb 1 1 bgra 0 1 0102030405060708 EE*5",
            "pc 1 1 0 0101 02 03 none EE*3",
        ],
    ),
];

/// The same of packing: which samples are used, and what is in the header.
const ENCODING_ALIKE: [Place; 4] = [
    ("RLE, long sources", &["pc 2 1 1 010203 040506 070809 none EE*9", "pb 1 1 bgra 1 0 0102030405060708 EE*6"]),
    (
        "bytes behind the last complete pixel",
        &[
            "pb 1 1 bgra 0 0 01020304AABBCC EE*4",
            "pb 2 1 bgra 0 1 0102030405060708AABBCC EE*9",
            "pb 1 1 bgra 1 1 01020304AA EE*8",
        ],
    ),
    (
        "the header of four planes, and what the decoder makes of them with alpha false and true",
        &[
            "pb 1 1 bgra 0 1 01020304 EE*5",
            "iu 1 1 0 0 argb 0403020100 - EE*3",
            "iu 1 1 0 1 argb 0403020100 - EE*3",
            "pb 1 1 bgra 1 1 01020304 EE*8",
            "iu 1 1 1 0 argb 1004100310021001 EE*3 EE*3",
            "iu 1 1 1 1 argb 1004100310021001 EE*3 EE*3",
            "pc 1 1 0 03 02 01 04 EE*5",
            "pc 1 1 1 03 02 01 04 EE*8",
        ],
    ),
    (
        "the header of a refusal",
        &[
            "pb 1 1 bgra 0 0 01020304 -",
            "pb 1 1 bgra 1 0 01020304 -",
            "pb 1 1 bgra 0 0 01020304 EE*3",
            "pb 1 1 bgra 1 0 01020304 EE*5",
        ],
    ),
];

/// Inside the domain, where both do the same.
const ALIKE: [Place; 5] = [
    ("the work area holds the planes after a picture is done", &["iu 1 1 1 1 1:0 10FF1064100A1014 EE*3 EE*3"]),
    (
        "raw and RLE, one pixel: examples 15 and 16",
        &[
            "iu 1 1 0 1 1:0 FF640A14 - EE*3",
            "iu 1 1 1 1 1:1 10FF1064100A1014 EE*3 EE*3",
            "iu 1 1 0 0 1:1 640A14 - EE*3",
            "iu 1 1 1 0 1:0 1064100A1014 EE*3 EE*3",
            "iu 1 1 0 1 2:1 FF644000 - EE*3",
            "iu 1 1 1 1 2:0 10FF106410401000 EE*3 EE*3",
        ],
    ),
    (
        "a body of its minimum size need not be complete: example 17",
        &["iu 48 1 1 0 argb F21077F21077 EE*144 EE*144", "iu 48 1 1 0 argb 020102010201 EE*144 EE*144"],
    ),
    ("alpha is left where the first colour plane is refused", &["iu 2 1 1 1 argb 200102100300 EE*6 EE*6"]),
    ("a subsampled picture needs less", &["iu 2 2 1 0 1:1 2001022002041003100A EE*6 EE*12"]),
];

/// Where streams differ and their bodies do not, and some streams where both do the same. The parser of IronRDP's side is ours: unpacking
/// differs as it does with bodies.
const STREAMS: [Place; 5] = [
    (
        "packing is refused: IronRDP has already written the header byte",
        &[
            "sb 1 1 bgra 0 0 01020304 EE",
            "sb 1 1 bgra 1 0 01020304 EE",
            "sb 1 1 bgra 0 0 01020304 EE*4",
            "sb 1 1 bgra 1 0 01020304 EE*6",
            "sc 1 1 1 03 02 01 04 EE*4",
            "sc 1 1 1 03 - 01 none EE*7",
        ],
    ),
    ("a source is short, and the destination is empty", &["sc 1 1 1 - 02 03 none -", "sb 1 1 bgra 0 0 010203 -"]),
    (
        "the stream lacks its header byte or its pad byte, which the parser refuses",
        &["su 1 1 - - EE*3", "su 0 1 - - EE*3", "su 1 1 20 - EE*3", "su 9000 1 20 - EE*3"],
    ),
    (
        "four planes: the header byte has the alpha flag false, and what the decoder makes of them",
        &[
            "sb 1 1 bgra 0 1 01020304 EE*6",
            "su 1 1 200403020100 - EE*3",
            "su 1 1 000403020100 - EE*3",
            "sb 1 1 bgra 1 1 01020304 EE*9",
            "su 1 1 301004100310021001 EE*3 EE*3",
            "su 1 1 101004100310021001 EE*3 EE*3",
        ],
    ),
    (
        "inside the domain, where both do the same",
        &[
            "sb 1 1 bgra 0 0 01020304 EE*5",
            "sb 1 1 bgra 1 0 01020304 EE*7",
            "sb 1 1 bgra 0 0 01020304 -",
            "su 1 1 2003020100 - EE*3",
            "su 1 1 30100310021001 EE*3 EE*3",
            "su 1 1 2000 - EE*3",
        ],
    ),
];

/// Four-byte pixels: IronRDP unpacks none, and packs each of the four layouts.
const PIXELS: [Place; 5] = [
    (
        "packing from the other layouts, where both do the same",
        &["pb 1 1 rgba 0 1 03020104 EE*5", "pb 1 1 argb 0 1 04030201 EE*5", "pb 1 1 abgr 0 1 04010203 EE*5"],
    ),
    (
        "a layout that there is not",
        &[
            "pb 1 1 4 0 0 01020304 EE*4",
            "pb 1 1 256 0 0 - -",
            "sb 1 1 257 1 1 01020304 EE*9",
            "xu 1 1 0 0 argb 4 010203 - EE*4",
            "xu 1 1 1 0 0:0 256 - - -",
            "xs 1 1 4294967295 2001020300 - EE*4",
            "xs 0 1 4 - - -",
        ],
    ),
    (
        "unpacking to each layout, with alpha and without",
        &[
            "xu 1 1 0 1 argb bgra 04010203 - EE*4",
            "xu 1 1 0 1 argb rgba 04010203 - EE*4",
            "xu 1 1 0 1 argb argb 04010203 - EE*4",
            "xu 1 1 0 1 argb abgr 04010203 - EE*4",
            "xs 1 1 bgra 2001020300 - EE*4",
        ],
    ),
    (
        "alpha stays behind the colour planes, also where one of these is refused",
        &[
            "xu 1 1 1 1 argb bgra 1004100110021003 EE*4 EE*4",
            "xu 1 1 1 1 argb bgra 10041001100200 EE*4 EE*4",
            "xu 2 1 1 1 argb bgra 10070000 EE*8 EE*8",
        ],
    ),
    (
        "the work area or the image has what three bytes a pixel need",
        &["xu 1 1 1 1 argb bgra 1004100110021003 EE*3 EE*4", "xu 1 1 0 0 argb bgra 010203 - EE*3"],
    ),
];

/// Runs all tables.
pub fn print_all() -> ExitCode {
    println!("plane unpacking");
    UNPACKING.iter().for_each(print_place);
    println!("plane packing");
    PACKING.iter().for_each(print_place);
    println!("picture unpacking");
    PICTURES.iter().for_each(print_place);
    println!("picture unpacking, inside the domain");
    ALIKE.iter().for_each(print_place);
    println!("picture packing");
    ENCODING.iter().for_each(print_place);
    println!("picture packing, inside the domain");
    ENCODING_ALIKE.iter().for_each(print_place);
    println!("streams");
    STREAMS.iter().for_each(print_place);
    println!("four-byte pixels");
    PIXELS.iter().for_each(print_place);
    ExitCode::SUCCESS
}

fn print_place((place, cases): &Place) {
    println!(" {place}");
    for text in *cases {
        print_input(&Input::parse(text).expect("the table's own text"));
    }
}

/// Runs one case, inside the domain or outside.
pub fn print_one(text: &str) -> ExitCode {
    let Some(input) = Input::parse(text) else {
        return refused("compare", &format!("not a case: {}", shortened(text)));
    };
    print_input(&input);
    ExitCode::SUCCESS
}

fn print_input(input: &Input) {
    match input {
        Input::Call(case) => print_call(case),
        Input::Picture(case) => print_picture(case),
        Input::Sizes(case) => print_sizes(case),
        Input::Stream(case) => print_stream(case),
        Input::StreamSize(case) => print_stream_size(case),
        Input::Encoding(case) => print_encoding(case),
        Input::Prefix(case) => print_prefix(case),
    }
}

/// What the library answers; `after` is its destination.
fn by_library(case: &Owned, after: &mut [u8]) -> i64 {
    let function = match case.operation {
        Operation::Unpack => ours::unpack,
        Operation::Pack => ours::pack,
    };
    function(&case.source, after, case.width, case.height)
}

fn print_call(case: &Owned) {
    println!("  {case}");
    print_both(case);
}

fn print_both(case: &Owned) {
    let mut ironrdp_after = case.before.clone();
    let ironrdp = case.view().by_ironrdp(&mut ironrdp_after);
    let mut library_after = case.before.clone();
    let library = by_library(case, &mut library_after);
    println!("    IronRDP: {ironrdp}, destination {}", bytes::text(&ironrdp_after));
    println!("    rdp6: {}, destination {}", answer_text(library), bytes::text(&library_after));
}

/// IronRDP gets the work area as it is, and an empty image, to which it appends.
fn print_picture(case: &OwnedPicture) {
    let OwnedPicture { width, height, form, format, .. } = *case;
    println!("  {case}");
    if format == Format::Rgb24 {
        let (mut work, mut image) = (case.work.clone(), Vec::new());
        match case.view().by_ironrdp(&mut work, &mut image) {
            Some(answer) => print_made(&answer, &work, &image),
            None => println!("    IronRDP: its header has no such definition or level"),
        }
    } else {
        print_required(&Input::Picture(case.clone()));
    }
    let (mut work, mut image) = (case.work.clone(), case.image.clone());
    let form = ours::Form {
        rle: form.rle,
        alpha: form.alpha,
        definition: form.definition,
        level: form.level,
        subsampled: form.subsampled,
    };
    let answer = ours::decode(format, form, &case.body, &mut work, &mut image, width, height);
    print_image(answer, &work, &image);
}

/// The same.
fn print_stream(case: &OwnedStream) {
    println!("  {case}");
    if case.format == Format::Rgb24 {
        let (mut work, mut image) = (case.work.clone(), Vec::new());
        let answer = case.view().by_ironrdp(&mut work, &mut image);
        print_made(&answer, &work, &image);
    } else {
        print_required(&Input::Stream(case.clone()));
    }
    let (mut work, mut image) = (case.work.clone(), case.image.clone());
    let answer = ours::stream_decode(case.format, &case.stream, &mut work, &mut image, case.width, case.height);
    print_image(answer, &work, &image);
}

/// What is required of four-byte pixels, which IronRDP has no function for.
fn print_required(case: &Input) {
    match Comparer::new(ours::LIBRARY).wanted(case) {
        Ok((answer, After(after))) => {
            let texts: Vec<_> = after.iter().map(|(name, after)| format!("{name} {}", bytes::text(after))).collect();
            println!("    {}: {answer}, {}", case.reference(), texts.join(", "));
        }
        Err(difference) => println!("    {difference}"),
    }
}

fn print_made(answer: &Answer, work: &[u8], image: &[u8]) {
    println!("    IronRDP: {answer}, work area {}, image made {}", bytes::text(work), bytes::text(image));
}

fn print_image(answer: i64, work: &[u8], image: &[u8]) {
    println!("    rdp6: {}, work area {}, image {}", answer_text(answer), bytes::text(work), bytes::text(image));
}

fn print_stream_size(case: &OwnedStreamSize) {
    println!("  {case}");
    println!("    by formula: work area {}", case.view().work());
    println!("    rdp6: work area {}", ours::stream_work_size(case.four_bytes, &case.stream, case.width, case.height));
}

fn print_sizes(case: &Sizes) {
    println!("  {case}");
    println!("    by formula: work area {}, image {}", case.work(), case.image());
    let (work, image) = ours::LIBRARY.pictures.sizes(case);
    println!("    rdp6: work area {work}, image {image}");
}

/// To pack a body, IronRDP gets a destination with a byte in front, in which its header is left.
fn print_encoding(case: &OwnedEncoding) {
    let Encoding { extent, width, height, rle, .. } = *case;
    println!("  {case}");
    let mut after = Vec::new();
    case.view().fill_destination(&mut after);
    match case.view().by_ironrdp(&mut after) {
        Some(encoded) => {
            let header = encoded.header.map_or("no header".to_owned(), header_text);
            let (answer, after) = (case.view().answer(encoded), bytes::text(&after[case.bytes_before()..]));
            let behind = if extent == Extent::Body { " behind it" } else { "" };
            println!("    IronRDP: {answer}, {header}, destination{behind} {after}");
        }
        None => println!("    IronRDP: it has no such layout"),
    }
    let mut after = case.before.clone();
    let dst = &mut after[..];
    let answer = match case.sources.view() {
        Sources::Channels { colours, alpha } => ours::encode_channels(extent, colours, alpha, dst, rle, width, height),
        Sources::Pixels { pixels, layout, alpha } => {
            ours::encode_bitmap(extent, (pixels, layout), alpha, dst, rle, width, height)
        }
    };
    println!("    rdp6: {}, destination {}", answer_text(answer), bytes::text(&after));
}

fn header_text(header: Header) -> String {
    let Header { rle, alpha, definition } = header;
    format!("header RLE {} alpha {} {definition:?}", u8::from(rle), u8::from(alpha))
}

/// The packing of the model and of both packers, then what the prefix theorem requires of the first M bytes, and what both unpackers do.
fn print_prefix(case: &PrefixCase) {
    let (width, height) = (case.width, case.height);
    let plane = Plane::new(width, height, &case.samples);
    let packing = &plane.model.packing;
    println!("  {case}");
    println!("    the model packs: {} bytes, {}", packing.len(), bytes::text(packing));
    let before = vec![0xEE; packing.len()];
    print_both(&Case::pack(width, height, &case.samples, &before).to_owned());
    let mut wanted = case.before.clone();
    plane.model.fill(&case.samples, width, case.taken, &mut wanted);
    let answer = answer_text(if case.taken == packing.len() { case.taken as i64 } else { -7 });
    println!("    the model, unpacking {}: {answer}, destination {}", case.taken, bytes::text(&wanted));
    let body = [&packing[..case.taken], &case.following].concat();
    print_both(&Case::unpack(width, height, &body, &case.before).to_owned());
}
