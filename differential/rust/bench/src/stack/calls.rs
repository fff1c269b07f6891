//! Calls of each C function that use much stack: runs of many lengths, which the two writers of segments pass to each other, all
//! forms, the widest rows, and refusals.

use super::depth::depth;
use super::RETURN;
use comparer::encoding::given::pixels;
use comparer::encoding::Sources;
use comparer::layout::LAYOUTS;
use comparer::picture::{Form, Planes};
use comparer::planes::PlaneKind;
use comparer::stream::header::joined;
use comparer::Rng;
use std::hint::black_box;

/// The type of C functions, and one of this type that does nothing.
macro_rules! kind {
    ($kind:ident, $nothing:ident: ($($type:ty),*) -> $answer:ty) => {
        type $kind = unsafe extern "C" fn($($type),*) -> $answer;
        unsafe extern "C" fn $nothing($(_: $type),*) -> $answer {
            0
        }
    };
}

type Bytes = *const u8;
type Room = *mut u8;

kind!(OfPlane, no_plane: (Bytes, usize, Room, usize, usize, usize) -> i64);
kind!(Decode, no_decode: (bool, bool, u32, u32, bool, Bytes, usize, Room, usize, Room, usize, usize, usize) -> i64);
kind!(
    DecodePixels,
    no_decode_pixels: (bool, bool, u32, u32, bool, u32, Bytes, usize, Room, usize, Room, usize, usize, usize) -> i64
);
kind!(WorkSize, no_work_size: (bool, u32, bool, usize, usize) -> usize);
kind!(PixelsWorkSize, no_pixels_work_size: (bool, bool, u32, bool, usize, usize) -> usize);
kind!(ImageSize, no_image_size: (usize, usize) -> usize);
kind!(StreamDecode, no_stream_decode: (Bytes, usize, Room, usize, Room, usize, usize, usize) -> i64);
kind!(
    StreamDecodePixels,
    no_stream_decode_pixels: (u32, Bytes, usize, Room, usize, Room, usize, usize, usize) -> i64
);
kind!(StreamWorkSize, no_stream_work_size: (Bytes, usize, usize, usize) -> usize);
kind!(OfPixels, no_pixels: (u32, Bytes, usize, Room, usize, bool, usize, usize) -> i64);
kind!(OfThree, no_three: (Bytes, usize, Bytes, usize, Bytes, usize, Room, usize, bool, usize, usize) -> i64);
kind!(OfFour, no_four: (Bytes, usize, Bytes, usize, Bytes, usize, Bytes, usize, Room, usize, bool, usize, usize) -> i64);

/// What a function is called with: a source, room for the output, and the sides that are passed.
struct Case {
    form: Form,
    source: Vec<u8>,
    room: usize,
    width: usize,
    height: usize,
}

impl Case {
    /// This one; with sides that are refused, a source that is short or damaged, too little room.
    fn variations(self) -> Vec<Case> {
        let Case { form, source, room, width, height } = self;
        let case = |source: &[u8], room, width, height| Case { form, source: source.to_vec(), room, width, height };
        let len = source.len();
        let mut cases = vec![case(&source, room, 0, height), case(&source, room, width, 8193)];
        cases.extend([0, room / 2, room - 1, room].map(|room| case(&source, room, width, height)));
        cases.extend([0, len / 2, len - 1].map(|len| case(&source[..len], room, width, height)));
        cases.extend([0x00, 0xFF].map(|first| {
            let mut damaged = source.clone();
            damaged[0] = first;
            case(&damaged, room, width, height)
        }));
        cases
    }

    /// The source in so many parts of one length.
    fn part(&self, at: usize, parts: usize) -> (Bytes, usize) {
        let len = self.source.len() / parts;
        (self.source[at * len..].as_ptr(), len)
    }
}

const PLANE_KINDS: [PlaneKind; 4] = [PlaneKind::Runs, PlaneKind::Noise, PlaneKind::FlatPage, PlaneKind::RowsAlike];
const WIDTHS: [usize; 10] = [1, 2, 16, 17, 20, 31, 32, 64, 1100, 8192];
const HEIGHTS: [usize; 2] = [1, 3];

/// Cases of every kind of plane at these sides, with their variations. `source` makes the source, and `room` is the room
/// for each pixel.
fn cases(form: Form, room: usize, source: impl Fn(&Planes, usize, usize) -> Vec<u8>) -> Vec<Case> {
    let rng = &mut Rng::new(1027);
    let mut cases = Vec::new();
    for (width, height) in WIDTHS.into_iter().flat_map(|width| HEIGHTS.map(|height| (width, height))) {
        for plane_kind in PLANE_KINDS {
            let planes = Planes::with_kinds(rng, form, (width, height), &[plane_kind]);
            let (source, room) = (source(&planes, width, height), room * width * height + 1);
            cases.extend(Case { form, source, room, width, height }.variations());
        }
    }
    cases
}

/// The stack that a function takes, its return address with it: how much further down it goes than one of its type that does nothing,
/// called by the same code.
fn taken<Function: Copy>(function: Function, nothing: Function, call: &mut dyn FnMut(Function)) -> usize {
    let mut depth_of = |called: Function| depth(&mut || call(black_box(called)));
    RETURN + depth_of(function) - depth_of(nothing)
}

/// The most that a function takes in any of these cases. The call must do nothing else that takes stack, as allocating does.
fn most<Function: Copy>(
    function: Function,
    nothing: Function,
    cases: &[Case],
    call: impl Fn(Function, &Case, &mut [u8]),
) -> usize {
    let of_case = |case: &Case| {
        let mut room = vec![0; case.room];
        taken(function, nothing, &mut |function| call(function, case, &mut room))
    };
    cases.iter().map(of_case).max().expect("some cases")
}

fn of_plane(function: OfPlane, room: usize, source: impl Fn(&[u8], usize, usize) -> Vec<u8>) -> usize {
    let of_first = |planes: &Planes, width, height| source(&planes.colours[0], width, height);
    most(function, no_plane, &cases(Form::argb(true, false), room, of_first), |function, case, dst| {
        let (source, len) = case.part(0, 1);
        // SAFETY: both slices are valid during the call, and their lengths are right.
        unsafe { function(source, len, dst.as_mut_ptr(), dst.len(), case.width, case.height) };
    })
}

/// All forms of pictures.
fn forms() -> Vec<Form> {
    let flags = [(false, false), (false, true), (true, false), (true, true)];
    let aycocg = |rle, alpha, subsampled| Form::aycocg(rle, alpha, 3, subsampled);
    let of_flags = |(rle, alpha)| [Form::argb(rle, alpha), aycocg(rle, alpha, false), aycocg(rle, alpha, true)];
    flags.into_iter().flat_map(of_flags).collect()
}

fn of_decode() -> usize {
    let bodies = |form| cases(form, 6, move |planes, width, height| planes.body(form, width, height));
    let cases: Vec<Case> = forms().into_iter().flat_map(bodies).collect();
    most(ours::rdp6_decode as Decode, no_decode, &cases, |function, case, room| {
        let Form { rle, alpha, definition, level, subsampled } = case.form;
        let (body, body_len) = case.part(0, 1);
        let (image, work) = room.split_at_mut(case.room / 2);
        let (image, image_len, work, work_len) = (image.as_mut_ptr(), image.len(), work.as_mut_ptr(), work.len());
        let (width, height) = (case.width, case.height);
        // SAFETY: all slices are valid during the call, and their lengths are right.
        unsafe {
            function(
                rle, alpha, definition, level, subsampled, body, body_len, work, work_len, image, image_len, width,
                height,
            )
        };
    })
}

/// The layouts that there are, and one that there is not, by turns.
fn layout(case: &Case) -> u32 {
    ((case.source.len() + case.room) % (LAYOUTS.len() + 1)) as u32
}

fn of_decode_pixels() -> usize {
    let bodies = |form| cases(form, 8, move |planes, width, height| planes.body(form, width, height));
    let cases: Vec<Case> = forms().into_iter().flat_map(bodies).collect();
    most(ours::rdp6_decode_pixels as DecodePixels, no_decode_pixels, &cases, |function, case, room| {
        let Form { rle, alpha, definition, level, subsampled } = case.form;
        let (layout, (body, body_len)) = (layout(case), case.part(0, 1));
        let (image, work) = room.split_at_mut(case.room / 2);
        let (image, image_len, work, work_len) = (image.as_mut_ptr(), image.len(), work.as_mut_ptr(), work.len());
        let (width, height) = (case.width, case.height);
        // SAFETY: all slices are valid during the call, and their lengths are right.
        unsafe {
            function(
                rle, alpha, definition, level, subsampled, layout, body, body_len, work, work_len, image, image_len,
                width, height,
            )
        };
    })
}

/// Streams of all forms, with so much room for each pixel.
fn stream_cases(room: usize) -> Vec<Case> {
    let stream = |form| {
        cases(form, room, move |planes, width, height| {
            joined(form, 0, &planes.body(form, width, height), 0).expect("a form that has a header byte")
        })
    };
    forms().into_iter().flat_map(stream).collect()
}

fn of_stream_decode_pixels() -> usize {
    let (function, cases) = (ours::rdp6_stream_decode_pixels as StreamDecodePixels, stream_cases(8));
    most(function, no_stream_decode_pixels, &cases, |function, case, room| {
        let (layout, (stream, len)) = (layout(case), case.part(0, 1));
        let (image, work) = room.split_at_mut(case.room / 2);
        let (image, image_len, work, work_len) = (image.as_mut_ptr(), image.len(), work.as_mut_ptr(), work.len());
        // SAFETY: all slices are valid during the call, and their lengths are right.
        unsafe { function(layout, stream, len, work, work_len, image, image_len, case.width, case.height) };
    })
}

fn of_stream_decode() -> usize {
    let cases = stream_cases(6);
    most(ours::rdp6_stream_decode as StreamDecode, no_stream_decode, &cases, |function, case, room| {
        let (stream, len) = case.part(0, 1);
        let (image, work) = room.split_at_mut(case.room / 2);
        let (image, image_len, work, work_len) = (image.as_mut_ptr(), image.len(), work.as_mut_ptr(), work.len());
        // SAFETY: all slices are valid during the call, and their lengths are right.
        unsafe { function(stream, len, work, work_len, image, image_len, case.width, case.height) };
    })
}

fn of_stream_work_size(function: StreamWorkSize) -> usize {
    let call = |header: u8| {
        // SAFETY: one byte, which is valid during the call.
        let mut call = |size: StreamWorkSize| _ = unsafe { size(&raw const header, 1, 8192, 8191) };
        taken(function, no_stream_work_size, &mut call)
    };
    (0..=255).map(call).max().expect("some header bytes")
}

/// The forms that a packer is asked for.
fn packed_forms(alpha: bool) -> [Form; 2] {
    [true, false].map(|rle| Form::argb(rle, alpha))
}

fn of_pixels(function: OfPixels, alpha: bool) -> usize {
    let pixels_of = |planes: &Planes, _, _| match pixels(planes, LAYOUTS[0]) {
        Sources::Pixels { pixels, .. } => pixels,
        Sources::Channels { .. } => unreachable!("pixels"),
    };
    let cases: Vec<Case> = packed_forms(alpha).into_iter().flat_map(|form| cases(form, 8, pixels_of)).collect();
    most(function, no_pixels, &cases, |function, case, dst| {
        let (layout, (source, len)) = (layout(case), case.part(0, 1));
        let (at, room, rle) = (dst.as_mut_ptr(), dst.len(), case.form.rle);
        // SAFETY: both slices are valid during the call, and their lengths are right.
        unsafe { function(layout, source, len, at, room, rle, case.width, case.height) };
    })
}

fn channel_cases(alpha: bool) -> Vec<Case> {
    let channels = |planes: &Planes, _, _| planes.colours.iter().chain(&planes.alpha).flatten().copied().collect();
    packed_forms(alpha).into_iter().flat_map(|form| cases(form, 8, channels)).collect()
}

fn of_three(function: OfThree) -> usize {
    most(function, no_three, &channel_cases(false), |function, case, dst| {
        let [(r, r_len), (g, g_len), (b, b_len)] = [0, 1, 2].map(|at| case.part(at, 3));
        let (at, room, rle) = (dst.as_mut_ptr(), dst.len(), case.form.rle);
        // SAFETY: all slices are valid during the call, and their lengths are right.
        unsafe { function(r, r_len, g, g_len, b, b_len, at, room, rle, case.width, case.height) };
    })
}

fn of_four(function: OfFour) -> usize {
    most(function, no_four, &channel_cases(true), |function, case, dst| {
        let [(r, r_len), (g, g_len), (b, b_len), (a, a_len)] = [0, 1, 2, 3].map(|at| case.part(at, 4));
        let (at, room, rle) = (dst.as_mut_ptr(), dst.len(), case.form.rle);
        // SAFETY: all slices are valid during the call, and their lengths are right.
        unsafe { function(r, r_len, g, g_len, b, b_len, a, a_len, at, room, rle, case.width, case.height) };
    })
}

fn of_work_size() -> usize {
    let call = |form: Form| {
        let Form { rle, definition, subsampled, .. } = form;
        // SAFETY: no pointer is passed.
        let mut call = |size: WorkSize| _ = unsafe { size(rle, definition, subsampled, 8192, 8191) };
        taken(ours::rdp6_work_size as WorkSize, no_work_size, &mut call)
    };
    forms().into_iter().map(call).max().expect("some forms")
}

fn of_pixels_work_size() -> usize {
    let call = |form: Form| {
        let Form { rle, alpha, definition, subsampled, .. } = form;
        // SAFETY: no pointer is passed.
        let mut call = |size: PixelsWorkSize| _ = unsafe { size(rle, alpha, definition, subsampled, 8192, 8191) };
        taken(ours::rdp6_pixels_work_size as PixelsWorkSize, no_pixels_work_size, &mut call)
    };
    forms().into_iter().map(call).max().expect("some forms")
}

fn of_image_size(function: ImageSize) -> usize {
    // SAFETY: no pointer is passed.
    let mut call = |size: ImageSize| _ = unsafe { size(8192, 8191) };
    taken(function, no_image_size, &mut call)
}

/// Every C function with the most stack that it took.
pub fn deepest() -> [(&'static str, usize); 20] {
    let packed =
        |plane: &[u8], width, height| original::pack(plane, width, height).expect("a complete plane with room");
    [
        ("rdp6_decompress_8bpp_plane", of_plane(ours::rdp6_decompress_8bpp_plane, 1, packed)),
        ("rdp6_compress_8bpp_plane", of_plane(ours::rdp6_compress_8bpp_plane, 2, |plane, _, _| plane.to_vec())),
        ("rdp6_decode", of_decode()),
        ("rdp6_work_size", of_work_size()),
        ("rdp6_image_size", of_image_size(ours::rdp6_image_size)),
        ("rdp6_decode_pixels", of_decode_pixels()),
        ("rdp6_pixels_work_size", of_pixels_work_size()),
        ("rdp6_pixels_image_size", of_image_size(ours::rdp6_pixels_image_size)),
        ("rdp6_encode_bitmap", of_pixels(ours::rdp6_encode_bitmap, false)),
        ("rdp6_encode_bitmap_alpha", of_pixels(ours::rdp6_encode_bitmap_alpha, true)),
        ("rdp6_encode_channels", of_three(ours::rdp6_encode_channels)),
        ("rdp6_encode_channels_alpha", of_four(ours::rdp6_encode_channels_alpha)),
        ("rdp6_stream_decode", of_stream_decode()),
        ("rdp6_stream_work_size", of_stream_work_size(ours::rdp6_stream_work_size)),
        ("rdp6_stream_decode_pixels", of_stream_decode_pixels()),
        ("rdp6_stream_pixels_work_size", of_stream_work_size(ours::rdp6_stream_pixels_work_size)),
        ("rdp6_stream_encode_bitmap", of_pixels(ours::rdp6_stream_encode_bitmap, false)),
        ("rdp6_stream_encode_bitmap_alpha", of_pixels(ours::rdp6_stream_encode_bitmap_alpha, true)),
        ("rdp6_stream_encode_channels", of_three(ours::rdp6_stream_encode_channels)),
        ("rdp6_stream_encode_channels_alpha", of_four(ours::rdp6_stream_encode_channels_alpha)),
    ]
}
