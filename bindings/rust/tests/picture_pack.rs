//! Packing a picture, as a stream and as a body. The expected results are written from docs/FORMAT.md.

#[macro_use]
mod support;

use rdp6::{
    decode, stream_decode, stream_work_size, ABgrChannels, ARgbChannels, AlphaChannel, BgrAChannels, BitmapEncodeError,
    BitmapStreamEncoder, ColorChannels, Encoded, PixelAlpha, PixelFormat, Refusal, RgbAChannels,
};
use support::{argb, hex, Guarded, Layout, Noise, LAYOUTS, REFUSED_SIDES};

/// Which of the eight methods is called, and how. Without a layout the source is channels.
#[derive(Clone, Copy, Debug)]
struct Form {
    stream: bool,
    layout: Option<Layout>,
    alpha: bool,
    rle: bool,
}

/// All forms.
fn forms() -> impl Iterator<Item = Form> {
    let sources = LAYOUTS.into_iter().map(Some).chain([None]);
    sources
        .flat_map(|layout| (0..8).map(move |i| Form { stream: i & 4 != 0, layout, alpha: i & 2 != 0, rle: i & 1 != 0 }))
}

/// The samples of R, G, B and A.
type Channels = [Vec<u8>; 4];

/// The number of bytes or the refusal, and the destination after the call. Before it all its bytes are `EE`.
type Outcome = (Result<usize, Refusal>, Vec<u8>);

/// Pixels, as many as the shortest channel has samples.
fn pixels(layout: Layout, [r, g, b, a]: &Channels) -> Vec<u8> {
    let count = [r, g, b, a].iter().map(|channel| channel.len()).min().unwrap();
    (0..count).flat_map(|i| layout.pixel([r[i], g[i], b[i], a[i]])).collect()
}

fn pack_pixels_body(
    layout: Layout,
    alpha: bool,
    encoder: &mut BitmapStreamEncoder,
    src: &[u8],
    dst: &mut [u8],
    rle: bool,
) -> Result<Encoded, Refusal> {
    match alpha {
        false => with_layout!(layout, F, encoder.encode_bitmap_body::<F>(src, dst, rle)),
        true => with_layout!(layout, F, encoder.encode_bitmap_body_alpha::<F>(src, dst, rle)),
    }
}

fn pack_pixels_stream(
    layout: Layout,
    alpha: bool,
    encoder: &mut BitmapStreamEncoder,
    src: &[u8],
    dst: &mut [u8],
    rle: bool,
) -> Result<usize, Refusal> {
    match alpha {
        false => with_layout!(layout, F, encoder.encode_bitmap::<F>(src, dst, rle)),
        true => with_layout!(layout, F, encoder.encode_bitmap_alpha::<F>(src, dst, rle)),
    }
}

/// Calls a method that packs a body, and checks the header record: FORMAT 7.5, its alpha flag is false for four planes too.
fn pack_body(
    form: Form,
    encoder: &mut BitmapStreamEncoder,
    channels: &Channels,
    dst: &mut [u8],
) -> Result<usize, Refusal> {
    let [r, g, b, a] = channels;
    let answer = match (form.layout, form.alpha) {
        (None, false) => encoder.encode_channels_body((r, g, b), dst, form.rle),
        (None, true) => encoder.encode_channels_body_alpha((r, g, b, a), dst, form.rle),
        (Some(layout), alpha) => pack_pixels_body(layout, alpha, encoder, &pixels(layout, channels), dst, form.rle),
    };
    answer.map(|Encoded { bytes, header }| {
        assert_eq!(header, argb(form.rle, false));
        bytes
    })
}

fn pack_stream(
    form: Form,
    encoder: &mut BitmapStreamEncoder,
    channels: &Channels,
    dst: &mut [u8],
) -> Result<usize, Refusal> {
    let [r, g, b, a] = channels;
    match (form.layout, form.alpha) {
        (None, false) => encoder.encode_channels_stream((r, g, b), dst, form.rle),
        (None, true) => encoder.encode_channels_stream_alpha((r, g, b, a), dst, form.rle),
        (Some(layout), alpha) => pack_pixels_stream(layout, alpha, encoder, &pixels(layout, channels), dst, form.rle),
    }
}

fn pack(form: Form, channels: &Channels, room: usize, sides: (usize, usize)) -> Outcome {
    let mut dst = Guarded::filled(0xEE, room);
    let mut encoder = BitmapStreamEncoder::new(sides.0, sides.1);
    let pack = if form.stream { pack_stream } else { pack_body };
    let answer = pack(form, &mut encoder, channels, dst.slice());
    (answer, dst.after().to_vec())
}

/// The header byte of a stream: the same for three planes and for four. A body has none.
fn header_byte(form: Form) -> Vec<u8> {
    hex(match (form.stream, form.rle) {
        (false, _) => "-",
        (true, false) => "20",
        (true, true) => "30",
    })
}

fn one_pixel() -> Channels {
    ["03", "02", "01", "04"].map(hex)
}

/// Two rows of 17 with their segments by the rules of FORMAT 5: R is example 14 of FORMAT 10, each other channel has one value.
fn worked() -> (Channels, [Vec<Vec<u8>>; 4]) {
    let flat = |value: &str| vec![hex(&format!("1F {value}")), hex(&format!("10 {value}")), hex("1F 00"), hex("10 00")];
    let r = ["1F 09", "10 09", "1F 02", "10 02"].map(hex).to_vec();
    (["09*17,0A*17", "02*34", "03*34", "FF*34"].map(hex), [r, flat("02"), flat("03"), flat("FF")])
}

/// The planes in the order of the body: R, G, B, or A, R, G, B.
fn sent_planes<T: Clone>(form: Form, planes: &[T; 4]) -> Vec<T> {
    let [r, g, b, a] = planes.clone();
    if form.alpha {
        vec![a, r, g, b]
    } else {
        vec![r, g, b]
    }
}

/// The pieces of a body that are written complete or not at all: segments, or the raw body.
fn pieces(form: Form, samples: &Channels, segments: &[Vec<Vec<u8>>; 4]) -> Vec<Vec<u8>> {
    if form.rle {
        return sent_planes(form, segments).concat();
    }
    vec![[sent_planes(form, samples).concat(), vec![0]].concat()]
}

/// What is written with all the room that is needed: the header byte of a stream, and the body.
fn complete(form: Form, samples: &Channels, segments: &[Vec<Vec<u8>>; 4]) -> Vec<u8> {
    [header_byte(form), pieces(form, samples, segments).concat()].concat()
}

/// With destinations of every length: as many complete pieces as fit are written, and the rest is unchanged. The header byte is written if
/// all pieces are; until then its place is unchanged.
fn check_every_room(form: Form, samples: &Channels, segments: &[Vec<Vec<u8>>; 4], sides: (usize, usize)) {
    let complete = complete(form, samples, segments);
    for room in 0..complete.len() {
        let mut written = vec![0xEE; usize::from(form.stream)];
        for piece in pieces(form, samples, segments) {
            if written.len() + piece.len() > room {
                break;
            }
            written.extend(piece);
        }
        written.resize(room, 0xEE);
        let refused = (Err(Refusal::BufferTooSmall), written);
        assert_eq!(pack(form, samples, room, sides), refused, "{form:?}, room {room}");
    }
    for more in 0..3 {
        let packed = (Ok(complete.len()), [&complete[..], &vec![0xEE; more]].concat());
        assert_eq!(pack(form, samples, complete.len() + more, sides), packed, "{form:?}, {more} bytes more");
    }
}

#[test]
fn one_pixel_with_every_room() {
    let segments = ["10 03", "10 02", "10 01", "10 04"].map(|segment| vec![hex(segment)]);
    for form in forms() {
        check_every_room(form, &one_pixel(), &segments, (1, 1));
    }
}

/// The same written out, for pixels: R is 3, G 2, B 1 and A 4.
#[test]
fn one_pixel_in_every_layout_and_form() {
    for (stream, alpha, rle, packed) in [
        (true, false, true, "30 10 03 10 02 10 01"),
        (true, false, false, "20 03 02 01 00"),
        (true, true, true, "30 10 04 10 03 10 02 10 01"),
        (true, true, false, "20 04 03 02 01 00"),
        (false, false, true, "10 03 10 02 10 01"),
        (false, false, false, "03 02 01 00"),
        (false, true, true, "10 04 10 03 10 02 10 01"),
        (false, true, false, "04 03 02 01 00"),
    ] {
        let packed = hex(packed);
        for (layout, pixel) in [
            (Layout::BgrA, [1, 2, 3, 4]),
            (Layout::RgbA, [3, 2, 1, 4]),
            (Layout::ARgb, [4, 3, 2, 1]),
            (Layout::ABgr, [4, 1, 2, 3]),
        ] {
            let mut dst = Guarded::filled(0xEE, packed.len());
            let mut encoder = BitmapStreamEncoder::new(1, 1);
            let answer = match stream {
                true => pack_pixels_stream(layout, alpha, &mut encoder, &pixel, dst.slice(), rle),
                false => pack_pixels_body(layout, alpha, &mut encoder, &pixel, dst.slice(), rle).map(|body| body.bytes),
            };
            assert_eq!(answer, Ok(packed.len()), "{layout:?}");
            assert_eq!(dst.after(), packed, "{layout:?}");
        }
    }
}

#[test]
fn worked_planes_with_every_room() {
    let (samples, segments) = worked();
    for form in forms() {
        check_every_room(form, &samples, &segments, (17, 2));
    }
}

#[test]
fn sides_are_checked_first() {
    for (width, height, refusal) in REFUSED_SIDES {
        for form in forms() {
            for (channels, room) in
                [(Channels::default(), 0), (one_pixel(), 0), (one_pixel(), 20), (Channels::default(), 20)]
            {
                let refused = pack(form, &channels, room, (width, height));
                assert_eq!(refused, (Err(refusal), vec![0xEE; room]), "{form:?} {width} x {height}");
            }
        }
    }
}

/// 11 comes before 12 and changes nothing, whichever channel is short.
#[test]
fn short_sources_are_refused() {
    let (complete, _) = worked();
    for form in forms() {
        for short in 0..if form.alpha { 4 } else { 3 } {
            for length in [0, 1, 17, 33] {
                let mut channels = complete.clone();
                channels[short].truncate(length);
                for room in [0, 1, 5, 400] {
                    let refused = pack(form, &channels, room, (17, 2));
                    assert_eq!(refused, (Err(Refusal::NotEnoughBytes), vec![0xEE; room]), "{form:?} {short}");
                }
            }
        }
    }
    // A longer channel does not make up for a short one.
    let mut channels = complete;
    channels[0].pop();
    channels[1].push(2);
    for stream in [false, true] {
        let refused = pack(Form { stream, layout: None, alpha: false, rle: false }, &channels, 400, (17, 2));
        assert_eq!(refused, (Err(Refusal::NotEnoughBytes), vec![0xEE; 400]));
    }
}

/// FORMAT 7.1: a trailing part of a pixel does not count.
#[test]
fn only_complete_pixels_count() {
    let planes = |layout, alpha| match (layout, alpha) {
        (Layout::BgrA, false) => "03 07 02 06 01 05 00",
        (Layout::RgbA, false) => "01 05 02 06 03 07 00",
        (Layout::ARgb, false) => "02 06 03 07 04 08 00",
        (Layout::ABgr, false) => "04 08 03 07 02 06 00",
        (Layout::BgrA, true) => "04 08 03 07 02 06 01 05 00",
        (Layout::RgbA, true) => "04 08 01 05 02 06 03 07 00",
        (Layout::ARgb, true) => "01 05 02 06 03 07 04 08 00",
        (Layout::ABgr, true) => "01 05 04 08 03 07 02 06 00",
    };
    for (length, (layout, alpha)) in
        (0..=12).flat_map(|length| LAYOUTS.iter().flat_map(move |l| [(length, (*l, false)), (length, (*l, true))]))
    {
        let pixels = &[1, 2, 3, 4, 5, 6, 7, 8, 9, 10, 11, 12][..length];
        let mut encoder = BitmapStreamEncoder::new(2, 1);
        let planes = hex(planes(layout, alpha));
        let (mut stream, mut body) = (Guarded::filled(0xEE, planes.len() + 2), Guarded::filled(0xEE, planes.len() + 1));
        let streamed = pack_pixels_stream(layout, alpha, &mut encoder, pixels, stream.slice(), false);
        let packed = pack_pixels_body(layout, alpha, &mut encoder, pixels, body.slice(), false).map(|body| body.bytes);
        if length < 8 {
            assert_eq!((streamed, packed), (Err(Refusal::NotEnoughBytes), Err(Refusal::NotEnoughBytes)));
            assert_eq!(stream.after(), vec![0xEE; planes.len() + 2], "{layout:?}, {length} bytes");
            assert_eq!(body.after(), vec![0xEE; planes.len() + 1], "{layout:?}, {length} bytes");
        } else {
            assert_eq!((streamed, packed), (Ok(planes.len() + 1), Ok(planes.len())));
            assert_eq!(stream.after(), [&[0x20][..], &planes, &[0xEE]].concat(), "{layout:?}, {length} bytes");
            assert_eq!(body.after(), [&planes[..], &[0xEE]].concat(), "{layout:?}, {length} bytes");
        }
    }
}

/// Of longer channels the first width x height samples are packed, also where the next samples would lengthen the last run.
#[test]
fn sources_may_be_longer() {
    let (samples, segments) = worked();
    let mut longer = samples.clone();
    for (channel, more) in longer.iter_mut().zip(1..) {
        let last = channel[33];
        channel.resize(34 + more, last);
    }
    for form in forms() {
        let complete = complete(form, &samples, &segments);
        assert_eq!(pack(form, &longer, complete.len(), (17, 2)), (Ok(complete.len()), complete), "{form:?}");
    }
}

#[test]
fn an_encoder_may_be_used_again() {
    let mut encoder = BitmapStreamEncoder::new(1, 1);
    let mut dst = [0; 7];
    assert_eq!(encoder.encode_channels_stream(([1], [2], [3]), &mut dst[..6], true), Err(Refusal::BufferTooSmall));
    assert_eq!(encoder.encode_channels_stream(([1], [2], [3]), &mut dst, true), Ok(7));
    assert_eq!(encoder.clone().encode_channels_stream(([1], [2], [3]), &mut dst, false), Ok(5));
}

/// A channel is anything that is a slice of bytes.
#[test]
fn channels_of_several_kinds() {
    let (r, g, b, a) = ([1, 2], vec![3, 4], vec![5, 6], [7, 8]);
    let mut stream = [0; 10];
    let answer = BitmapStreamEncoder::new(2, 1).encode_channels_stream_alpha(
        (r.iter(), g.into_iter(), &b[..], a),
        &mut stream,
        false,
    );
    assert_eq!(answer, Ok(10));
    assert_eq!(stream, [0x20, 7, 8, 1, 2, 3, 4, 5, 6, 0]);
}

/// A service's function over any layout, with IronRDP's bounds.
fn pack_layout<F: PixelFormat + PixelAlpha>(pixels: &[u8], dst: &mut [u8]) -> Result<usize, BitmapEncodeError> {
    let width = pixels.len() / F::STRIDE;
    BitmapStreamEncoder::new(width, 1).encode_bitmap_alpha::<F>(pixels, dst, false)
}

/// The constants of a layout are the offsets that the library uses.
fn check_constants<F: ColorChannels + AlphaChannel>(offsets: (usize, usize, usize, usize)) {
    assert_eq!(F::STRIDE, 4);
    assert_eq!((F::R, F::G, F::B, F::A), offsets);
    let pixel = [10, 20, 30, 40];
    let mut stream = [0; 6];
    assert_eq!(pack_layout::<F>(&pixel, &mut stream), Ok(6));
    assert_eq!(stream, [0x20, pixel[F::A], pixel[F::R], pixel[F::G], pixel[F::B], 0]);
}

#[test]
fn the_constants_are_those_of_the_layout() {
    check_constants::<BgrAChannels>((2, 1, 0, 3));
    check_constants::<RgbAChannels>((0, 1, 2, 3));
    check_constants::<ARgbChannels>((1, 2, 3, 0));
    check_constants::<ABgrChannels>((3, 2, 1, 0));
}

/// Pictures of random samples, with their image.
fn for_each_picture(mut check: impl FnMut(&Channels, &[u8], (usize, usize))) {
    let mut noise = Noise(0xA076_1D64_78BD_642F);
    for _ in 0..200 {
        let (width, height) = (1 + noise.below(70) as usize, 1 + noise.below(6) as usize);
        let channels: Channels = [(); 4].map(|_| noise.samples(width * height));
        let [r, g, b, _] = &channels;
        let rgb: Vec<u8> = (0..width * height).flat_map(|i| [r[i], g[i], b[i]]).collect();
        check(&channels, &rgb, (width, height));
    }
}

/// Unpacking returns what was packed: a stream as it is or, of four planes, with bit 5 of its first byte cleared.
#[test]
fn streams_there_and_back() {
    for_each_picture(|channels, rgb, (width, height)| {
        for form in forms().filter(|form| form.stream) {
            // A plane has at most two bytes a sample.
            let (answer, mut stream) = pack(form, channels, 8 * width * height + 1, (width, height));
            stream.truncate(answer.unwrap());
            if form.alpha {
                stream[0] &= !0x20;
            }
            let mut work = Guarded::filled(0xEE, stream_work_size(&stream, width, height));
            let mut image = Guarded::filled(0xEE, rgb.len());
            let answer = stream_decode(&stream, work.slice(), image.slice(), width, height);
            assert_eq!(answer, Ok(rgb.len()), "{width} x {height}, {form:?}");
            assert_eq!(image.after(), rgb, "{width} x {height}, {form:?}");
            work.after();
        }
    });
}

/// The same for a body: three planes with the returned header record, four planes with its alpha flag set.
#[test]
fn bodies_there_and_back() {
    for_each_picture(|channels, rgb, (width, height)| {
        for form in forms().filter(|form| !form.stream) {
            let (answer, body) = pack(form, channels, 8 * width * height + 1, (width, height));
            let mut work = Guarded::filled(0xEE, rgb.len());
            let mut image = Guarded::filled(0xEE, rgb.len());
            let header = argb(form.rle, form.alpha);
            let answer = decode(header, &body[..answer.unwrap()], work.slice(), image.slice(), width, height);
            assert_eq!(answer, Ok(rgb.len()), "{width} x {height}, {form:?}");
            assert_eq!(image.after(), rgb, "{width} x {height}, {form:?}");
            work.after();
        }
    });
}

/// A stream has one byte more than its body, and behind the first byte the bytes of the body.
#[test]
fn streams_are_a_header_byte_and_the_body() {
    for_each_picture(|channels, rgb, sides| {
        for form in forms().filter(|form| form.stream) {
            let room = 3 * rgb.len();
            let (body_count, body) = pack(Form { stream: false, ..form }, channels, room, sides);
            let (count, stream) = pack(form, channels, room + 1, sides);
            assert_eq!(count, body_count.map(|count| count + 1), "{form:?}");
            assert_eq!(stream, [header_byte(form), body].concat(), "{form:?}");
        }
    });
}

#[test]
fn threads_do_not_affect_each_other() {
    let (samples, segments) = worked();
    std::thread::scope(|scope| {
        for form in forms() {
            let (samples, segments) = (&samples, &segments);
            scope.spawn(move || {
                let complete = complete(form, samples, segments);
                for _ in 0..200 {
                    assert_eq!(pack(form, samples, complete.len(), (17, 2)), (Ok(complete.len()), complete.clone()));
                }
            });
        }
    });
}
