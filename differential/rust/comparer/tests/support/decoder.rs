//! A picture decoder in small steps, written from docs/FORMAT.md. A wrong one does one of them differently. IronRDP unpacks the
//! planes of an RLE picture: tests/wrong_unpackers.rs has wrong unpackers of planes.

use comparer::case::MAX_SIDE;
use comparer::picture::case::{ARGB, AYCOCG};
use comparer::picture::check::Pictures;
use comparer::picture::Form;
use comparer::{Format, Layout};

/// A buffer of a call. `read` and `write` do not check the index: a planted mistake may be out of bounds, as it would be in a library.
#[derive(Clone, Copy)]
pub struct Slice {
    pub at: *mut u8,
    pub len: usize,
}

impl Slice {
    pub fn bytes(&self) -> &[u8] {
        if self.len == 0 {
            return &[];
        }
        // SAFETY: valid during the call.
        unsafe { std::slice::from_raw_parts(self.at, self.len) }
    }

    pub fn bytes_mut(&mut self) -> &mut [u8] {
        if self.len == 0 {
            return &mut [];
        }
        // SAFETY: valid during the call, and not used elsewhere.
        unsafe { std::slice::from_raw_parts_mut(self.at, self.len) }
    }

    pub fn read(&self, at: usize) -> u8 {
        // SAFETY: inside, or outside by a planted mistake, in a page that the comparer watches.
        unsafe { self.at.add(at).read_volatile() }
    }

    pub fn write(&self, at: usize, byte: u8) {
        // SAFETY: as for `read`.
        unsafe { self.at.add(at).write_volatile(byte) }
    }
}

/// What a decoder is called with.
pub struct Call {
    pub form: Form,
    pub format: Format,
    pub width: usize,
    pub height: usize,
    pub body: Slice,
    pub work: Slice,
    pub image: Slice,
}

impl Call {
    /// The samples of a full plane, or the largest number.
    pub fn full(&self) -> usize {
        self.width.saturating_mul(self.height)
    }

    /// The length of the alpha plane of a raw body, where its colour planes begin.
    pub fn alpha_len(&self) -> usize {
        usize::from(self.form.alpha) * self.full()
    }
}

/// The minimum size of an RLE plane.
pub fn min_plane((width, height): (usize, usize)) -> usize {
    height.saturating_mul(width.div_ceil(47))
}

/// The steps, each as docs/FORMAT.md has it.
pub trait Decoder {
    fn decode(call: &mut Call) -> i64 {
        let refused = Self::refused(call);
        if refused != 0 {
            return -refused;
        }
        if call.form.rle {
            if let Err(number) = Self::unpack_planes(call) {
                Self::after_refusal(call, number);
                return -number;
            }
        }
        Self::write_image(call);
        Self::finish(call)
    }

    /// The refusal before anything is read, or 0.
    fn refused(call: &Call) -> i64 {
        let tests = Self::tests(call);
        let holds = |number: &i64| tests[*number as usize - 1];
        Self::order().into_iter().find(holds).unwrap_or(0)
    }

    fn order() -> [i64; 6] {
        [1, 2, 3, 4, 5, 6]
    }

    /// Which of the refusals 1 to 6 have a reason.
    fn tests(call: &Call) -> [bool; 6] {
        [
            call.width == 0 || call.height == 0,
            call.width > Self::max_side() || call.height > Self::max_side(),
            Self::level_refused(call.form) || Self::layout_refused(call.format),
            call.body.len < Self::min_body(call),
            call.work.len < Self::min_work(call),
            call.image.len < Self::min_image(call),
        ]
    }

    fn max_side() -> usize {
        MAX_SIDE
    }

    fn level_refused(form: Form) -> bool {
        match form.definition {
            ARGB => false,
            AYCOCG => form.level == 0 || form.level > 7,
            _ => true,
        }
    }

    fn layout_refused(format: Format) -> bool {
        matches!(format, Format::Pixels(Layout(number)) if number > 3)
    }

    fn is_subsampled(form: Form) -> bool {
        form.definition != ARGB && form.subsampled
    }

    fn chroma_sides(call: &Call) -> (usize, usize) {
        if Self::is_subsampled(call.form) {
            (call.width.div_ceil(2), call.height.div_ceil(2))
        } else {
            (call.width, call.height)
        }
    }

    /// The samples of a chroma plane.
    fn chroma_len(call: &Call) -> usize {
        let (width, height) = Self::chroma_sides(call);
        width.saturating_mul(height)
    }

    /// The samples of the three colour planes.
    fn colour_len(call: &Call) -> usize {
        call.full().saturating_add(Self::chroma_len(call).saturating_mul(2))
    }

    fn min_body(call: &Call) -> usize {
        if call.form.rle {
            Self::min_rle_body(call)
        } else {
            call.alpha_len().saturating_add(Self::colour_len(call))
        }
    }

    fn min_rle_body(call: &Call) -> usize {
        let full = min_plane((call.width, call.height));
        let chroma = min_plane(Self::chroma_sides(call));
        let alpha = if call.form.alpha { full } else { 0 };
        alpha.saturating_add(full).saturating_add(chroma.saturating_mul(2))
    }

    fn min_work(call: &Call) -> usize {
        if call.form.rle {
            Self::colour_len(call).saturating_add(Self::kept_alpha_len(call))
        } else {
            0
        }
    }

    /// The samples of an alpha plane that is kept behind the colour planes.
    fn kept_alpha_len(call: &Call) -> usize {
        if call.format.keeps_alpha() && call.form.alpha {
            call.full()
        } else {
            0
        }
    }

    fn min_image(call: &Call) -> usize {
        call.full().saturating_mul(call.format.bytes())
    }

    /// Where the colour planes lie in the work area, and one behind the other in a raw body.
    fn offsets(call: &Call) -> [usize; 3] {
        [0, call.full(), call.full() + Self::chroma_len(call)]
    }

    /// All planes of an RLE picture, or the number of the refusal.
    fn unpack_planes(call: &mut Call) -> Result<(), i64> {
        let mut at = 0;
        if call.form.alpha {
            at += Self::unpack_alpha(call)?;
        }
        let (full, chroma) = ((call.width, call.height), Self::chroma_sides(call));
        for (offset, sides) in Self::offsets(call).into_iter().zip([full, chroma, chroma]) {
            at += Self::unpack_plane(call, at, offset, sides)?;
            at = Self::next_plane(call, at, sides);
        }
        Ok(())
    }

    fn unpack_alpha(call: &mut Call) -> Result<usize, i64> {
        let to = Self::alpha_offset(call);
        Self::unpack_plane(call, 0, to, (call.width, call.height))
    }

    /// Where alpha is unpacked to: to the place of the first colour plane, or behind all of them if it is kept.
    fn alpha_offset(call: &Call) -> usize {
        if call.format.keeps_alpha() {
            Self::colour_len(call)
        } else {
            0
        }
    }

    /// Unpacks the plane at a place of the body to a place of the work area. The answer is the bytes read.
    fn unpack_plane(call: &mut Call, from: usize, to: usize, sides: (usize, usize)) -> Result<usize, i64> {
        let body = call.body.bytes().get(from..).unwrap_or(&[]).to_vec();
        unpacked(&body, call.work.bytes_mut().get_mut(to..).unwrap_or(&mut []), sides)
    }

    /// Where the next plane starts, once one is read up to here.
    fn next_plane(_call: &Call, at: usize, _sides: (usize, usize)) -> usize {
        at
    }

    /// What follows a refusal by 7, 8 or 9.
    fn after_refusal(_call: &mut Call, _number: i64) {}

    /// The colour planes, one behind the other.
    fn planes(call: &Call) -> Vec<u8> {
        if call.form.rle {
            call.work.bytes().to_vec()
        } else {
            call.body.bytes()[Self::raw_start(call)..].to_vec()
        }
    }

    /// Where the colour planes begin in a raw body.
    fn raw_start(call: &Call) -> usize {
        call.alpha_len()
    }

    fn write_image(call: &mut Call) {
        let planes = Self::planes(call);
        let starts = Self::offsets(call);
        for pixel in 0..call.full() {
            let colour = Self::pixel(call, &planes, starts, pixel);
            let to = Self::place(call, pixel) * call.format.bytes();
            match call.format {
                Format::Rgb24 => call.image.bytes_mut()[to..to + 3].copy_from_slice(&colour),
                Format::Pixels(layout) => {
                    let [r, g, b] = colour;
                    let samples = [r, g, b, Self::alpha(call, pixel)];
                    let places = Self::places(layout.0);
                    places.into_iter().zip(samples).for_each(|(at, sample)| call.image.bytes_mut()[to + at] = sample);
                }
            }
        }
    }

    /// The places of R, G, B and A in a pixel.
    fn places(layout: u32) -> [usize; 4] {
        match layout {
            0 => [2, 1, 0, 3],
            1 => [0, 1, 2, 3],
            2 => [1, 2, 3, 0],
            _ => [3, 2, 1, 0],
        }
    }

    /// The alpha of a pixel.
    fn alpha(call: &Call, pixel: usize) -> u8 {
        if !call.form.alpha {
            return 255;
        }
        // A planted mistake may read outside the slice.
        let (slice, at) = if call.form.rle { (call.work, Self::alpha_offset(call)) } else { (call.body, 0) };
        slice.bytes().get(at + pixel).copied().unwrap_or(0)
    }

    /// Where in the image a pixel goes.
    fn place(_call: &Call, pixel: usize) -> usize {
        pixel
    }

    /// The bytes of a pixel.
    fn pixel(call: &Call, planes: &[u8], starts: [usize; 3], pixel: usize) -> [u8; 3] {
        let chroma = Self::chroma_index(call, pixel / call.width, pixel % call.width);
        // A planted mistake may read outside the planes.
        let sample = |plane: usize, at: usize| planes.get(starts[plane] + at).copied().unwrap_or(0);
        let samples = [sample(0, pixel), sample(1, chroma), sample(2, chroma)];
        match call.form.definition {
            ARGB => Self::argb(call.form, samples),
            _ => Self::aycocg(call.form, samples),
        }
    }

    fn chroma_index(call: &Call, row: usize, column: usize) -> usize {
        let (across, _) = Self::chroma_sides(call);
        if Self::is_subsampled(call.form) {
            row / 2 * across + column / 2
        } else {
            row * across + column
        }
    }

    fn argb(_form: Form, samples: [u8; 3]) -> [u8; 3] {
        samples
    }

    fn aycocg(form: Form, [y, co, cg]: [u8; 3]) -> [u8; 3] {
        let colours = Self::convert(i32::from(y), Self::chroma(form.level, co), Self::chroma(form.level, cg));
        let [first, second, third] = colours.map(Self::clip);
        if Self::keeps_order(form) {
            [first, second, third]
        } else {
            [third, second, first]
        }
    }

    fn convert(y: i32, co: i32, cg: i32) -> [i32; 3] {
        let t = y - cg;
        [t + co, y + cg, t - co]
    }

    /// A chroma byte times 2^(level - 1) modulo 256, as a signed byte.
    fn chroma(level: u32, byte: u8) -> i32 {
        i32::from(byte.wrapping_shl(level.wrapping_sub(1)) as i8)
    }

    fn clip(value: i32) -> u8 {
        value.clamp(0, 255) as u8
    }

    fn keeps_order(form: Form) -> bool {
        form.alpha
    }

    /// The answer of a picture that is not refused.
    fn finish(call: &mut Call) -> i64 {
        (call.format.bytes() * call.full()) as i64
    }

    fn work_size(rle: bool, definition: u32, subsampled: bool, width: usize, height: usize) -> usize {
        let sides = 1..=MAX_SIDE;
        if !rle || !sides.contains(&width) || !sides.contains(&height) {
            0
        } else if definition != ARGB && subsampled {
            width * height + 2 * width.div_ceil(2) * height.div_ceil(2)
        } else {
            3 * width * height
        }
    }

    fn image_size(width: usize, height: usize) -> usize {
        let sides = 1..=MAX_SIDE;
        if sides.contains(&width) && sides.contains(&height) {
            3 * width * height
        } else {
            0
        }
    }

    fn pixels_work_size(form: Form, width: usize, height: usize) -> usize {
        match Self::work_size(form.rle, form.definition, form.subsampled, width, height) {
            0 => 0,
            colours => colours + usize::from(form.alpha) * width * height,
        }
    }

    fn pixels_image_size(width: usize, height: usize) -> usize {
        Self::image_size(width, height) / 3 * 4
    }
}

/// What IronRDP makes of a plane: the bytes read, or the number of the refusal. A panic, which a planted mistake may cause, is 99, which
/// is no refusal.
pub fn unpacked(body: &[u8], plane: &mut [u8], (width, height): (usize, usize)) -> Result<usize, i64> {
    let answer = original::unpack(body, plane, width, height).number().unwrap_or(-99);
    usize::try_from(answer).map_err(|_| -answer)
}

pub struct Right;

impl Decoder for Right {}

#[allow(clippy::too_many_arguments)]
unsafe extern "C" fn decode<D: Decoder>(
    rle: bool,
    alpha: bool,
    definition: u32,
    level: u32,
    subsampled: bool,
    body: *const u8,
    body_len: usize,
    work: *mut u8,
    work_len: usize,
    image: *mut u8,
    image_len: usize,
    width: usize,
    height: usize,
) -> i64 {
    D::decode(&mut Call {
        form: Form { rle, alpha, definition, level, subsampled },
        format: Format::Rgb24,
        width,
        height,
        body: Slice { at: body.cast_mut(), len: body_len },
        work: Slice { at: work, len: work_len },
        image: Slice { at: image, len: image_len },
    })
}

#[allow(clippy::too_many_arguments)]
unsafe extern "C" fn decode_pixels<D: Decoder>(
    rle: bool,
    alpha: bool,
    definition: u32,
    level: u32,
    subsampled: bool,
    layout: u32,
    body: *const u8,
    body_len: usize,
    work: *mut u8,
    work_len: usize,
    image: *mut u8,
    image_len: usize,
    width: usize,
    height: usize,
) -> i64 {
    D::decode(&mut Call {
        form: Form { rle, alpha, definition, level, subsampled },
        format: Format::Pixels(Layout(layout)),
        width,
        height,
        body: Slice { at: body.cast_mut(), len: body_len },
        work: Slice { at: work, len: work_len },
        image: Slice { at: image, len: image_len },
    })
}

unsafe extern "C" fn pixels_work_size<D: Decoder>(
    rle: bool,
    alpha: bool,
    definition: u32,
    subsampled: bool,
    width: usize,
    height: usize,
) -> usize {
    D::pixels_work_size(Form { rle, alpha, definition, level: 1, subsampled }, width, height)
}

unsafe extern "C" fn pixels_image_size<D: Decoder>(width: usize, height: usize) -> usize {
    D::pixels_image_size(width, height)
}

unsafe extern "C" fn work_size<D: Decoder>(
    rle: bool,
    def: u32,
    subsampled: bool,
    width: usize,
    height: usize,
) -> usize {
    D::work_size(rle, def, subsampled, width, height)
}

unsafe extern "C" fn image_size<D: Decoder>(width: usize, height: usize) -> usize {
    D::image_size(width, height)
}

/// The functions of a decoder as C declares them.
pub const fn pictures<D: Decoder>() -> Pictures {
    Pictures {
        decode: decode::<D>,
        work_size: work_size::<D>,
        image_size: image_size::<D>,
        decode_pixels: decode_pixels::<D>,
        pixels_work_size: pixels_work_size::<D>,
        pixels_image_size: pixels_image_size::<D>,
    }
}
