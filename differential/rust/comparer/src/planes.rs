//! Samples of planes, bodies made segment by segment, and what destinations hold before a call.

use crate::case::MAX_SIDE;
use crate::rng::Rng;

/// Widths around which a segment's counts change: 15 raw bytes, runs of 16, 32 and 47, and the longest side.
pub const WIDTHS: [usize; 22] = [1, 2, 3, 4, 14, 15, 16, 17, 18, 30, 31, 32, 33, 46, 47, 48, 49, 62, 63, 64, 65, 95];

/// The kinds of planes that are made.
#[derive(Clone, Copy, Debug)]
pub enum PlaneKind {
    Noise,
    FewValues,
    Runs,
    Gradient,
    FlatPage,
    RowsAlike,
}

pub const PLANE_KINDS: [PlaneKind; 6] = [
    PlaneKind::Noise,
    PlaneKind::FewValues,
    PlaneKind::Runs,
    PlaneKind::Gradient,
    PlaneKind::FlatPage,
    PlaneKind::RowsAlike,
];

/// Width times height samples of this kind.
pub fn samples(rng: &mut Rng, plane_kind: PlaneKind, width: usize, height: usize) -> Vec<u8> {
    let count = width * height;
    match plane_kind {
        PlaneKind::Noise => rng.bytes(count),
        PlaneKind::FewValues => {
            let values = rng.bytes(3);
            (0..count).map(|_| *rng.pick(&values)).collect()
        }
        PlaneKind::Runs => runs(rng, count),
        PlaneKind::Gradient => {
            let (across, down) = (rng.within(0, 5), rng.within(0, 5));
            (0..count).map(|at| (at % width * across / 4 + at / width * down) as u8).collect()
        }
        PlaneKind::FlatPage => flat_page(rng, width, height),
        PlaneKind::RowsAlike => rows_alike(rng, width, height),
    }
}

/// Runs of lengths up to about 100, which pass the ends of rows.
fn runs(rng: &mut Rng, count: usize) -> Vec<u8> {
    let mut out = Vec::with_capacity(count);
    while out.len() < count {
        let (byte, longest) = (rng.byte(), *rng.pick(&[1, 4, 5, 17, 33, 48, 100]));
        let run = rng.within(1, longest).min(count - out.len());
        out.extend(std::iter::repeat_n(byte, run));
    }
    out
}

/// A page as a user interface draws it: one ground, some areas of another colour, lines of dark marks like text.
pub fn flat_page(rng: &mut Rng, width: usize, height: usize) -> Vec<u8> {
    let mut page = vec![rng.byte() | 0xC0; width * height];
    for _ in 0..1 + width * height / 40_000 {
        let (left, top, shade) = (rng.below(width), rng.below(height), rng.byte());
        let (right, bottom) = (rng.within(left, width - 1), rng.within(top, height - 1));
        for y in top..=bottom {
            page[y * width + left..=y * width + right].fill(shade);
        }
    }
    for line in (2..height.saturating_sub(9)).step_by(16) {
        write_line(rng, &mut page[line * width..], width);
    }
    page
}

/// A line of marks, 8 rows high and of different lengths, with gaps as between letters and words.
fn write_line(rng: &mut Rng, from: &mut [u8], width: usize) {
    let mut x = 4;
    let end = rng.below(width);
    while x + 5 < end {
        for y in 0..8 {
            for dot in 0..5 {
                if rng.once_in(3) {
                    from[y * width + x + dot] = 0x20;
                }
            }
        }
        x += if rng.once_in(6) { 14 } else { 6 };
    }
}

/// Rows that differ in few places from the row above, so that most codes are 0.
fn rows_alike(rng: &mut Rng, width: usize, height: usize) -> Vec<u8> {
    let mut out = runs(rng, width);
    for row in 1..height {
        out.extend_from_within((row - 1) * width..row * width);
        for _ in 0..rng.below(4) {
            let at = row * width + rng.below(width);
            out[at] = rng.byte();
        }
    }
    out
}

/// The sides of a random plane: mostly small, sometimes at the limits.
pub fn sides(rng: &mut Rng) -> (usize, usize) {
    match rng.below(400) {
        0 => (rng.within(MAX_SIDE - 2, MAX_SIDE), rng.within(1, 8)),
        1 => (rng.within(1, 3), rng.within(8191, 8192)),
        2..=5 => (rng.within(66, 1100), rng.within(1, 8)),
        6..=9 => (rng.within(1, 20), rng.within(9, 300)),
        10..=199 => (*rng.pick(&WIDTHS), rng.within(1, 8)),
        _ => (rng.within(1, 24), rng.within(1, 6)),
    }
}

/// Sides of which at least one is refused.
pub fn sides_outside(rng: &mut Rng) -> (usize, usize) {
    let (width, height) = sides(rng);
    let wrong = match rng.below(4) {
        0 | 1 => 0,
        2 if rng.once_in(4) => MAX_SIDE + 1,
        2 => MAX_SIDE + rng.within(2, 1000),
        _ => (rng.word() as usize) | (MAX_SIDE << 1),
    };
    match rng.below(3) {
        0 => (wrong, height),
        1 => (width, wrong),
        _ => (wrong, *rng.pick(&[0, MAX_SIDE + 1, 9000, usize::MAX])),
    }
}

/// How a body is made segment by segment.
#[derive(Clone, Copy)]
pub struct Making {
    /// Rows open with a run without raw bytes, as other encoders write them.
    pub opening_runs: bool,
    /// One segment in so many is wrong: control byte 0, or longer than what the row has left.
    pub wrong_once_in: usize,
}

/// A body of height rows.
pub fn made_body(rng: &mut Rng, making: Making, width: usize, height: usize) -> Vec<u8> {
    let mut body = Vec::new();
    for _ in 0..height {
        let mut left = width;
        while left > 0 {
            let opens = making.opening_runs && left == width;
            let control = match rng.once_in(making.wrong_once_in) {
                true => *rng.pick(&[0, 0x0F, 0xF2, 0xF0, 0xFF, 0xE1]),
                false => fitting_control(rng, left, opens),
            };
            let (raw, run) = counts(control);
            body.extend([control].into_iter().chain(rng.bytes(raw)));
            left = left.saturating_sub(raw + run);
        }
    }
    body
}

/// The raw bytes and the run that a control byte stands for.
pub fn counts(control: u8) -> (usize, usize) {
    let (high, low) = (usize::from(control >> 4), usize::from(control & 15));
    match low {
        1 => (0, 16 + high),
        2 => (0, 32 + high),
        _ => (high, low),
    }
}

/// The places in a right body where a segment starts.
pub fn segment_starts(body: &[u8]) -> Vec<usize> {
    let mut starts = Vec::new();
    let mut at = 0;
    while at < body.len() {
        starts.push(at);
        at += 1 + counts(body[at]).0;
    }
    starts
}

/// The room that every packing of such a plane has enough of: at worst every 15 raw bytes have a control byte.
pub fn longest_packing(width: usize, height: usize) -> usize {
    height * (width + width.div_ceil(15))
}

/// A control byte of a segment that is not longer than what is left; one without raw bytes if the row opens and has room.
fn fitting_control(rng: &mut Rng, left: usize, opens: bool) -> u8 {
    loop {
        let control = match rng.below(4) {
            0 => rng.below(16) as u8,
            1 => (rng.below(16) * 16) as u8,
            _ => rng.byte(),
        };
        let (raw, run) = counts(control);
        let fits = control != 0 && raw + run <= left;
        if fits && (!opens || left < 3 || raw == 0) {
            return control;
        }
    }
}

/// What destinations hold before a call: never one constant, and different from call to call.
pub struct Earlier {
    noise: Vec<u8>,
    next: usize,
}

/// How far apart two calls' contents start.
const STEP: usize = 4099;

impl Earlier {
    pub fn new() -> Self {
        Earlier { noise: Rng::new(0xEA71).bytes(1 << 18), next: 0 }
    }

    pub fn bytes(&mut self, room: usize) -> &[u8] {
        if self.noise.len() < room {
            self.noise = Rng::new(0xEA72).bytes(2 * room);
        }
        self.next = (self.next + STEP) % (self.noise.len() - room + 1);
        &self.noise[self.next..self.next + room]
    }
}

impl Default for Earlier {
    fn default() -> Self {
        Self::new()
    }
}
