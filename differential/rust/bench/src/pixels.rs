//! Four-byte pixels beside three bytes a pixel, and packing from each layout beside BGRA. Only the library is measured: IronRDP unpacks no
//! four-byte pixels.

use crate::clock::nanoseconds;
use crate::figures::{figure, grouped, print_head, print_row, Spread};
use crate::pages::{Kind, DRAWN};
use comparer::encoding::given::pixels;
use comparer::encoding::Sources;
use comparer::layout::{BGRA, LAYOUTS};
use comparer::picture::{Form, Planes};
use comparer::planes::longest_packing;
use comparer::{Extent, Format, Layout};
use std::hint::black_box;

const ROUNDS: usize = 20;
const LEVEL: u32 = 3;

/// The sides of the pictures that a page is divided into. Of the last one a remainder of the page is left out.
const SIDES: [usize; 3] = [DRAWN, 64, 20];

/// The forms with their names. The loops of AYCoCg, in full and subsampled, have lines of their own.
fn forms() -> Vec<(String, Form)> {
    let of_alpha = |alpha| {
        let with = if alpha { "alpha" } else { "no alpha" };
        [
            (format!("raw ARGB, {with}"), Form::argb(false, alpha)),
            (format!("raw AYCoCg, {with}"), Form::aycocg(false, alpha, LEVEL, false)),
            (format!("raw AYCoCg subsampled, {with}"), Form::aycocg(false, alpha, LEVEL, true)),
            (format!("RLE ARGB, {with}"), Form::argb(true, alpha)),
        ]
    };
    [false, true].into_iter().flat_map(of_alpha).collect()
}

/// Several ways of doing one thing, measured in turn.
trait Ways {
    type Way: Copy;

    /// What one of them takes, in nanoseconds a pixel.
    fn time_of(&mut self, way: Self::Way) -> f64;

    /// The best of some rounds. Each round starts one way further than the round before.
    fn best_times(&mut self, ways: &[Self::Way]) -> Vec<f64> {
        let mut best = vec![f64::INFINITY; ways.len()];
        for round in 0..ROUNDS {
            for turn in 0..ways.len() {
                let at = (round + turn) % ways.len();
                best[at] = self.time_of(ways[at]).min(best[at]);
            }
        }
        best
    }
}

/// The pictures of a page, to unpack.
struct Unpacking {
    form: Form,
    side: usize,
    bodies: Vec<Vec<u8>>,
    work: Vec<u8>,
    image: Vec<u8>,
}

impl Unpacking {
    fn new(form: Form, side: usize) -> Unpacking {
        let pictures = Kind::Page.pictures(form, DRAWN, side);
        let bodies = pictures.iter().map(|planes| planes.body(form, side, side)).collect();
        let format = Format::Pixels(BGRA);
        let (work, image) = (vec![0; form.work_len(format, side, side)], vec![0; format.bytes() * side * side]);
        let mut unpacking = Unpacking { form, side, bodies, work, image };
        pictures.iter().enumerate().for_each(|(at, planes)| unpacking.check(at, planes));
        unpacking
    }

    fn call(&mut self, format: Format, at: usize) -> i64 {
        let Form { rle, alpha, definition, level, subsampled } = self.form;
        let form = ours::Form { rle, alpha, definition, level, subsampled };
        let (body, side) = (black_box(&self.bodies[at][..]), self.side);
        ours::decode(format, form, body, &mut self.work, black_box(&mut self.image), side, side)
    }

    /// Every layout has the three bytes of each pixel, and its alpha.
    fn check(&mut self, at: usize, planes: &Planes) {
        let samples = self.side * self.side;
        assert_eq!(self.call(Format::Rgb24, at), 3 * samples as i64, "three bytes a pixel");
        let colours = self.image[..3 * samples].to_vec();
        for layout in LAYOUTS {
            assert_eq!(self.call(Format::Pixels(layout), at), 4 * samples as i64, "four bytes a pixel");
            for (pixel, rgb) in colours.chunks_exact(3).enumerate() {
                let alpha = planes.alpha.as_ref().map_or(255, |alpha| alpha[pixel]);
                let wanted = layout.pixel([rgb[0], rgb[1], rgb[2], alpha]);
                assert_eq!(self.image[4 * pixel..][..4], wanted, "the same pixel");
            }
        }
    }
}

impl Ways for Unpacking {
    type Way = Format;

    fn time_of(&mut self, format: Format) -> f64 {
        self.image.fill(0);
        let calls = self.bodies.len();
        let time = nanoseconds(|| (0..calls).for_each(|at| assert!(self.call(format, at) > 0)));
        time / (calls * self.side * self.side) as f64
    }
}

/// One picture in each layout, to pack.
struct Packing {
    rle: bool,
    alpha: bool,
    sources: [Vec<u8>; 4],
    dst: Vec<u8>,
}

impl Packing {
    fn new(rle: bool, alpha: bool) -> Packing {
        let planes = Kind::Page.pictures(Form::argb(rle, alpha), DRAWN, DRAWN).remove(0);
        let sources = LAYOUTS.map(|layout| match pixels(&planes, layout) {
            Sources::Pixels { pixels, .. } => pixels,
            Sources::Channels { .. } => unreachable!("pixels"),
        });
        let dst = vec![0; 4 * longest_packing(DRAWN, DRAWN) + 1];
        let mut packing = Packing { rle, alpha, sources, dst };
        let mut packed = |layout| {
            let count = usize::try_from(packing.call(layout)).expect("a count");
            packing.dst[..count].to_vec()
        };
        let bgra = packed(BGRA);
        LAYOUTS.into_iter().for_each(|layout| assert!(packed(layout) == bgra, "the same body"));
        packing
    }

    fn call(&mut self, layout: Layout) -> i64 {
        let source = black_box(&self.sources[layout.0 as usize][..]);
        let dst = black_box(&mut self.dst[..]);
        ours::encode_bitmap(Extent::Body, (source, layout), self.alpha, dst, self.rle, DRAWN, DRAWN)
    }
}

impl Ways for Packing {
    type Way = Layout;

    fn time_of(&mut self, layout: Layout) -> f64 {
        self.dst.fill(0);
        nanoseconds(|| assert!(self.call(layout) > 0)) / (DRAWN * DRAWN) as f64
    }
}

/// A line of a table: what is measured in which ways, the first of which the others are compared with, and what each run measured.
struct Line<W: Ways> {
    name: String,
    measured: W,
    ways: Vec<W::Way>,
    runs: Vec<Vec<f64>>,
}

impl<W: Ways> Line<W> {
    fn new(name: String, measured: W, ways: Vec<W::Way>) -> Self {
        Line { name, measured, ways, runs: Vec::new() }
    }

    fn run(&mut self) {
        self.runs.push(self.measured.best_times(&self.ways));
    }

    fn time(&self, way: usize) -> String {
        figure(Spread::of(self.runs.iter().map(|run| run[way])).median)
    }

    fn ratio(&self, way: usize) -> String {
        Spread::of(self.runs.iter().map(|run| run[way] / run[0])).text()
    }
}

/// Four-byte pixels at three sides, in each layout; packing from each layout.
pub fn print_tables(runs: usize) {
    let of_side = |side: usize| {
        let line =
            move |(name, form)| Line::new(name, Unpacking::new(form, side), vec![Format::Rgb24, Format::Pixels(BGRA)]);
        (side, forms().into_iter().map(line).collect::<Vec<_>>())
    };
    let mut sides = SIDES.map(of_side);
    let all = || [Format::Rgb24].into_iter().chain(LAYOUTS.map(Format::Pixels)).collect();
    let mut layouts: Vec<_> =
        forms().into_iter().map(|(name, form)| Line::new(name, Unpacking::new(form, DRAWN), all())).collect();
    let kinds = [(false, false), (true, false), (false, true), (true, true)];
    let mut packing = kinds.map(|(rle, alpha)| {
        let name = format!("{}, {} planes", if rle { "RLE" } else { "raw" }, 3 + usize::from(alpha));
        Line::new(name, Packing::new(rle, alpha), LAYOUTS.to_vec())
    });
    for run in 1..=runs {
        eprintln!("run {run} of {runs}");
        sides.iter_mut().flat_map(|(_, lines)| lines).for_each(Line::run);
        layouts.iter_mut().for_each(Line::run);
        packing.iter_mut().for_each(Line::run);
    }
    for (side, lines) in &sides {
        let head = format!("unpacking, {0} × {0}", grouped(*side));
        print_head(&[&head, "3 bytes, ns a pixel", "4 bytes, ns a pixel", "4 bytes / 3 bytes"]);
        lines.iter().for_each(|line| print_row([line.name.clone(), line.time(0), line.time(1), line.ratio(1)]));
        println!();
    }
    print_head(&["unpacking, each layout / 3 bytes, 1,024 × 1,024", "BGRA", "RGBA", "ARGB", "ABGR"]);
    for line in &layouts {
        print_row([line.name.clone()].into_iter().chain((1..=4).map(|way| line.ratio(way))));
    }
    println!();
    print_head(&["packing, 1,024 × 1,024", "BGRA, ns a pixel", "RGBA / BGRA", "ARGB / BGRA", "ABGR / BGRA"]);
    for line in &packing {
        print_row([line.name.clone(), line.time(0)].into_iter().chain((1..=3).map(|way| line.ratio(way))));
    }
}
