//! The planes of the pictures that are measured: three kinds, at any side.

use comparer::picture::{Form, Planes};
use comparer::planes::flat_page;
use comparer::Rng;

/// The side of a picture as it is drawn.
pub const DRAWN: usize = 1024;

#[derive(Clone, Copy, PartialEq, Eq)]
pub enum Kind {
    Page,
    Noise,
    Gradient,
}

pub const KINDS: [Kind; 3] = [Kind::Page, Kind::Noise, Kind::Gradient];

/// Every how many samples the planes of gradients rise by one, across and down.
const SLOPES: [(usize, usize); 3] = [(4, 4), (4, 2), (8, 4)];

impl Kind {
    pub fn name(self) -> &'static str {
        match self {
            Kind::Page => "ui page",
            Kind::Noise => "noise",
            Kind::Gradient => "gradient",
        }
    }

    fn drawn(self, rng: &mut Rng, side: usize, (across, down): (usize, usize)) -> Vec<u8> {
        match self {
            Kind::Page => flat_page(rng, side, side),
            Kind::Noise => rng.bytes(side * side),
            Kind::Gradient => (0..side * side).map(|at| (at % side / across + at / side / down) as u8).collect(),
        }
    }

    /// Different drawings side by side as a sheet, divided into pictures of this side. So pictures of every side have the same content
    /// in total, but for what a side leaves as a remainder. Each has three different planes, and an alpha plane if the form has one.
    pub fn pictures(self, form: Form, sheet_side: usize, side: usize) -> Vec<Planes> {
        let rng = &mut Rng::new(1024);
        let chroma = |side| form.chroma_sides(side, side).0;
        let mut plane = |slope: usize, drawn: usize, sheet_side: usize, side: usize| {
            let sheet = laid_out(|| self.drawn(rng, drawn, SLOPES[slope]), drawn, sheet_side);
            squares(&sheet, sheet_side, side)
        };
        let first = plane(0, DRAWN, sheet_side, side);
        let [second, third] = [1, 2].map(|slope| plane(slope, chroma(DRAWN), chroma(sheet_side), chroma(side)));
        let mut alpha = if form.alpha { plane(0, DRAWN, sheet_side, side) } else { Vec::new() }.into_iter();
        let colours = first.into_iter().zip(second).zip(third).map(|((first, second), third)| [first, second, third]);
        colours.map(|colours| Planes { alpha: alpha.next(), colours }).collect()
    }
}

/// Drawings side by side, row by row.
fn laid_out(mut drawing: impl FnMut() -> Vec<u8>, drawn: usize, sheet_side: usize) -> Vec<u8> {
    let across = sheet_side / drawn;
    let mut sheet = Vec::with_capacity(sheet_side * sheet_side);
    for _ in 0..across {
        let drawings: Vec<Vec<u8>> = (0..across).map(|_| drawing()).collect();
        let rows = (0..drawn).flat_map(|y| drawings.iter().map(move |drawing| &drawing[y * drawn..][..drawn]));
        rows.for_each(|row| sheet.extend_from_slice(row));
    }
    sheet
}

/// The complete squares of this side that a sheet has.
fn squares(sheet: &[u8], sheet_side: usize, side: usize) -> Vec<Vec<u8>> {
    let starts = || (0..sheet_side / side).map(|at| at * side);
    let corners = starts().flat_map(|top| starts().map(move |left| (top, left)));
    let square = |(top, left): (usize, usize)| {
        let rows: Vec<&[u8]> = (top..top + side).map(|y| &sheet[y * sheet_side + left..][..side]).collect();
        rows.concat()
    };
    corners.map(square).collect()
}
