//! Planes with some rows or columns left out.

use super::pieces;
use std::ops::Range;

/// Sides and samples.
pub struct Smaller {
    pub width: usize,
    pub height: usize,
    pub samples: Vec<u8>,
}

/// The plane without a piece of its rows, then without a piece of its columns; what follows the plane stays. There is none
/// if the samples do not fill the plane.
pub fn smaller_planes(width: usize, height: usize, samples: &[u8]) -> impl Iterator<Item = Smaller> + '_ {
    let complete = width.saturating_mul(height) <= samples.len();
    let (rows, columns) = if complete { (height, width) } else { (0, 0) };
    let lower = pieces(rows).filter(move |piece| piece.len() < rows);
    let narrower = pieces(columns).filter(move |piece| piece.len() < columns);
    lower
        .map(move |piece| without_rows(width, height, samples, piece))
        .chain(narrower.map(move |piece| without_columns(width, height, samples, piece)))
}

pub fn without_rows(width: usize, height: usize, samples: &[u8], piece: Range<usize>) -> Smaller {
    let left = height - piece.len();
    let samples = [&samples[..piece.start * width], &samples[piece.end * width..]].concat();
    Smaller { width, height: left, samples }
}

pub fn without_columns(width: usize, height: usize, samples: &[u8], piece: Range<usize>) -> Smaller {
    let (plane, beyond) = samples.split_at(width * height);
    let mut samples = Vec::with_capacity(plane.len());
    for row in plane.chunks(width) {
        samples.extend(&row[..piece.start]);
        samples.extend(&row[piece.end..]);
    }
    samples.extend(beyond);
    Smaller { width: width - piece.len(), height, samples }
}

#[cfg(test)]
mod tests {
    use super::{without_columns, without_rows};

    #[test]
    fn what_follows_stays() {
        let samples = [1, 2, 3, 4, 5, 6, 9];
        assert_eq!(without_rows(2, 3, &samples, 1..2).samples, [1, 2, 5, 6, 9]);
        assert_eq!(without_columns(3, 2, &samples, 0..2).samples, [3, 6, 9]);
    }
}
