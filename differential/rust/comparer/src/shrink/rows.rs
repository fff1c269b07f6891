//! A body divided into rows of segments, so that a case can lose columns or rows and keep the other segments.

use crate::case::Owned;
use crate::planes::counts;

/// Raw bytes, then the last byte again `run` times.
struct Segment {
    raw: Vec<u8>,
    run: usize,
}

/// The rows that can be read, the last one perhaps incomplete, and the bytes behind them.
pub struct Rows {
    rows: Vec<Vec<Segment>>,
    tail: Vec<u8>,
}

/// The segment that starts here and how many bytes it has, if it is complete and not longer than what the row has left.
fn segment_at(body: &[u8], left: usize) -> Option<(Segment, usize)> {
    let (&control, behind) = body.split_first()?;
    let (raw, run) = counts(control);
    let fits = control != 0 && raw + run <= left;
    let raw = behind.get(..raw).filter(|_| fits)?.to_vec();
    let len = 1 + raw.len();
    Some((Segment { raw, run }, len))
}

impl Rows {
    pub fn of(case: &Owned) -> Rows {
        let mut body = &case.source[..];
        let mut rows = Vec::new();
        while rows.len() < case.height && !body.is_empty() {
            let (mut row, mut left) = (Vec::new(), case.width);
            while let Some((segment, len)) = segment_at(body, left).filter(|_| left > 0) {
                left -= segment.raw.len() + segment.run;
                row.push(segment);
                body = &body[len..];
            }
            rows.push(row);
            if left > 0 {
                break;
            }
        }
        Rows { rows, tail: body.to_vec() }
    }

    pub fn count(&self) -> usize {
        self.rows.len()
    }

    /// A body of these rows, no wider than this, without one of them if that is asked.
    pub fn body(&self, width: usize, without: Option<usize>) -> Vec<u8> {
        let mut out = Vec::new();
        for (at, row) in self.rows.iter().enumerate() {
            if Some(at) != without {
                put_row(&mut out, row, width);
            }
        }
        out.extend(&self.tail);
        out
    }
}

/// Writes a row's segments as far as the width goes.
fn put_row(out: &mut Vec<u8>, row: &[Segment], width: usize) {
    let (mut left, mut last) = (width, 0);
    for segment in row {
        let raw = &segment.raw[..segment.raw.len().min(left)];
        left -= raw.len();
        let run = segment.run.min(left);
        left -= run;
        last = raw.last().copied().unwrap_or(last);
        put_segment(out, raw, run, last);
    }
}

/// Writes a segment. A run of 1 or 2 has no control byte of its own and goes out as raw bytes.
fn put_segment(out: &mut Vec<u8>, raw: &[u8], run: usize, last: u8) {
    match (raw.len(), run) {
        (0, 0) => {}
        (_, 1 | 2) => {
            put_segment(out, raw, 0, last);
            put_segment(out, &vec![last; run], 0, last);
        }
        (0, 16..=31) => out.push((run as u8 - 16) << 4 | 1),
        (0, 32..) => out.push((run as u8 - 32) << 4 | 2),
        (count, _) => {
            out.push((count as u8) << 4 | run as u8);
            out.extend(raw);
        }
    }
}

#[cfg(test)]
mod tests {
    use super::Rows;
    use crate::case::Owned;

    #[test]
    fn complete_narrower_and_lower() {
        let case = Owned::parse("pu 20 2 1F09130911031001FF EE*40").unwrap();
        let rows = Rows::of(&case);
        assert_eq!(rows.body(20, None), case.source);
        assert_eq!(rows.body(18, None), [0x1F, 9, 0x10, 9, 0x10, 9, 0x11, 0x10, 0, 0x10, 1, 0xFF]);
        assert_eq!(rows.body(20, Some(0)), [0x11, 3, 0x10, 1, 0xFF]);
    }
}
