//! The packing of a plane, written from FORMAT 3 to 5 alone: which segments a row has, in which bytes each is written, and for
//! how many coded values each stands. No packer and no unpacker is called.

/// Raw values that one control byte can have, and values of its run besides.
const MOST_RAW: usize = 15;
const MOST_SHORT_RUN: usize = 15;
/// The longest run that one control byte stands for by itself.
const MOST_LONG_RUN: usize = 47;

/// Where a segment ends: in the bytes of the packing, and in the samples of the plane.
#[derive(Clone, Copy, Debug, PartialEq, Eq)]
pub struct End {
    pub bytes: usize,
    pub values: usize,
}

/// A plane's packing and the ends of its segments.
#[derive(Default)]
pub struct Model {
    pub packing: Vec<u8>,
    pub ends: Vec<End>,
    /// The first row's samples, and the codes of the later rows.
    coded: Vec<u8>,
}

/// The code of a sample under another.
fn code(upper: u8, lower: u8) -> u8 {
    let d = lower.wrapping_sub(upper);
    if d < 128 {
        2 * d
    } else {
        2 * (255 - d) + 1
    }
}

/// The first row by value, the later ones by their difference from the row above.
fn coded_values(samples: &[u8], width: usize) -> Vec<u8> {
    let (first, later) = samples.split_at(width);
    let codes = samples.iter().zip(later).map(|(&upper, &lower)| code(upper, lower));
    first.iter().copied().chain(codes).collect()
}

impl Model {
    /// The packing of the first width times height samples.
    pub fn of(samples: &[u8], width: usize, height: usize) -> Model {
        let coded = coded_values(&samples[..width * height], width);
        let mut model = Model::default();
        for row in coded.chunks(width) {
            model.put_row(row);
        }
        model.coded = coded;
        model
    }

    /// Three or more repeats of a value end a segment; fewer join the raw values, and so do those at the row's end.
    fn put_row(&mut self, row: &[u8]) {
        let mut raw = Vec::new();
        for equal in row.chunk_by(|left, right| left == right) {
            let repeats = equal.len() - 1;
            raw.push(equal[0]);
            if repeats >= 3 {
                self.put_segment(&raw, repeats);
                raw.clear();
            } else {
                raw.extend(&equal[1..]);
            }
        }
        if !raw.is_empty() {
            self.put_segment(&raw, 0);
        }
    }

    /// All raw values but the last 1 to 15 by fifteens, then these with the run as far as it goes.
    fn put_segment(&mut self, raw: &[u8], run: usize) {
        let (fifteens, last) = raw.split_at((raw.len() - 1) / MOST_RAW * MOST_RAW);
        for fifteen in fifteens.chunks(MOST_RAW) {
            self.put(fifteen, 0);
        }
        let short = run.min(MOST_SHORT_RUN);
        self.put(last, short);
        self.put_long_run(last[last.len() - 1], run - short);
    }

    /// What a segment's run has beyond 15: by 47 at most while there are 16, then the rest with a raw value of its own.
    fn put_long_run(&mut self, value: u8, run: usize) {
        let mut left = run;
        while left >= 16 {
            let taken = left.min(MOST_LONG_RUN);
            self.put(&[], taken);
            left -= taken;
        }
        match left {
            0 => {}
            1..=3 => self.put(&vec![value; left], 0),
            _ => self.put(&[value], left - 1),
        }
    }

    /// One control byte and its raw values.
    fn put(&mut self, raw: &[u8], run: usize) {
        let (high, low) = match (raw.len(), run) {
            (0, 16..=31) => (run - 16, 1),
            (0, 32..=MOST_LONG_RUN) => (run - 32, 2),
            (count, _) => (count, run),
        };
        self.packing.push((high * 16 + low) as u8);
        self.packing.extend(raw);
        let values = self.ends.last().map_or(0, |end| end.values) + raw.len() + run;
        self.ends.push(End { bytes: self.packing.len(), values });
    }

    /// The number of values of the segments that are complete within the first `taken` bytes.
    fn values_within(&self, taken: usize) -> usize {
        let complete = self.ends.partition_point(|end| end.bytes <= taken);
        complete.checked_sub(1).map_or(0, |last| self.ends[last].values)
    }

    /// What the prefix theorem says of a destination after the first `taken` bytes are unpacked: the samples of the complete
    /// rows, the coded values of the next row's complete segments, and the rest unchanged. No segment overruns its row.
    pub fn fill(&self, samples: &[u8], width: usize, taken: usize, destination: &mut [u8]) {
        let values = self.values_within(taken);
        let rows = values / width * width;
        destination[..rows].copy_from_slice(&samples[..rows]);
        destination[rows..values].copy_from_slice(&self.coded[rows..values]);
    }
}

#[cfg(test)]
mod tests {
    use super::Model;
    use crate::bytes;

    /// Examples of FORMAT 10: the samples, the width, the packing.
    const EXAMPLES: [(&str, usize, &str); 11] = [
        ("05", 1, "1005"),
        ("07*4", 4, "1307"),
        ("07*3", 3, "30070707"),
        ("09*16", 16, "1F09"),
        ("09*17", 17, "1F091009"),
        ("09*20", 20, "1F091309"),
        ("09*32", 32, "1F0901"),
        ("09*63", 63, "1F09F2"),
        ("09*64", 64, "1F09F21009"),
        ("0A09", 1, "100A1001"),
        ("0A8A", 1, "100A10FF"),
    ];

    #[test]
    fn examples_of_packing() {
        for (samples, width, packing) in EXAMPLES {
            let samples = bytes::parse(samples).unwrap();
            let model = Model::of(&samples, width, samples.len() / width);
            assert_eq!(model.packing, bytes::parse(packing).unwrap());
        }
    }

    #[test]
    fn example_14_truncated_to_6_bytes() {
        let samples: Vec<u8> = [[9; 17], [10; 17]].concat();
        let model = Model::of(&samples, 17, 2);
        assert_eq!(model.packing, [0x1F, 9, 0x10, 9, 0x1F, 2, 0x10, 2]);
        let mut destination = vec![0xEE; 35];
        model.fill(&samples, 17, 6, &mut destination);
        assert_eq!(destination, [&[9; 17][..], &[2; 16], &[0xEE; 2]].concat());
    }
}
