//! Rows of values whose packing passes every boundary of the rules.

/// Lengths at which a run's packing changes: 3 repeats, 15 with the raw value, 16, 32 and 47 in one control byte, and what
/// remains after one, two or three of these.
#[rustfmt::skip]
pub const LENGTHS: [usize; 54] = [
    1, 2, 3, 4, 5, 14, 15, 16, 17, 18, 19, 20, 21, 30, 31, 32, 33, 34, 46, 47, 48, 49, 50, 61, 62, 63, 64, 65, 66, 67, 68,
    77, 78, 79, 80, 93, 94, 95, 96, 97, 109, 110, 111, 112, 113, 114, 125, 126, 127, 141, 142, 157, 158, 205,
];
/// The lengths of the other two runs.
const OTHERS: [usize; 5] = [1, 2, 3, 4, 17];

/// How many different values stand beside a run: around 15, 30 and 45, which go out by fifteens.
pub const LITERALS: [usize; 15] = [13, 14, 15, 16, 17, 29, 30, 31, 32, 33, 44, 45, 46, 47, 48];
/// The runs beside them.
pub const BESIDE: [usize; 12] = [1, 2, 3, 4, 5, 15, 16, 17, 19, 20, 32, 64];

/// All of them.
pub fn rows() -> Vec<Vec<u8>> {
    let mut rows = Vec::new();
    for length in LENGTHS {
        for first in OTHERS {
            for second in OTHERS {
                rows.push(three_runs([length, first, second]));
                rows.push(three_runs([first, length, second]));
                rows.push(three_runs([first, second, length]));
            }
        }
    }
    for count in LITERALS {
        for run in BESIDE {
            let run = vec![0; run];
            rows.push([&literal(count)[..], &run].concat());
            rows.push([&run[..], &literal(count)].concat());
            rows.push([&literal(count)[..], &run, &literal(31 - count % 16)].concat());
        }
    }
    rows.sort();
    rows.dedup();
    rows
}

/// Three runs of different values.
pub fn three_runs(lengths: [usize; 3]) -> Vec<u8> {
    lengths.iter().zip([7, 0, 255]).flat_map(|(&length, value)| std::iter::repeat_n(value, length)).collect()
}

/// Values that are all different, and none is 0.
pub fn literal(count: usize) -> Vec<u8> {
    (1..=count).map(|at| (at * 37) as u8).collect()
}

/// The row whose codes under another are these.
fn under(upper: &[u8], codes: &[u8]) -> Vec<u8> {
    upper.iter().zip(codes).map(|(&above, &code)| above.wrapping_add(difference(code))).collect()
}

/// The difference that a code stands for.
fn difference(code: u8) -> u8 {
    match code & 1 {
        0 => code / 2,
        _ => 255 - code / 2,
    }
}

/// The plane whose rows have these coded values, from the first row to the last.
pub fn plane_of(rows: &[&[u8]]) -> Vec<u8> {
    let mut plane = rows[0].to_vec();
    let mut above = plane.clone();
    for codes in &rows[1..] {
        above = under(&above, codes);
        plane.extend(&above);
    }
    plane
}

/// A plane of two rows. The upper one is of one value or of changing ones; the codes of the lower one are `codes`.
pub fn under_a_row(codes: &[u8], flat: bool) -> Vec<u8> {
    let upper: Vec<u8> = (0..codes.len()).map(|at| if flat { 100 } else { (at * 29) as u8 }).collect();
    plane_of(&[&upper, codes])
}

/// A plane of three rows: the row, then the same backwards as codes, then once more as codes.
fn three_times(row: &[u8]) -> Vec<u8> {
    let backwards: Vec<u8> = row.iter().rev().copied().collect();
    plane_of(&[row, &backwards, row])
}

/// For each of the rows a plane of it alone and one of two rows, for some also one of three: width, height, samples.
pub fn planes() -> Vec<(usize, usize, Vec<u8>)> {
    let mut planes = Vec::new();
    for (at, row) in rows().into_iter().enumerate() {
        let width = row.len();
        planes.push((width, 2, under_a_row(&row, at % 3 != 0)));
        if at % 4 == 0 {
            planes.push((width, 3, three_times(&row)));
        }
        planes.push((width, 1, row));
    }
    planes
}
