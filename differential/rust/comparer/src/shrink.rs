//! Makes a case that differs smaller, as long as it still differs.

mod call;
mod encoding;
mod pack;
mod picture;
mod plane;
mod prefix;
mod rows;
mod stream;
mod unpack;

use crate::case::Operation;
use crate::check::{Comparer, Difference};
use crate::input::Input;
use crate::layout::Layout;
use crate::picture::OwnedPicture;
use std::ops::Range;

/// What one call of `shrink` may cost. Trying a case costs `PER_CASE`, and 1 for each byte of its buffers. So the limit is about the
/// same time for small cases and for large ones, and what is found does not depend on the machine.
///
/// Of the tests here `refusal_12_by_a_product_that_wraps` costs most, 1,766,525,490 for 23,846 cases, then
/// `alpha_behind_the_256th_pixel_from_the_row_before` with 1,408,964,743, `no_room_for_a_step_behind_the_longest_row` with 382,418,548,
/// `an_images_length_that_wraps` with 375,781,866 and `a_row_of_257_in_the_arrays_of_256` with 352,906,652; all others cost less than 300
/// million.
/// tests/support/mod.rs asserts that none costs more than a quarter of the limit.
pub const LIMIT: u64 = 10_000_000_000;
const PER_CASE: u64 = 500;

/// The smallest case that this finds to differ, in whatever way, within `LIMIT`.
pub fn shrink(comparer: &mut Comparer, found: Box<Difference>) -> Box<Difference> {
    shrink_within(comparer, found, LIMIT).0
}

/// The same with another limit, and what it cost. Where the limit is reached, the smallest case so far is returned.
pub fn shrink_within(comparer: &mut Comparer, found: Box<Difference>, limit: u64) -> (Box<Difference>, u64) {
    let mut budget = Budget { left: limit };
    let mut best = found;
    while let Some(smaller) = smaller_difference(comparer, &best.case, &mut budget) {
        best = smaller;
    }
    (best, limit - budget.left)
}

/// What is left of the limit.
struct Budget {
    left: u64,
}

impl Budget {
    /// Pays for a case, if enough is left.
    fn pays_for(&mut self, case: &Input) -> bool {
        let left = self.left.checked_sub(PER_CASE + case.byte_count() as u64);
        self.left = left.unwrap_or(self.left);
        left.is_some()
    }
}

/// The first smaller case that differs too.
fn smaller_difference(comparer: &mut Comparer, case: &Input, budget: &mut Budget) -> Option<Box<Difference>> {
    // What smaller cases of a stream are made of.
    let picture = if let Input::Stream(case) = case { Some(stream::picture(case)) } else { None };
    let tried = smaller_inputs(case, picture.as_ref()).take_while(|smaller| budget.pays_for(smaller));
    let mut valid = tried.filter(Input::is_valid);
    valid.find_map(|smaller| comparer.check(&smaller).err())
}

/// Smaller cases of the same form, the boldest first. Of a stream also its picture is passed.
fn smaller_inputs<'a>(input: &'a Input, picture: Option<&'a OwnedPicture>) -> Box<dyn Iterator<Item = Input> + 'a> {
    match input {
        Input::Call(case) => match case.operation {
            Operation::Unpack => Box::new(unpack::smaller(case).map(Input::Call)),
            Operation::Pack => Box::new(pack::smaller(case).map(Input::Call)),
        },
        Input::Picture(case) => Box::new(picture::smaller(case).map(Input::Picture)),
        Input::Sizes(case) => Box::new(picture::smaller_sizes(case).map(Input::Sizes)),
        Input::Stream(case) => {
            Box::new(picture.into_iter().flat_map(|picture| stream::smaller(case, picture)).map(Input::Stream))
        }
        Input::StreamSize(case) => Box::new(stream::smaller_size(case).map(Input::StreamSize)),
        Input::Encoding(case) => Box::new(encoding::smaller(case).map(Input::Encoding)),
        Input::Prefix(case) => Box::new(prefix::smaller(case).map(Input::Prefix)),
    }
}

/// Layouts under this one, the lowest first.
fn lower_layouts(layout: Layout) -> impl Iterator<Item = Layout> {
    lower(layout.0 as usize).map(|number| Layout(number as u32))
}

/// Numbers under `value`, the lowest first: 0, 1, a half, then nearer and nearer to it.
fn lower(value: usize) -> impl Iterator<Item = usize> {
    let steps = std::iter::successors(Some(value / 2), |&step| Some(step / 2)).take_while(|&step| step > 0);
    [0, 1].into_iter().chain(steps.map(move |step| value - step)).filter(move |&candidate| candidate < value)
}

/// Something is divided into at most so many pieces, so that what is long loses long pieces first.
const PIECES: usize = 512;

/// Pieces of what is so long: first all of it, then halves, at last single ones.
fn pieces(len: usize) -> impl Iterator<Item = Range<usize>> {
    let sizes = std::iter::successors(Some(len), |&size| Some(size / 2)).take_while(move |&size| size > len / PIECES);
    sizes.flat_map(move |size| (0..len).step_by(size).map(move |from| from..(from + size).min(len)))
}

/// Bytes of which some are lower: all of them 0, all by the lowest of them, those of one value, then one after the other.
fn lower_bytes(bytes: &[u8]) -> impl Iterator<Item = Vec<u8>> + '_ {
    let zeros = bytes.iter().any(|&byte| byte != 0).then(|| vec![0; bytes.len()]);
    let lowest = bytes.iter().copied().min().filter(|&lowest| lowest > 0);
    let together = lowest.map(|lowest| bytes.iter().map(|byte| byte - lowest).collect());
    let values = (1..=255).filter(|value| bytes.contains(value));
    let of_a_value = values.flat_map(move |value| {
        lower(usize::from(value))
            .map(move |byte| bytes.iter().map(|&old| if old == value { byte as u8 } else { old }).collect())
    });
    let singly = (0..bytes.len()).flat_map(move |at| {
        lower(usize::from(bytes[at])).map(move |byte| {
            let mut smaller = bytes.to_vec();
            smaller[at] = byte as u8;
            smaller
        })
    });
    zeros.into_iter().chain(together).chain(of_a_value).chain(singly)
}

/// A destination of `EE` alone, which is easier to read, unless it is one.
fn plain(before: &[u8]) -> Option<Vec<u8>> {
    let plain = vec![0xEE; before.len()];
    (plain != before).then_some(plain)
}
