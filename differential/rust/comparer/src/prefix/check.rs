//! Compares both pairs, IronRDP's and the library's, with the model.

use crate::case::Case;
use crate::check::{answer_text, Comparer, Difference, Outcome};
use crate::guarded::SIDES;
use crate::input::Input;
use crate::planes::longest_packing;
use crate::prefix::{Model, PrefixCase};
use crate::tally::{Kind, Reference};
use original::Answer;

/// A plane inside the domain, and what the packing rules make of it.
pub struct Plane<'a> {
    pub width: usize,
    pub height: usize,
    pub samples: &'a [u8],
    pub model: Model,
}

/// How many bytes of the packing are taken, what follows them, and what the destination holds before.
#[derive(Clone, Copy)]
pub struct Prefix<'a> {
    pub taken: usize,
    pub following: &'a [u8],
    pub before: &'a [u8],
}

impl<'a> Plane<'a> {
    pub fn new(width: usize, height: usize, samples: &'a [u8]) -> Self {
        Plane { width, height, samples, model: Model::of(samples, width, height) }
    }

    fn case(&self, prefix: Prefix<'_>) -> Input {
        Input::Prefix(PrefixCase {
            width: self.width,
            height: self.height,
            samples: self.samples.to_vec(),
            taken: prefix.taken,
            following: prefix.following.to_vec(),
            before: prefix.before.to_vec(),
        })
    }
}

impl Comparer {
    /// Both packers must write the model's packing, and nothing behind it.
    pub fn compare_packings(&mut self, plane: &Plane<'_>) -> Outcome {
        let (width, height) = (plane.width, plane.height);
        let before = vec![0xC5; longest_packing(width, height) + 1];
        let packing = &plane.model.packing;
        self.wanted_after.clone_from(&before);
        self.wanted_after[..packing.len()].copy_from_slice(packing);
        let case = Case::pack(width, height, plane.samples, &before);
        let rest = vec![0xEE; width * height];
        let nothing_taken = Prefix { taken: 0, following: &[], before: &rest };
        self.compare_both(case, Answer::Done(packing.len()), || plane.case(nothing_taken))
    }

    /// Both unpackers must do what the model says of the first bytes of the packing. By `compare_packings` it is the packing
    /// that both packers write.
    pub fn compare_prefix(&mut self, kind: Kind, plane: &Plane<'_>, prefix: Prefix<'_>) -> Outcome {
        let (packing, taken) = (&plane.model.packing, prefix.taken);
        let wanted = if taken == packing.len() { Answer::Done(taken) } else { Answer::Refused(7) };
        self.tally.count(kind, Reference::Model, &wanted);
        self.compare_prefix_uncounted(plane, prefix, wanted)
    }

    fn compare_prefix_uncounted(&mut self, plane: &Plane<'_>, prefix: Prefix<'_>, wanted: Answer) -> Outcome {
        self.wanted_after.clear();
        self.wanted_after.extend_from_slice(prefix.before);
        plane.model.fill(plane.samples, plane.width, prefix.taken, &mut self.wanted_after);
        let followed;
        let mut body = &plane.model.packing[..prefix.taken];
        if !prefix.following.is_empty() {
            followed = [body, prefix.following].concat();
            body = &followed;
        }
        let case = Case::unpack(plane.width, plane.height, body, prefix.before);
        self.compare_both(case, wanted, || plane.case(prefix))
    }

    /// Compares a call of IronRDP, then of the library, with the answer and with `wanted_after`.
    fn compare_both(&mut self, case: Case<'_>, wanted: Answer, input: impl Fn() -> Input) -> Outcome {
        self.got_after.clear();
        self.got_after.extend_from_slice(case.before);
        let answer = case.by_ironrdp(&mut self.got_after);
        if let Some(reason) = self.fault(answer == wanted) {
            return Err(self.difference_in(&case, input(), reason, wanted, "IronRDP", answer.to_string()));
        }
        if let Some((reason, got)) = self.library_fault(case, &wanted, &SIDES) {
            return Err(self.difference_in(&case, input(), reason, wanted, "rdp6", answer_text(got)));
        }
        Ok(())
    }

    /// The difference, with the operation that it was found in.
    fn difference_in(
        &self,
        case: &Case<'_>,
        input: Input,
        reason: String,
        wanted: Answer,
        side: &'static str,
        got: String,
    ) -> Box<Difference> {
        self.difference(input, format!("{reason}, in {}", case.operation.name()), wanted, side, got)
    }

    /// Compares one case without counting it.
    pub(crate) fn check_prefix_case(&mut self, case: &PrefixCase) -> Outcome {
        let plane = Plane::new(case.width, case.height, &case.samples);
        self.compare_packings(&plane)?;
        let complete = case.taken == plane.model.packing.len();
        let wanted = if complete { Answer::Done(case.taken) } else { Answer::Refused(7) };
        let prefix = Prefix { taken: case.taken, following: &case.following, before: &case.before };
        self.compare_prefix_uncounted(&plane, prefix, wanted)
    }
}
