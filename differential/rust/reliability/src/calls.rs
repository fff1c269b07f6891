//! Calls of the library on buffers that are used again from call to call, as in a service, and their required answers.

use crate::LIBRARY;
use comparer::case::Operation;
use comparer::encoding::{Encoding, OwnedEncoding, Sources};
use comparer::picture::{OwnedPicture, Sizes};
use comparer::report::report;
use comparer::stream::OwnedStream;
use comparer::{bytes, Comparer, Input, Owned};

/// The answer of a call; the second number is for the two sizes alone.
pub type Answers = [i64; 2];

/// A case with its required answer and buffers: by IronRDP inside the domain, by docs/FORMAT.md outside.
pub struct Known {
    pub input: Input,
    answers: Answers,
    /// What each buffer that can be written must hold.
    afters: Vec<Vec<u8>>,
}

impl Known {
    pub fn of(comparer: &mut Comparer, input: Input) -> Result<Known, String> {
        let (answer, after) = comparer.wanted(&input).map_err(|difference| report(&difference, "difference.txt"))?;
        let number =
            answer.number().ok_or_else(|| report(&format!("IronRDP: {answer}, in\n  {input}"), "difference.txt"))?;
        let second = if let Input::Sizes(sizes) = &input { sizes.image() as i64 } else { 0 };
        let afters = after.0.into_iter().map(|(_, bytes)| bytes).collect();
        Ok(Known { input, answers: [number, second], afters })
    }

    /// A number computed from the required answer and buffers.
    pub fn digest(&self, earlier: u64) -> u64 {
        let answers = self.answers.iter().flat_map(|answer| answer.to_le_bytes());
        let bytes = answers.chain(self.afters.iter().flatten().copied());
        bytes.fold(earlier, |sum, byte| (sum ^ u64::from(byte)).wrapping_mul(0x100_0000_01B3))
    }
}

/// The buffers that calls write.
#[derive(Default)]
pub struct Caller {
    work: Vec<u8>,
    image: Vec<u8>,
}

/// Fills a buffer with what it must hold before a call.
fn fill(slice: &mut Vec<u8>, before: &[u8]) {
    slice.clear();
    slice.extend_from_slice(before);
}

impl Caller {
    /// Calls the library and compares. The error says what differs.
    pub fn compare(&mut self, known: &Known) -> Result<(), String> {
        let answers = self.call(&known.input);
        let written: [&[u8]; 2] = match known.input {
            Input::Picture(_) | Input::Stream(_) => [&self.work, &self.image],
            _ => [&self.image, &[]],
        };
        if answers == known.answers && known.afters.iter().zip(written).all(|(wanted, got)| wanted == got) {
            return Ok(());
        }
        let texts = |buffers: &[&[u8]]| buffers.iter().map(|bytes| bytes::text(bytes)).collect::<Vec<_>>().join(" ");
        let wanted = texts(&known.afters.iter().map(|after| &after[..]).collect::<Vec<_>>());
        let got = texts(&written[..known.afters.len()]);
        let reference = known.input.reference();
        let text = format!(
            "different:\n  {}\n  {reference}: {:?} {wanted}\n  rdp6: {answers:?} {got}",
            known.input, known.answers
        );
        Err(report(&text, "difference.txt"))
    }

    fn call(&mut self, input: &Input) -> Answers {
        match input {
            Input::Call(case) => [self.call_plane(case), 0],
            Input::Picture(case) => [self.call_decoder(case), 0],
            Input::Sizes(case) => call_sizes(case),
            Input::Stream(case) => [self.call_stream_decoder(case), 0],
            Input::StreamSize(case) => {
                [ours::stream_work_size(case.four_bytes, &case.stream, case.width, case.height) as i64, 0]
            }
            Input::Encoding(case) => [self.call_encoder(case), 0],
            Input::Prefix(_) => unreachable!("a case of the prefix theorem is no single call"),
        }
    }

    fn call_plane(&mut self, case: &Owned) -> i64 {
        fill(&mut self.image, &case.before);
        match case.operation {
            Operation::Unpack => ours::unpack(&case.source, &mut self.image, case.width, case.height),
            Operation::Pack => ours::pack(&case.source, &mut self.image, case.width, case.height),
        }
    }

    fn call_decoder(&mut self, case: &OwnedPicture) -> i64 {
        fill(&mut self.work, &case.work);
        fill(&mut self.image, &case.image);
        let comparer::picture::Form { rle, alpha, definition, level, subsampled } = case.form;
        let form = ours::Form { rle, alpha, definition, level, subsampled };
        ours::decode(case.format, form, &case.body, &mut self.work, &mut self.image, case.width, case.height)
    }

    fn call_stream_decoder(&mut self, case: &OwnedStream) -> i64 {
        fill(&mut self.work, &case.work);
        fill(&mut self.image, &case.image);
        ours::stream_decode(case.format, &case.stream, &mut self.work, &mut self.image, case.width, case.height)
    }

    fn call_encoder(&mut self, case: &OwnedEncoding) -> i64 {
        fill(&mut self.image, &case.before);
        let dst = &mut self.image[..];
        let Encoding { extent, width, height, rle, .. } = *case;
        match case.sources.view() {
            Sources::Channels { colours, alpha } => {
                ours::encode_channels(extent, colours, alpha, dst, rle, width, height)
            }
            Sources::Pixels { pixels, layout, alpha } => {
                ours::encode_bitmap(extent, (pixels, layout), alpha, dst, rle, width, height)
            }
        }
    }
}

fn call_sizes(case: &Sizes) -> Answers {
    let (work, image) = LIBRARY.pictures.sizes(case);
    [work as i64, image as i64]
}

#[cfg(test)]
mod tests {
    use super::{Caller, Known};
    use crate::mix::Mix;
    use crate::LIBRARY;
    use comparer::Comparer;

    /// Every answer and every byte is compared: a change of any of them is found.
    #[test]
    fn every_changed_answer_and_byte_is_found() {
        let (mut comparer, mut caller) = (Comparer::new(LIBRARY), Caller::default());
        for (_, input) in Mix::new(3).take(400) {
            let mut known = Known::of(&mut comparer, input).unwrap();
            assert_eq!(caller.compare(&known), Ok(()));
            known.answers[0] += 1;
            assert!(caller.compare(&known).is_err());
            known.answers[0] -= 1;
            for slice in 0..known.afters.len() {
                if let Some(at) = known.afters[slice].len().checked_sub(1) {
                    known.afters[slice][at] ^= 1;
                    assert!(caller.compare(&known).is_err());
                    known.afters[slice][at] ^= 1;
                }
            }
        }
    }
}
