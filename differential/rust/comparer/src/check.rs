//! Compares one call with what it must do.

use crate::bytes;
use crate::case::{Case, Operation, Owned};
use crate::encoding::check::{Encoders, Packed};
use crate::extent::Extent;
use crate::guarded::{Buffer, GuardedMemory, Side, Watch, SIDES};
use crate::input::{Input, View};
use crate::picture::check::{Afters, Pictures};
use crate::report::shortened;
use crate::stream::check::Streams;
use crate::tally::{Kind, Reference, Tally};
use original::Answer;
use std::fmt;

/// A plane unpacker or packer as C declares it: source, destination, width, height. The answer is the number of bytes read or written,
/// or minus the refusal's number.
pub type Function = unsafe extern "C" fn(*const u8, usize, *mut u8, usize, usize, usize) -> i64;

/// What is compared with IronRDP.
#[derive(Clone, Copy)]
pub struct Library {
    pub unpack: Function,
    pub pack: Function,
    pub pictures: Pictures,
    pub encoders: Encoders,
    pub streams: Streams,
}

impl Library {
    /// The functions that pack pictures into bodies or into streams.
    pub fn encoders(&self, extent: Extent) -> Encoders {
        match extent {
            Extent::Body => self.encoders,
            Extent::Stream => self.streams.encoders,
        }
    }

    fn function(&self, operation: Operation) -> Function {
        match operation {
            Operation::Unpack => self.unpack,
            Operation::Pack => self.pack,
        }
    }
}

/// What the buffers that can be written hold after a call, each with its name.
#[derive(Clone, Debug)]
pub struct After(pub Vec<(&'static str, Vec<u8>)>);

impl fmt::Display for After {
    fn fmt(&self, f: &mut fmt::Formatter<'_>) -> fmt::Result {
        self.0.iter().try_for_each(|(name, after)| write!(f, "\n    {name} {}", bytes::text(after)))
    }
}

/// A call whose answer or buffers are not what the reference says.
#[derive(Clone)]
pub struct Difference {
    pub case: Input,
    pub reason: String,
    pub wanted: Answer,
    pub wanted_after: After,
    /// Which side differs from the reference: `IronRDP` or `rdp6`.
    pub side: &'static str,
    /// Its answer, in words.
    pub got: String,
    pub got_after: After,
}

/// Nothing, or the difference that was found.
pub type Outcome = Result<(), Box<Difference>>;

impl fmt::Display for Difference {
    fn fmt(&self, f: &mut fmt::Formatter<'_>) -> fmt::Result {
        writeln!(f, "different: {}", self.reason)?;
        writeln!(f, "  {}", self.case)?;
        writeln!(f, "  {}: {}{}", self.case.reference(), self.wanted, self.wanted_after)?;
        write!(f, "  {}: {}{}", self.side, self.got, self.got_after)
    }
}

/// What a failed test prints.
impl fmt::Debug for Difference {
    fn fmt(&self, f: &mut fmt::Formatter<'_>) -> fmt::Result {
        f.write_str(&shortened(&self.to_string()))
    }
}

/// A library's answer in the words of `original::Answer`.
pub fn answer_text(number: i64) -> String {
    if number < 0 {
        format!("refusal {}", number.unsigned_abs())
    } else {
        format!("{number} bytes")
    }
}

/// A library, the memory of its buffers, and what was compared so far.
pub struct Comparer {
    pub(crate) library: Library,
    pub(crate) memory: GuardedMemory,
    /// What the destination must hold after the call, and what it holds.
    pub(crate) wanted_after: Vec<u8>,
    pub(crate) got_after: Vec<u8>,
    /// The same of a picture's work area and image.
    pub(crate) afters: Afters,
    /// The same of a picture's packing.
    pub(crate) packed: Packed,
    pub tally: Tally,
}

impl Comparer {
    pub fn new(library: Library) -> Self {
        Comparer {
            library,
            memory: GuardedMemory::default(),
            wanted_after: Vec::new(),
            got_after: Vec::new(),
            afters: Afters::default(),
            packed: Packed::default(),
            tally: Tally::default(),
        }
    }

    /// Compares a case and counts it.
    pub fn compare(&mut self, kind: Kind, case: Case<'_>) -> Outcome {
        self.compare_at(kind, case, &SIDES)
    }

    /// The same with the buffers at these sides of their pages only, where both would take too long.
    pub fn compare_at(&mut self, kind: Kind, case: Case<'_>, sides: &[Side]) -> Outcome {
        let reference = Reference::ironrdp_if(case.refused_at_entry().is_none());
        let wanted = self.ask(case);
        self.tally.count(kind, reference, &wanted);
        self.compare_library(case, wanted, sides)
    }

    /// Passes the bytes beside each buffer to a sanitiser.
    pub fn watch_by(&mut self, watch: Watch) {
        self.memory.watch = Some(watch);
    }

    /// The answer that is required, and what the buffers must hold then, without a call of the library; of the two sizes that of
    /// the work area. A case of the prefix theorem is more than one call and has no such answer.
    pub fn wanted(&mut self, input: &Input) -> Result<(Answer, After), Box<Difference>> {
        match input {
            Input::Call(case) => {
                let answer = self.ask(case.view());
                Ok((answer, After(vec![("destination", self.wanted_after.clone())])))
            }
            Input::Picture(case) => Ok((self.ask_picture(case.view()), self.afters.wanted())),
            Input::Sizes(case) => Ok((Answer::Done(case.work()), After(Vec::new()))),
            Input::Stream(case) => Ok((self.ask_stream(case.view()), self.afters.wanted())),
            Input::StreamSize(case) => Ok((Answer::Done(case.view().work()), After(Vec::new()))),
            Input::Encoding(case) => {
                let answer = self.ask_encoding(case.view())?;
                Ok((answer, self.packed.wanted_after()))
            }
            Input::Prefix(_) => unreachable!("a case of the prefix theorem is no single call"),
        }
    }

    /// Compares a case without counting it.
    pub fn check(&mut self, input: &Input) -> Outcome {
        match input {
            Input::Call(case) => self.check_call(case),
            Input::Picture(case) => self.check_picture(case),
            Input::Sizes(case) => self.check_sizes(case),
            Input::Stream(case) => self.check_stream(case),
            Input::StreamSize(case) => self.check_stream_size(case.view()),
            Input::Encoding(case) => self.check_encoding(case),
            Input::Prefix(case) => self.check_prefix_case(case),
        }
    }

    fn check_call(&mut self, case: &Owned) -> Outcome {
        let wanted = self.ask(case.view());
        self.compare_library(case.view(), wanted, &SIDES)
    }

    /// The answer that is required; `wanted_after` gets what the destination must hold.
    fn ask(&mut self, case: Case<'_>) -> Answer {
        self.wanted_after.clear();
        self.wanted_after.extend_from_slice(case.before);
        match case.refused_at_entry() {
            Some(number) => Answer::Refused(number),
            None => case.by_ironrdp(&mut self.wanted_after),
        }
    }

    fn compare_library(&mut self, case: Case<'_>, wanted: Answer, sides: &[Side]) -> Outcome {
        let Some((reason, got)) = self.library_fault(case, &wanted, sides) else {
            return Ok(());
        };
        Err(self.difference(Input::Call(case.to_owned()), reason, wanted, "rdp6", answer_text(got)))
    }

    /// Calls the library with the buffers at these sides of their pages, and compares its answer with `wanted` and its destination
    /// with `wanted_after`. Returns what differs, if anything, with the library's answer; `got_after` has its destination.
    pub(crate) fn library_fault(&mut self, case: Case<'_>, wanted: &Answer, sides: &[Side]) -> Option<(String, i64)> {
        let function = self.library.function(case.operation);
        let (len, room) = (case.source.len(), case.before.len());
        for &side in sides {
            let buffers =
                [Buffer::read("source", case.source), Buffer::written("destination", case.before, &mut self.got_after)];
            // SAFETY: both buffers are valid during the call. That it stays inside them is tested.
            let (got, harm) = self.memory.call(View::Call(case), side, buffers, |[src, dst]| unsafe {
                function(src, len, dst, room, case.width, case.height)
            });
            if let Some(reason) = harm.or_else(|| self.fault(wanted.number() == Some(got))) {
                return Some((reason, got));
            }
        }
        None
    }

    /// What differs, if anything, once it is known whether the answers are the same.
    pub(crate) fn fault(&self, same_answer: bool) -> Option<String> {
        if !same_answer {
            Some("the answer".to_owned())
        } else if self.wanted_after != self.got_after {
            Some("the destination".to_owned())
        } else {
            None
        }
    }

    pub(crate) fn difference(
        &self,
        case: Input,
        reason: String,
        wanted: Answer,
        side: &'static str,
        got: String,
    ) -> Box<Difference> {
        let destination = |after: &Vec<u8>| After(vec![("destination", after.clone())]);
        let (wanted_after, got_after) = (destination(&self.wanted_after), destination(&self.got_after));
        Box::new(Difference { case, reason, wanted, wanted_after, side, got, got_after })
    }
}
