//! The parts of the wrong functions, and how they are found.

#![allow(dead_code)]

pub mod decoder;
pub mod encoder;
pub mod packer;
pub mod stored;
pub mod stream;

use comparer::report::report;
use comparer::shrink::{shrink_within, LIMIT};
use comparer::{encoding, packing, unpacking};
use comparer::{Case, Comparer, Difference, Extent, Function, Library, Outcome};

/// A test of a function that does some steps of a trait differently. The file that uses it has `SEARCH` and the library of such a
/// function, and the test names the smallest input that shows the mistake.
#[allow(unused_macros)]
macro_rules! wrong_function {
    ($steps:ident, $library:ident, $name:ident, $smallest:literal, { $($other:tt)* }) => {
        #[test]
        fn $name() {
            struct Wrong;
            impl $steps for Wrong {
                $($other)*
            }
            SEARCH.finds($library::<Wrong>(), $smallest);
        }
    };
}

/// The buffers of one call. Indices are not checked: a planted mistake may be out of bounds, as it would be in a library.
pub struct Slices {
    pub src: *const u8,
    pub src_len: usize,
    pub dst: *mut u8,
    pub dst_len: usize,
}

impl Slices {
    pub fn read(&self, at: usize) -> u8 {
        // SAFETY: inside the source, or outside by a planted mistake, in a page that the comparer watches.
        unsafe { self.src.add(at).read_volatile() }
    }

    /// A byte of the destination.
    pub fn sample(&self, at: usize) -> u8 {
        // SAFETY: inside the destination.
        unsafe { self.dst.add(at).read_volatile() }
    }

    pub fn write(&self, at: usize, byte: u8) {
        // SAFETY: as for `read`.
        unsafe { self.dst.add(at).write_volatile(byte) }
    }

    /// The source as a slice.
    pub fn source(&self) -> &[u8] {
        if self.src_len == 0 {
            return &[];
        }
        // SAFETY: valid during the call.
        unsafe { std::slice::from_raw_parts(self.src, self.src_len) }
    }

    /// The destination as a slice.
    pub fn destination(&mut self) -> &mut [u8] {
        if self.dst_len == 0 {
            return &mut [];
        }
        // SAFETY: valid during the call, and not used elsewhere.
        unsafe { std::slice::from_raw_parts_mut(self.dst, self.dst_len) }
    }
}

/// A packer or an unpacker over slices.
pub trait Call {
    fn call(slices: Slices, width: usize, height: usize) -> i64;
}

/// The same as C declares it.
pub unsafe extern "C" fn exported<C: Call>(
    src: *const u8,
    src_len: usize,
    dst: *mut u8,
    dst_len: usize,
    width: usize,
    height: usize,
) -> i64 {
    C::call(Slices { src, src_len, dst, dst_len }, width, height)
}

/// What FORMAT 8 requires outside the domain, and IronRDP does inside it.
fn done_right(case: Case<'_>, after: &mut [u8]) -> i64 {
    match case.refused_at_entry() {
        Some(number) => -i64::from(number),
        None => case.by_ironrdp(after).number().expect("an answer inside the domain"),
    }
}

pub struct RightUnpack;

impl Call for RightUnpack {
    fn call(mut slices: Slices, width: usize, height: usize) -> i64 {
        let before = slices.destination().to_vec();
        let body = slices.source().to_vec();
        done_right(Case::unpack(width, height, &body, &before), slices.destination())
    }
}

pub struct RightPack;

impl Call for RightPack {
    fn call(mut slices: Slices, width: usize, height: usize) -> i64 {
        let before = slices.destination().to_vec();
        let samples = slices.source().to_vec();
        done_right(Case::pack(width, height, &samples, &before), slices.destination())
    }
}

pub const RIGHT_UNPACK: Function = exported::<RightUnpack>;

/// A library without a mistake.
pub const RIGHT_LIBRARY: Library = Library {
    unpack: RIGHT_UNPACK,
    pack: exported::<RightPack>,
    pictures: decoder::pictures::<decoder::Right>(),
    encoders: encoder::encoders::<encoder::Right>(),
    streams: stream::streams::<stream::RightDecoder, stream::RightEncoder>(),
};

/// The difference from the sample above, of a delta code.
pub fn undelta(code: u8) -> u8 {
    if code & 1 == 0 {
        code / 2
    } else {
        255 - code / 2
    }
}

/// The delta code of a sample below another.
pub fn delta(upper: u8, lower: u8) -> u8 {
    let d = lower.wrapping_sub(upper);
    if d < 128 {
        2 * d
    } else {
        2 * (255 - d) + 1
    }
}

/// The order in which the refusals at entry are tested: zero, large, short.
pub fn first_refused(tests: [(bool, i64); 3], order: [usize; 3]) -> i64 {
    order.iter().map(|&at| tests[at]).find(|test| test.0).map_or(0, |test| test.1)
}

/// No search here may cost more than this part of shrinking's limit.
const MARGIN: u64 = 4;

/// Some cases of one kind: what a round of random cases does.
pub type Round = Box<dyn FnMut(&mut Comparer) -> Outcome>;

/// How a planted mistake is found.
pub struct Search {
    /// The cases that are the same in every run.
    pub fixed: fn(&mut Comparer) -> Outcome,
    /// Random cases from a seed.
    pub random: fn(u64) -> Round,
    /// So many rounds of these follow the fixed cases.
    pub rounds: usize,
    /// Random cases without the fixed ones must find it too, within so many rounds.
    pub alone: usize,
}

/// How a mistake in unpacking planes is found, by these fixed cases and by random ones.
pub const fn unpacking_search(fixed: fn(&mut Comparer) -> Outcome) -> Search {
    Search {
        fixed,
        random: |seed| {
            let mut random = unpacking::random::Random::new(seed);
            Box::new(move |comparer| random.round(comparer))
        },
        rounds: 2000,
        alone: 20_000,
    }
}

/// The same for packing planes.
pub const fn packing_search(fixed: fn(&mut Comparer) -> Outcome) -> Search {
    Search {
        fixed,
        random: |seed| {
            let mut random = packing::random::Random::new(seed);
            Box::new(move |comparer| random.round(comparer))
        },
        rounds: 500,
        alone: 20_000,
    }
}

/// The same for packing pictures into bodies.
pub const fn encoding_search(fixed: fn(&mut Comparer) -> Outcome) -> Search {
    Search { fixed, random: |seed| encoding_rounds(seed, Extent::Body), rounds: 300, alone: 5_000 }
}

/// Rounds of random pictures to pack.
pub fn encoding_rounds(seed: u64, extent: Extent) -> Round {
    let mut random = encoding::random::Random::new(seed, extent);
    Box::new(move |comparer| random.round(comparer))
}

/// The unpacker beside a right packer.
pub fn with_unpacker(unpack: Function) -> Library {
    Library { unpack, ..RIGHT_LIBRARY }
}

/// The packer beside a right unpacker.
pub fn with_packer(pack: Function) -> Library {
    Library { pack, ..RIGHT_LIBRARY }
}

/// The encoder beside right functions for the rest.
pub fn with_encoder<E: encoder::Encoder>() -> Library {
    Library { encoders: encoder::encoders::<E>(), ..RIGHT_LIBRARY }
}

impl Search {
    /// The smallest difference that is found.
    pub fn difference_in(&self, library: Library) -> Option<Box<Difference>> {
        let mut comparer = Comparer::new(library);
        let mut round = (self.random)(1);
        let mut outcome = (self.fixed)(&mut comparer);
        for _ in 0..self.rounds {
            outcome = outcome.and_then(|()| round(&mut comparer));
        }
        let (smallest, cost) = shrink_within(&mut comparer, outcome.err()?, LIMIT);
        assert!(cost <= LIMIT / MARGIN, "shrinking cost {cost}, near the limit of {LIMIT}");
        Some(smallest)
    }

    /// One that random cases find alone.
    pub fn random_difference_in(&self, library: Library) -> Option<Box<Difference>> {
        let mut comparer = Comparer::new(library);
        let mut round = (self.random)(2);
        (0..self.alone).find_map(|_| round(&mut comparer).err())
    }

    /// The mistake is found, both ways, in the library and not in IronRDP, and its smallest input is this one.
    pub fn finds(&self, library: Library, smallest: &str) {
        self.finds_in_fixed(library, smallest);
        assert!(self.random_difference_in(library).is_some(), "random cases find nothing");
    }

    /// The same, but random cases need not find it.
    pub fn finds_in_fixed(&self, library: Library, smallest: &str) {
        let difference = self.difference_in(library).expect("a mistake is found");
        let found = difference.case.to_string() == smallest;
        assert!(found, "the smallest input should be\n  {smallest}\n{}", reported(&difference));
        assert_eq!(difference.side, "rdp6");
    }

    pub fn finds_nothing(&self, library: Library) {
        if let Some(difference) = self.difference_in(library) {
            panic!("{}", reported(&difference));
        }
    }
}

/// The text of a difference. The complete text of a long one is in a file with the test's name.
fn reported(difference: &Difference) -> String {
    let name = std::thread::current().name().unwrap_or("test").replace("::", "-");
    report(difference, &format!("{name}.txt"))
}
