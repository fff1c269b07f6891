//! How many cases of each kind were compared, and the answers that were required.

use crate::extent::Extent;
use crate::layout::Format;
use original::Answer;
use std::fmt;

/// What is compared.
#[derive(Clone, Copy, PartialEq, Eq)]
enum Part {
    Unpacking,
    Packing,
    Pictures,
    Sizes,
    Encoding,
    Prefix,
}

/// What the library is compared with.
#[derive(Clone, Copy, PartialEq, Eq)]
pub enum Reference {
    /// Inside the domain.
    IronRdp,
    /// docs/FORMAT.md, outside the domain.
    Format,
    /// The model of the prefix theorem.
    Model,
}

impl Reference {
    pub fn ironrdp_if(inside: bool) -> Reference {
        if inside {
            Reference::IronRdp
        } else {
            Reference::Format
        }
    }
}

/// Which cases are counted together.
#[derive(Clone, Copy, Debug, PartialEq, Eq)]
pub enum Group {
    /// Bodies that are unpacked to three bytes a pixel, or packed; planes and the prefix theorem.
    Bodies,
    /// Streams that are unpacked to three bytes a pixel, or packed.
    Streams,
    /// Bodies that are unpacked to four-byte pixels.
    Pixels,
    /// Streams that are.
    StreamPixels,
}

impl Group {
    pub fn of(extent: Extent, format: Format) -> Group {
        match (extent, format) {
            (Extent::Body, Format::Rgb24) => Group::Bodies,
            (Extent::Stream, Format::Rgb24) => Group::Streams,
            (Extent::Body, Format::Pixels(_)) => Group::Pixels,
            (Extent::Stream, Format::Pixels(_)) => Group::StreamPixels,
        }
    }
}

/// Where a case comes from.
#[derive(Clone, Copy, PartialEq, Eq)]
pub enum Kind {
    Short,
    Alphabet,
    Rooms,
    RowEnds,
    RowsTruncated,
    RowsDamaged,
    Table,
    Largest,
    Complete,
    Following,
    Truncated,
    Damaged,
    Segments,
    OpeningRuns,
    Noise,
    Sides,
    SmallPlanes,
    BoundaryRows,
    RunPlaces,
    WideRows,
    EveryRoom,
    Sources,
    PackTable,
    LongSides,
    LargestPlane,
    RandomPlanes,
    RandomSources,
    RandomSides,
    PictureExamples,
    PictureTable,
    PictureLevels,
    PictureLayouts,
    PictureSides,
    PictureWidths,
    PictureLengths,
    PictureOrder,
    PictureTruncated,
    PictureDamaged,
    PictureColours,
    PictureLongSides,
    PictureLargest,
    RandomPictures,
    RandomFollowing,
    RandomTruncated,
    RandomDamaged,
    RandomLengths,
    RandomBodies,
    RandomRefused,
    StreamExamples,
    StreamShort,
    StreamHeaders,
    StreamRefused,
    RandomStreams,
    SizesTable,
    EncodingExamples,
    EncodingTable,
    EncodingOrder,
    EncodingSources,
    EncodingPixels,
    EncodingSmall,
    EncodingBoundary,
    EncodingRooms,
    EncodingBlocks,
    EncodingPlaces,
    EncodingLayouts,
    EncodingLongSides,
    EncodingLargest,
    RandomEncodings,
    RandomEncodingSources,
    RandomEncodingSides,
    PrefixSmall,
    PrefixBoundary,
    PrefixLong,
    PrefixRandom,
}

/// Each kind with its part and its line of the report, in the order of the enum.
const KINDS: [(Kind, Part, &str); 74] = [
    (Kind::Short, Part::Unpacking, "all bodies of up to 2 bytes"),
    (Kind::Alphabet, Part::Unpacking, "bodies of 3 to 5 bytes, all forms of control bytes"),
    (Kind::Rooms, Part::Unpacking, "every destination length around width x height"),
    (Kind::RowEnds, Part::Unpacking, "every control byte around the end of a row"),
    (Kind::RowsTruncated, Part::Unpacking, "rows of boundary lengths, truncated"),
    (Kind::RowsDamaged, Part::Unpacking, "rows of boundary lengths, other control bytes"),
    (Kind::Table, Part::Unpacking, "a table of sides, most of them refused"),
    (Kind::Largest, Part::Unpacking, "planes of 8192 x 8192"),
    (Kind::Complete, Part::Unpacking, "planes packed by IronRDP, complete"),
    (Kind::Following, Part::Unpacking, "packed planes with bytes following"),
    (Kind::Truncated, Part::Unpacking, "packed planes, truncated"),
    (Kind::Damaged, Part::Unpacking, "packed planes, 1 to 3 bytes damaged"),
    (Kind::Segments, Part::Unpacking, "bodies made segment by segment"),
    (Kind::OpeningRuns, Part::Unpacking, "the same, rows opened by a run without raw bytes"),
    (Kind::Noise, Part::Unpacking, "bodies of random bytes"),
    (Kind::Sides, Part::Unpacking, "random sides outside the domain"),
    (Kind::SmallPlanes, Part::Packing, "all planes of up to 12 samples, or 6 of four values"),
    (Kind::BoundaryRows, Part::Packing, "rows of runs and literals of boundary lengths"),
    (Kind::RunPlaces, Part::Packing, "runs at every place of a row, behind raw bytes"),
    (Kind::WideRows, Part::Packing, "runs at the ends of rows of about 256 and 8192"),
    (Kind::EveryRoom, Part::Packing, "every destination length of planes with a run"),
    (Kind::Sources, Part::Packing, "sources longer and shorter than the plane"),
    (Kind::PackTable, Part::Packing, "a table of sides, most of them refused"),
    (Kind::LongSides, Part::Packing, "sides of 8191 and 8192"),
    (Kind::LargestPlane, Part::Packing, "planes of 8192 x 8192"),
    (Kind::RandomPlanes, Part::Packing, "random planes"),
    (Kind::RandomSources, Part::Packing, "random planes, sources longer or shorter"),
    (Kind::RandomSides, Part::Packing, "random sides outside the domain"),
    (Kind::PictureExamples, Part::Pictures, "the examples of FORMAT 10 and the like"),
    (Kind::PictureTable, Part::Pictures, "a table of sides, most of them refused"),
    (Kind::PictureLevels, Part::Pictures, "all loss levels, all definitions"),
    (Kind::PictureLayouts, Part::Pictures, "all layouts, those that there are and others"),
    (Kind::PictureSides, Part::Pictures, "all sides of 1 to 9, all forms"),
    (Kind::PictureWidths, Part::Pictures, "all widths of 10 to 100; about 256 and 8192"),
    (Kind::PictureLengths, Part::Pictures, "body, work area, image around their limits"),
    (Kind::PictureOrder, Part::Pictures, "several refusals at once"),
    (Kind::PictureTruncated, Part::Pictures, "small RLE pictures, every prefix"),
    (Kind::PictureDamaged, Part::Pictures, "small RLE pictures, every byte changed"),
    (Kind::PictureColours, Part::Pictures, "every Y, Co, Cg at every level"),
    (Kind::PictureLongSides, Part::Pictures, "sides of 8191 and 8192"),
    (Kind::PictureLargest, Part::Pictures, "pictures of 8192 x 8192"),
    (Kind::RandomPictures, Part::Pictures, "random pictures, complete"),
    (Kind::RandomFollowing, Part::Pictures, "random pictures with bytes following"),
    (Kind::RandomTruncated, Part::Pictures, "random pictures, truncated"),
    (Kind::RandomDamaged, Part::Pictures, "random pictures, 1 to 3 bytes damaged"),
    (Kind::RandomLengths, Part::Pictures, "random pictures, buffers of other lengths"),
    (Kind::RandomBodies, Part::Pictures, "bodies made segment by segment or of noise"),
    (Kind::RandomRefused, Part::Pictures, "random sides, levels, definitions outside the domain"),
    (Kind::StreamExamples, Part::Pictures, "small streams with known answers"),
    (Kind::StreamShort, Part::Pictures, "all streams of up to 2 bytes"),
    (Kind::StreamHeaders, Part::Pictures, "every header byte, streams around their limits"),
    (Kind::StreamRefused, Part::Pictures, "streams without header or pad byte, other refusals"),
    (Kind::RandomStreams, Part::Pictures, "streams of noise, or with another header byte"),
    (Kind::SizesTable, Part::Sizes, "a table of sides"),
    (Kind::EncodingExamples, Part::Encoding, "small inputs with known answers"),
    (Kind::EncodingTable, Part::Encoding, "a table of sides, most of them refused"),
    (Kind::EncodingOrder, Part::Encoding, "several refusals at once"),
    (Kind::EncodingSources, Part::Encoding, "each source short, exact, long"),
    (Kind::EncodingPixels, Part::Encoding, "buffers of pixels of every length"),
    (Kind::EncodingSmall, Part::Encoding, "all pictures of up to 3 pixels, or 2 of four planes"),
    (Kind::EncodingBoundary, Part::Encoding, "rows of runs and literals of boundary lengths"),
    (Kind::EncodingRooms, Part::Encoding, "destinations around every segment's end"),
    (Kind::EncodingBlocks, Part::Encoding, "rows of about 64, 128, 256 and 8192 pixels"),
    (Kind::EncodingPlaces, Part::Encoding, "runs at the ends of rows, other ones in each channel"),
    (Kind::EncodingLayouts, Part::Encoding, "the layouts of pixels, those that there are and others"),
    (Kind::EncodingLongSides, Part::Encoding, "sides of 8191 and 8192"),
    (Kind::EncodingLargest, Part::Encoding, "pictures of 8192 x 8192"),
    (Kind::RandomEncodings, Part::Encoding, "random pictures"),
    (Kind::RandomEncodingSources, Part::Encoding, "random pictures, sources longer or shorter"),
    (Kind::RandomEncodingSides, Part::Encoding, "random sides outside the domain"),
    (Kind::PrefixSmall, Part::Prefix, "all planes of up to 8 samples, every prefix"),
    (Kind::PrefixBoundary, Part::Prefix, "rows of runs and literals of boundary lengths"),
    (Kind::PrefixLong, Part::Prefix, "sides of 8191 and 8192"),
    (Kind::PrefixRandom, Part::Prefix, "random planes"),
];

/// A count for each number of a refusal; none has the number 0.
type Refused = [u64; 15];

/// The answers that were required in a part.
#[derive(Clone, Default)]
struct Answers {
    done: u64,
    /// Inside the domain, and outside it.
    refused: Refused,
    refused_outside: Refused,
    /// Outside the domain, and not refused.
    done_outside: u64,
}

/// `by 7: 3, by 8: 0` and so on.
fn listed(refused: &Refused, numbers: &[usize]) -> String {
    if numbers.is_empty() {
        return "none".to_owned();
    }
    let texts: Vec<_> = numbers.iter().map(|&number| format!("by {number}: {}", refused[number])).collect();
    texts.join(", ")
}

impl Answers {
    fn inside(&self) -> u64 {
        self.done + self.refused.iter().sum::<u64>()
    }

    fn outside(&self) -> u64 {
        self.done_outside + self.refused_outside.iter().sum::<u64>()
    }

    fn all(&self) -> u64 {
        self.inside() + self.outside()
    }

    /// The same in one line, with only the refusals that occurred.
    fn line(&self) -> String {
        let side = |name: &str, done: u64, refused: &Refused| {
            let numbers: Vec<usize> = (1..refused.len()).filter(|&number| refused[number] > 0).collect();
            format!(
                "{name} {} (done {done}, refused {})",
                done + refused.iter().sum::<u64>(),
                listed(refused, &numbers)
            )
        };
        let inside = side("inside the domain", self.done, &self.refused);
        format!("{inside}; {}", side("outside", self.done_outside, &self.refused_outside))
    }

    /// The lines of these answers: `done` is the word for a case that is not refused, then the refusals inside the domain and
    /// outside it.
    fn write(&self, f: &mut fmt::Formatter<'_>, done: &str, inside: &[usize], outside: &[usize]) -> fmt::Result {
        writeln!(f, "  inside the domain, compared with IronRDP: {}", self.inside())?;
        writeln!(f, "    ({done} {}, refused {})", self.done, listed(&self.refused, inside))?;
        writeln!(f, "  outside the domain, compared with FORMAT: {}", self.outside())?;
        match self.done_outside {
            0 => writeln!(f, "    (refused {})", listed(&self.refused_outside, outside)),
            count => writeln!(f, "    ({done} {count}, refused {})", listed(&self.refused_outside, outside)),
        }
    }
}

/// The cases of one group.
#[derive(Clone)]
struct Counts {
    kinds: [u64; KINDS.len()],
    parts: [Answers; 6],
    /// How many packed pictures were unpacked again.
    unpacked_again: u64,
}

impl Default for Counts {
    fn default() -> Self {
        Counts { kinds: [0; KINDS.len()], parts: Default::default(), unpacked_again: 0 }
    }
}

#[derive(Clone, Default)]
pub struct Tally {
    /// By `Group`.
    groups: [Counts; 4],
}

impl Counts {
    fn count(&mut self, kind: Kind, reference: Reference, wanted: &Answer) {
        self.kinds[kind as usize] += 1;
        let answers = &mut self.parts[KINDS[kind as usize].1 as usize];
        match (wanted, reference) {
            (Answer::Refused(number), Reference::Format) => answers.refused_outside[usize::from(*number)] += 1,
            (_, Reference::Format) => answers.done_outside += 1,
            (Answer::Refused(number), _) => answers.refused[usize::from(*number)] += 1,
            _ => answers.done += 1,
        }
    }

    /// The kinds of one part that have cases.
    fn write_kinds(&self, f: &mut fmt::Formatter<'_>, of: Part) -> fmt::Result {
        for (kind, _, name) in KINDS.iter().filter(|line| line.1 == of) {
            match self.kinds[*kind as usize] {
                0 => {}
                count => writeln!(f, "  {name:<52}{count:>11}")?,
            }
        }
        Ok(())
    }

    /// Unpacking of pictures. `whose` names the group; `outside` are the refusals outside the domain.
    fn write_unpacked(&self, f: &mut fmt::Formatter<'_>, whose: [&str; 2], outside: &[usize]) -> fmt::Result {
        let [_, _, pictures, sizes, _, _] = &self.parts;
        writeln!(f, "{} unpacking: {}", whose[0], pictures.all())?;
        self.write_kinds(f, Part::Pictures)?;
        pictures.write(f, "made", &[4, 7, 8, 9], outside)?;
        writeln!(f, "{}, compared with formulas: {}", whose[1], sizes.all())
    }

    /// Packing of pictures.
    fn write_packed(&self, f: &mut fmt::Formatter<'_>, whose: &str) -> fmt::Result {
        let [_, _, _, _, encoding, _] = &self.parts;
        writeln!(f, "{whose} packing: {}", encoding.all())?;
        self.write_kinds(f, Part::Encoding)?;
        encoding.write(f, "written", &[12], &[1, 2, 3, 11, 12])?;
        writeln!(f, "  unpacked again by IronRDP: {}", self.unpacked_again)
    }
}

impl Tally {
    /// Counts a case of a plane, of a body or of the prefix theorem.
    pub fn count(&mut self, kind: Kind, reference: Reference, wanted: &Answer) {
        self.count_in(Group::Bodies, kind, reference, wanted);
    }

    pub fn count_in(&mut self, group: Group, kind: Kind, reference: Reference, wanted: &Answer) {
        self.groups[group as usize].count(kind, reference, wanted);
    }

    pub fn count_unpacked_again(&mut self, group: Group) {
        self.groups[group as usize].unpacked_again += 1;
    }

    pub fn total(&self) -> u64 {
        self.groups.iter().flat_map(|counts| &counts.kinds).sum()
    }

    /// The answers that were required in this kind's part, in a line.
    pub fn answers_line(&self, group: Group, kind: Kind) -> String {
        self.groups[group as usize].parts[KINDS[kind as usize].1 as usize].line()
    }
}

impl fmt::Display for Tally {
    fn fmt(&self, f: &mut fmt::Formatter<'_>) -> fmt::Result {
        let [bodies, streams, pixels, stream_pixels] = &self.groups;
        let [unpacking, packing, _, _, _, prefix] = &bodies.parts;
        writeln!(f, "plane unpacking: {}", unpacking.all())?;
        bodies.write_kinds(f, Part::Unpacking)?;
        unpacking.write(f, "read", &[7, 8, 9], &[1, 2, 10])?;
        writeln!(f, "plane packing: {}", packing.all())?;
        bodies.write_kinds(f, Part::Packing)?;
        packing.write(f, "written", &[12], &[1, 2, 11])?;
        bodies.write_unpacked(f, ["picture", "sizes of work area and image"], &[1, 2, 3, 4, 5, 6])?;
        bodies.write_packed(f, "picture")?;
        streams.write_unpacked(f, ["stream", "sizes of a stream's work area"], &[1, 2, 4, 5, 6, 13, 14])?;
        streams.write_packed(f, "stream")?;
        let names = ["four-byte picture", "sizes of work area and image for four-byte pixels"];
        pixels.write_unpacked(f, names, &[1, 2, 3, 4, 5, 6])?;
        let names = ["four-byte stream", "sizes of a stream's work area for four-byte pixels"];
        stream_pixels.write_unpacked(f, names, &[1, 2, 3, 4, 5, 6, 13, 14])?;
        writeln!(f, "prefix theorem, packed and unpacked again: {}", prefix.all())?;
        bodies.write_kinds(f, Part::Prefix)?;
        writeln!(f, "  IronRDP and rdp6 compared with a model of FORMAT 3 to 5: {}", prefix.all())?;
        write!(f, "    (complete {}, prefixes refused by 7: {})", prefix.done, prefix.refused[7])
    }
}
