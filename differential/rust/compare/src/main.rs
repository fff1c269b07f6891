//! Compares the library with IronRDP. `USAGE` has the command line.

mod differences;

use comparer::arguments::{self, asks_for_help, refused, unexpected};
use comparer::report::report;
use comparer::shrink::shrink;
use comparer::{encoding, packing, picture, prefix, stream, unpacking, Comparer, Extent, Outcome};
use ours::LIBRARY;
use std::process::ExitCode;
use std::time::{Duration, Instant};

const SECONDS: u64 = 10;
const SEED: u64 = 6;

const USAGE: &str = "\
usage: differential/run [SECONDS] [SEED]   compares all functions, by default for 10 seconds with seed 6; status 1 on a difference
       differential/run --case CASE        runs one case and prints what IronRDP and rdp6 answer
       differential/run --differences      the same for a table of inputs where IronRDP and rdp6 differ, and of some where they agree
       differential/run --help             prints this

A CASE is one of
  'pu WIDTH HEIGHT BODY DST'                        unpacks a plane
  'pp WIDTH HEIGHT SAMPLES DST'                     packs a plane
  'iu WIDTH HEIGHT RLE ALPHA DEF BODY WORK IMAGE'   unpacks a picture; DEF is argb, argb:LEVEL:SUBSAMPLED, LEVEL:SUBSAMPLED for
                                                    AYCoCg, or DEFINITION:LEVEL:SUBSAMPLED
  'is WIDTH HEIGHT RLE DEFINITION SUBSAMPLED'       the sizes of a picture's work area and image
  'pc WIDTH HEIGHT RLE R G B A DST'                 packs a picture from channels; A is none for three planes
  'pb WIDTH HEIGHT LAYOUT RLE ALPHA PIXELS DST'     packs a picture from pixels; LAYOUT is bgra, rgba, argb, abgr or an unknown number
  'su WIDTH HEIGHT STREAM WORK IMAGE'               unpacks a stream
  'ss WIDTH HEIGHT STREAM'                          the size of a stream's work area
  'sc WIDTH HEIGHT RLE R G B A DST'                 packs a stream from channels
  'sb WIDTH HEIGHT LAYOUT RLE ALPHA PIXELS DST'     packs a stream from pixels
  'xu WIDTH HEIGHT RLE ALPHA DEF LAYOUT BODY WORK IMAGE'
                                                    unpacks a picture to four-byte pixels
  'xw WIDTH HEIGHT RLE ALPHA DEFINITION SUBSAMPLED' the sizes of its work area and image
  'xs WIDTH HEIGHT LAYOUT STREAM WORK IMAGE'        unpacks a stream to four-byte pixels
  'xz WIDTH HEIGHT STREAM'                          the size of its work area
  'px WIDTH HEIGHT SAMPLES M FOLLOWING DST'         packs a plane, then unpacks the first M bytes and, if M is all, FOLLOWING behind them
Bytes are hexadecimal; HH*N stands for N times HH, with a comma behind it if more bytes follow; - stands for none.";

fn main() -> ExitCode {
    let words: Vec<String> = std::env::args().skip(1).collect();
    let words: Vec<&str> = words.iter().map(String::as_str).collect();
    if asks_for_help(&words) {
        println!("{USAGE}");
        return ExitCode::SUCCESS;
    }
    match words[..] {
        ["--differences"] => differences::print_all(),
        ["--case", case] => differences::print_one(case),
        ["--case"] => refused("compare", "--case needs a CASE"),
        ["--differences", word, ..] | ["--case", _, word, ..] => refused("compare", &unexpected(word)),
        [word, ..] | [_, word, ..] if word.starts_with('-') => refused("compare", &unexpected(word)),
        [_, _, word, ..] => refused("compare", &unexpected(word)),
        [] => compare(SECONDS, SEED),
        [seconds] => with_numbers(seconds, &SEED.to_string()),
        [seconds, seed] => with_numbers(seconds, seed),
    }
}

fn with_numbers(seconds: &str, seed: &str) -> ExitCode {
    match (arguments::seconds(seconds), arguments::seed(seed)) {
        (Ok(seconds), Ok(seed)) => compare(seconds, seed),
        (Err(why), _) | (_, Err(why)) => refused("compare", &why),
    }
}

/// Compares all fixed cases, then random ones until the time is over.
fn compare(seconds: u64, seed: u64) -> ExitCode {
    println!("plane unpacking: IronRDP's decompress_8bpp_plane, rdp6_decompress_8bpp_plane");
    println!("plane packing: IronRDP's compress_8bpp_plane, rdp6_compress_8bpp_plane");
    println!("picture unpacking: IronRDP's BitmapStreamDecoderImpl, rdp6_decode");
    println!("picture packing: IronRDP's BitmapStreamEncoder, the four functions rdp6_encode_..");
    println!(
        "stream unpacking: IronRDP's decode_bitmap_stream_to_rgb24 with our parser of the header, rdp6_stream_decode"
    );
    println!("stream packing: IronRDP's BitmapStreamEncoder, the four functions rdp6_stream_encode_..");
    println!("four-byte pixels: the same three bytes and IronRDP's alpha plane, rdp6_decode_pixels, rdp6_stream_decode_pixels");
    println!("{seconds} seconds, seed {seed}; each case is called twice, its buffers at either end of guarded pages");
    let mut comparer = Comparer::new(LIBRARY);
    let outcome = all_cases(&mut comparer, Duration::from_secs(seconds), seed);
    println!("{}", comparer.tally);
    let total = comparer.tally.total();
    let Err(difference) = outcome else {
        println!("{total} compared, 0 different");
        return ExitCode::SUCCESS;
    };
    println!("{}", report(&shrink(&mut comparer, difference), "difference.txt"));
    println!("{total} compared, 1 different, the last; nothing was compared after it");
    ExitCode::FAILURE
}

/// The fixed cases, then random ones until the time is over, for a third of it at least.
fn all_cases(comparer: &mut Comparer, time: Duration, seed: u64) -> Outcome {
    let end = Instant::now() + time;
    fixed_cases(comparer)?;
    let end = end.max(Instant::now() + time / 3);
    let mut unpacking = unpacking::random::Random::new(seed);
    let mut packing = packing::random::Random::new(seed);
    let mut pictures = picture::random::Random::new(seed, Extent::Body);
    let mut encoding = encoding::random::Random::new(seed, Extent::Body);
    let mut streams = stream::random::Random::new(seed);
    let mut stream_encoding = encoding::random::Random::new(seed, Extent::Stream);
    let mut pixels = picture::random::Random::pixels(seed, Extent::Body);
    let mut stream_pixels = stream::random::Random::pixels(seed);
    let mut prefixes = prefix::random::Random::new(seed);
    let mut kinds: [Random<'_>; KINDS] = [
        ("unpacking", &mut |comparer| unpacking.round(comparer)),
        ("packing", &mut |comparer| packing.round(comparer)),
        ("pictures", &mut |comparer| pictures.round(comparer)),
        ("picture packing", &mut |comparer| encoding.round(comparer)),
        ("streams", &mut |comparer| streams.round(comparer)),
        ("stream packing", &mut |comparer| stream_encoding.round(comparer)),
        ("four-byte pictures", &mut |comparer| pixels.round(comparer)),
        ("four-byte streams", &mut |comparer| stream_pixels.round(comparer)),
        ("the prefix theorem", &mut |comparer| prefixes.round(comparer)),
    ];
    random_cases(comparer, &mut kinds, end)
}

/// How many kinds of random cases there are.
const KINDS: usize = 9;

/// A kind of random cases: its name, and a round of it.
type Random<'a> = (&'static str, &'a mut dyn FnMut(&mut Comparer) -> Outcome);

/// The time that a kind has had, and its cases.
#[derive(Clone, Copy, Default)]
struct Share {
    time: Duration,
    cases: u64,
}

/// Rounds of the kinds, always of the one with the least time so far.
fn random_cases(comparer: &mut Comparer, kinds: &mut [Random<'_>; KINDS], end: Instant) -> Outcome {
    let mut shares = [Share::default(); KINDS];
    let mut now = Instant::now();
    while now < end {
        let next = (0..KINDS).min_by_key(|&kind| shares[kind].time).expect("there are kinds");
        let before = comparer.tally.total();
        (kinds[next].1)(comparer)?;
        let begin = std::mem::replace(&mut now, Instant::now());
        shares[next].time += now - begin;
        shares[next].cases += comparer.tally.total() - before;
    }
    for ((name, _), share) in kinds.iter().zip(shares) {
        println!("random cases of {name}: {} in {:.1} s", share.cases, share.time.as_secs_f64());
    }
    Ok(())
}

/// The parts that are the same every time, with the seconds that they take.
fn fixed_cases(comparer: &mut Comparer) -> Outcome {
    type Part = fn(&mut Comparer) -> Outcome;
    let parts: [(&str, Part); 9] = [
        ("unpacking", unpacking::fixed::run),
        ("packing", packing::fixed::run),
        ("pictures", picture::fixed::run),
        ("picture packing", encoding::fixed::run),
        ("streams", stream::fixed::run),
        ("stream packing", encoding::fixed::run_streams),
        ("four-byte pictures", picture::fixed::run_pixels),
        ("four-byte streams", stream::fixed::run_pixels),
        ("the prefix theorem", prefix::fixed::run),
    ];
    for (name, run) in parts {
        let begin = Instant::now();
        run(comparer)?;
        println!("the fixed cases of {name}: {:.1} s", begin.elapsed().as_secs_f64());
    }
    Ok(())
}
