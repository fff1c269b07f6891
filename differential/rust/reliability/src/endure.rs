//! One process for a long time: the same reference cases again and again, new cases in between, every answer and every byte
//! compared.

use comparer::Comparer;
use reliability::calls::{Caller, Known};
use reliability::entry::ENTRIES;
use reliability::mix::Mix;
use reliability::system::{cpu_time, Resources};
use reliability::LIBRARY;
use std::time::{Duration, Instant};

/// The cases whose answers are kept and that are run again and again.
const REFERENCE: usize = 4_000;
/// The new cases between two runs of them.
const NEW: usize = 4_000;
/// A line is printed at most so often.
const SLICE: Duration = Duration::from_secs(60);
/// Memory that may come and go: pages of the program itself and of the allocator that are first touched late.
const SPARE_KIB: u64 = 1024;

/// What was done in a part of the time.
#[derive(Clone, Copy, Default)]
struct Share {
    reference: u64,
    fresh: u64,
    /// The processor's time of the reference cases.
    busy: Duration,
}

impl Share {
    fn rate(&self) -> f64 {
        self.reference as f64 / self.busy.as_secs_f64().max(1e-9)
    }

    fn add(&mut self, other: Share) {
        self.reference += other.reference;
        self.fresh += other.fresh;
        self.busy += other.busy;
    }
}

struct Run {
    comparer: Comparer,
    caller: Caller,
    mix: Mix,
    reference: Vec<Known>,
}

impl Run {
    fn new(seed: u64) -> Result<Run, String> {
        let mut comparer = Comparer::new(LIBRARY);
        let cases = Mix::new(seed).take(REFERENCE);
        let reference = cases.map(|(_, input)| Known::of(&mut comparer, input)).collect::<Result<_, _>>()?;
        Ok(Run { comparer, caller: Caller::default(), mix: Mix::new(!seed), reference })
    }

    /// The reference cases once, then new ones.
    fn round(&mut self, share: &mut Share) -> Result<(), String> {
        let begin = cpu_time();
        for known in &self.reference {
            self.caller.compare(known)?;
        }
        share.busy += cpu_time() - begin;
        share.reference += self.reference.len() as u64;
        for (_, input) in self.mix.by_ref().take(NEW) {
            let known = Known::of(&mut self.comparer, input)?;
            self.caller.compare(&known)?;
        }
        share.fresh += NEW as u64;
        Ok(())
    }

    fn until(&mut self, end: Instant) -> Result<Share, String> {
        let mut share = Share::default();
        while Instant::now() < end || share.reference == 0 {
            self.round(&mut share)?;
        }
        Ok(share)
    }
}

fn print_line(when: &str, share: &Share, resources: &Resources) {
    println!(
        "{when:>12} {:>13} calls, {:>9.0} reference calls a second, resident {} KiB, at most {} KiB, {} files open",
        share.reference + share.fresh,
        share.rate(),
        resources.resident,
        resources.highest,
        resources.files
    );
}

pub fn run(seconds: u64, seed: u64) -> Result<(), String> {
    println!("endurance: {seconds} seconds, seed {seed}, one process, all entries mixed, every answer and byte compared with IronRDP");
    println!("or, outside the domain, with docs/FORMAT.md; {REFERENCE} reference cases again and again, {NEW} new ones in between");
    let (begin, time) = (Instant::now(), Duration::from_secs(seconds));
    let mut run = Run::new(seed)?;
    let digest = run.reference.iter().fold(0xCBF2_9CE4_8422_2325, |sum, known| known.digest(sum));
    println!(
        "reference cases of each entry: {} at least, digest of the required answers: {digest:016x}",
        REFERENCE / ENTRIES.len()
    );
    let warm = run.until(begin + time / 20)?;
    let warmed = Resources::now();
    print_line("warm", &warm, &warmed);
    let slices = slices_of(&mut run, begin, time)?;
    summary(&warm, &slices, warmed, begin.elapsed())
}

/// Runs until the time is over, and prints a line for each slice of it.
fn slices_of(run: &mut Run, begin: Instant, time: Duration) -> Result<Vec<Share>, String> {
    // Room from the start, so that no slice needs memory of its own.
    let mut slices = Vec::with_capacity(time.as_secs() as usize / SLICE.as_secs() as usize + 8);
    let length = SLICE.min(time / 5).max(Duration::from_millis(1));
    while begin.elapsed() < time {
        let share = run.until((Instant::now() + length).min(begin + time))?;
        slices.push(share);
        print_line(&format!("{} s", begin.elapsed().as_secs()), &share, &Resources::now());
    }
    Ok(slices)
}

fn summary(warm: &Share, slices: &[Share], warmed: Resources, took: Duration) -> Result<(), String> {
    let mut all = *warm;
    slices.iter().for_each(|&share| all.add(share));
    let end = Resources::now();
    let (first, last) = (slices.first().unwrap_or(warm).rate(), slices.last().unwrap_or(warm).rate());
    println!(
        "endurance: {} calls in {} s ({} of reference cases, {} of new ones), 0 different",
        all.reference + all.fresh,
        took.as_secs(),
        all.reference,
        all.fresh
    );
    println!(
        "endurance: resident memory {} KiB after the warm-up, {} KiB at the end; {} files open, then {}",
        warmed.resident, end.resident, warmed.files, end.files
    );
    // Only printed: other programs on the machine change the speed too.
    println!("endurance: {first:.0} reference calls a second of processor time at the start, {last:.0} at the end");
    if end.resident > warmed.resident + SPARE_KIB {
        return Err(format!("endurance: FAILED: resident memory has grown by more than {SPARE_KIB} KiB"));
    }
    if end.files != warmed.files {
        return Err("endurance: FAILED: the number of open files has changed".to_owned());
    }
    Ok(())
}
