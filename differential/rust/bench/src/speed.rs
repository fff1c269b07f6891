//! The table of every entry with every kind of picture, and the table of sizes.

use crate::entry::{entries, stream_entries, Entry};
use crate::figures::{figure, grouped, print_head, print_row, Spread};
use crate::measure::{Job, Times};
use crate::pages::{Kind, DRAWN, KINDS};

const ROUNDS: usize = 20;

/// A line of the table, and what each run measured of it.
struct Line {
    name: String,
    job: Job,
    runs: Vec<Times>,
}

impl Line {
    fn new((name, entry): (&str, Entry), kind: Kind) -> Line {
        Line { name: format!("{name}: {}", kind.name()), job: Job::new(entry, kind, DRAWN, DRAWN), runs: Vec::new() }
    }

    fn spread(&self, of: impl Fn(&Times) -> f64) -> Spread {
        Spread::of(self.runs.iter().map(of))
    }

    fn print(&self) {
        let time = |of: fn(&Times) -> f64| figure(self.spread(of).median);
        print_row([
            self.name.clone(),
            figure(self.job.output_share()),
            time(|times| times.ironrdp),
            time(|times| times.library),
            self.spread(|times| times.library / times.ironrdp).text(),
            time(|times| times.copy),
            self.spread(|times| times.library / times.copy).text(),
        ]);
    }
}

/// Every entry with every kind, those of streams with user-interface pages. A run goes through all the lines before the next one begins, so
/// that what disturbs the machine for a while is seen in one run of many lines, not in many runs of one line.
pub fn print_main_table(runs: usize) {
    let lines = entries().into_iter().flat_map(|entry| KINDS.map(|kind| Line::new(entry, kind)));
    let streams = stream_entries().into_iter().map(|entry| Line::new(entry, Kind::Page));
    let mut lines: Vec<Line> = lines.chain(streams).collect();
    for run in 1..=runs {
        eprintln!("run {run} of {runs}");
        for line in &mut lines {
            line.runs.push(line.job.best_times(ROUNDS));
        }
    }
    print_head(&[
        "1,024 × 1,024",
        "Output, bytes a pixel",
        "IronRDP, ns a pixel",
        "rdp6, ns a pixel",
        "rdp6 / IronRDP",
        "memcpy of the output, ns a pixel",
        "rdp6 / memcpy",
    ]);
    lines.iter().for_each(Line::print);
}

const SIDES: [usize; 5] = [64, 256, 1024, 4096, 8192];
/// The pixels that are measured at every side, which take seconds.
const SHEET: usize = 8192;
const SHEET_ROUNDS: usize = 3;
/// How many of the entries are measured at these sides.
const SIZED: usize = 7;

/// Pages of each size.
pub fn print_size_table() {
    let heads = SIDES.map(|side| format!("{0} × {0}", grouped(side)));
    let columns: Vec<&str> =
        ["rdp6 / IronRDP, ns a pixel"].into_iter().chain(heads.iter().map(String::as_str)).collect();
    print_head(&columns);
    for (name, entry) in entries().into_iter().take(SIZED) {
        let cell = |side| {
            eprintln!("{name}, {side}");
            let times = Job::new(entry, Kind::Page, SHEET, side).best_times(SHEET_ROUNDS);
            format!("{} / {}", figure(times.library), figure(times.ironrdp))
        };
        print_row([name.to_owned()].into_iter().chain(SIDES.map(cell)));
    }
}
