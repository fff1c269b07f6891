//! A fuzzer's inputs as files: those that it begins with, and those that it kept, compared with the library as it is linked.

use comparer::report::report;
use comparer::shrink::shrink;
use comparer::Comparer;
use reliability::case_from_bytes::case_from_bytes;
use reliability::entry::{Entry, ENTRIES};
use reliability::mix::Mix;
use reliability::{compare, counted_as, LIBRARY};
use std::fs;
use std::path::Path;

/// How many inputs each entry begins with.
const SEEDS: usize = 64;

fn failed(what: &Path, why: &std::io::Error) -> String {
    format!("{}: {why}", what.display())
}

pub fn write_seeds(folder: &Path) -> Result<(), String> {
    let mut mix = Mix::new(1);
    for entry in ENTRIES {
        let folder = folder.join(entry.name());
        fs::create_dir_all(&folder).map_err(|why| failed(&folder, &why))?;
        for at in 0..SEEDS {
            let file = folder.join(format!("seed-{at:02}"));
            fs::write(&file, mix.bytes()).map_err(|why| failed(&file, &why))?;
        }
    }
    Ok(())
}

pub fn replay(folder: &Path) -> Result<(), String> {
    let mut all = 0;
    for entry in ENTRIES {
        all += replay_entry(entry, &folder.join(entry.name()))?;
    }
    println!("replay: {all} inputs, 0 different");
    Ok(())
}

fn replay_entry(entry: Entry, folder: &Path) -> Result<u64, String> {
    let files = fs::read_dir(folder).map_err(|why| failed(folder, &why))?;
    let mut paths: Vec<_> = files.filter_map(|file| file.ok().map(|file| file.path())).collect();
    paths.sort();
    let mut comparer = Comparer::new(LIBRARY);
    let mut counted = None;
    for path in paths {
        let bytes = fs::read(&path).map_err(|why| failed(&path, &why))?;
        let input = case_from_bytes(entry, &bytes);
        counted = Some(counted_as(&input));
        if let Err(difference) = compare(&mut comparer, &input) {
            let shrunk = shrink(&mut comparer, difference);
            return Err(format!("replay: FAILED at {}\n{}", path.display(), report(&shrunk, "difference.txt")));
        }
    }
    let answers = counted.map_or(String::new(), |(group, kind)| comparer.tally.answers_line(group, kind));
    println!("replay: {}: {answers}", entry.name());
    Ok(comparer.tally.total())
}
