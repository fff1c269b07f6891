//! Long runs of the library. `USAGE` has the command line.

mod corpus;
mod endure;
mod threads;

use comparer::arguments::{self, asks_for_help, refused, unexpected};
use std::process::ExitCode;

const SEED: u64 = 6;

const USAGE: &str = "\
usage: reliability endure SECONDS [SEED]    all entries mixed in one process: answers, memory, speed
       reliability threads SECONDS [SEED]   several threads at once, each on its own buffers
       reliability seeds FOLDER             writes inputs for a fuzzer to begin with, a folder for each entry
       reliability replay FOLDER            compares a fuzzer's inputs, a folder for each entry, with IronRDP on guarded pages
       reliability --help                   prints this";

fn main() -> ExitCode {
    let words: Vec<String> = std::env::args().skip(1).collect();
    let words: Vec<&str> = words.iter().map(String::as_str).collect();
    if asks_for_help(&words) {
        println!("{USAGE}");
        return ExitCode::SUCCESS;
    }
    let (run, seconds, seed): (fn(u64, u64) -> Result<(), String>, _, _) = match words[..] {
        ["seeds", folder] => return status(corpus::write_seeds(folder.as_ref())),
        ["replay", folder] => return status(corpus::replay(folder.as_ref())),
        ["endure", seconds] => (endure::run, seconds, None),
        ["endure", seconds, seed] => (endure::run, seconds, Some(seed)),
        ["threads", seconds] => (threads::run, seconds, None),
        ["threads", seconds, seed] => (threads::run, seconds, Some(seed)),
        ["endure" | "threads", _, _, word, ..] | ["seeds" | "replay", _, word, ..] => return wrong(&unexpected(word)),
        [word @ ("endure" | "threads")] => return wrong(&format!("{word} needs SECONDS")),
        [word @ ("seeds" | "replay")] => return wrong(&format!("{word} needs a FOLDER")),
        [word, ..] => return wrong(&unexpected(word)),
        [] => return wrong("no command"),
    };
    match (arguments::seconds(seconds), seed.map_or(Ok(SEED), arguments::seed)) {
        (Ok(seconds), Ok(seed)) => status(run(seconds, seed)),
        (Err(why), _) | (_, Err(why)) => wrong(&why),
    }
}

fn wrong(why: &str) -> ExitCode {
    refused("reliability", why)
}

fn status(outcome: Result<(), String>) -> ExitCode {
    match outcome {
        Ok(()) => ExitCode::SUCCESS,
        Err(why) => {
            println!("{why}");
            ExitCode::FAILURE
        }
    }
}
