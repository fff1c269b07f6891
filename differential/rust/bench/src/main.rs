//! Measures IronRDP and the library: the same sources, the same buffers, one after the other within each round. The tables are
//! Markdown, for docs/PERFORMANCE.md.

mod clock;
mod entry;
mod figures;
mod measure;
mod pages;
mod pixels;
mod speed;
mod stack;

use comparer::arguments::{asks_for_help, refused, unexpected};
use std::process::ExitCode;

const RUNS: usize = 5;

const USAGE: &str = "\
usage: bench [--runs N]            every entry with three kinds of picture, beside a memcpy of the output; 5 runs or N
       bench --pixels [--runs N]   four-byte pixels beside three bytes a pixel, and packing from each layout; 5 runs or N
       bench --sizes               time per pixel from 64 x 64 to 8,192 x 8,192; takes minutes and 1.1 GB of memory
       bench --stack               the stack that each C function takes; needs objdump
       bench --help                prints this";

fn main() -> ExitCode {
    let words: Vec<String> = std::env::args().skip(1).collect();
    let words: Vec<&str> = words.iter().map(String::as_str).collect();
    if asks_for_help(&words) {
        println!("{USAGE}");
        return ExitCode::SUCCESS;
    }
    match words[..] {
        [] => speed::print_main_table(RUNS),
        ["--pixels"] => pixels::print_tables(RUNS),
        ["--runs", runs] | ["--pixels", "--runs", runs] => match runs.parse() {
            Ok(runs @ 1..) if words.len() == 2 => speed::print_main_table(runs),
            Ok(runs @ 1..) => pixels::print_tables(runs),
            _ => return refused("bench", &format!("N must be a number from 1: {runs}")),
        },
        ["--runs"] | ["--pixels", "--runs"] => return refused("bench", "--runs needs a number"),
        ["--sizes"] => speed::print_size_table(),
        ["--stack"] => stack::print_stack_table(),
        ["--pixels", "--runs", _, word, ..]
        | ["--sizes" | "--stack" | "--pixels", word, ..]
        | ["--runs", _, word, ..]
        | [word, ..] => return refused("bench", &unexpected(word)),
    }
    ExitCode::SUCCESS
}
