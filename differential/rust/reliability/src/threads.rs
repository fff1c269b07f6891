//! Threads that call the library at once, each on buffers of its own, get the answers that one thread alone gets.

use comparer::Comparer;
use reliability::calls::{Caller, Known};
use reliability::mix::Mix;
use reliability::LIBRARY;
use std::sync::Barrier;
use std::thread;
use std::time::{Duration, Instant};

/// The cases of each thread, and those whose sources all threads read.
const CASES: usize = 2_000;

/// The stack of each thread, behind which lies a page that may not be touched: a call that took more would end the program.
const STACK: usize = 64 << 10;

/// Cases whose answers are right where one thread alone calls the library.
fn compared_alone(seed: u64) -> Result<Vec<Known>, String> {
    let mut comparer = Comparer::new(LIBRARY);
    let mut caller = Caller::default();
    let cases = Mix::new(seed).take(CASES);
    let compare = |(_, input)| {
        let known = Known::of(&mut comparer, input)?;
        caller.compare(&known)?;
        Ok(known)
    };
    cases.map(compare).collect()
}

/// Its own cases and the common ones until the time is over, from another place on than its neighbours. Returns the number of calls.
fn one_thread(own: &[Known], common: &[Known], from: usize, end: Instant) -> Result<u64, String> {
    let mut caller = Caller::default();
    let mut calls = 0;
    while Instant::now() < end {
        for cases in [own, common] {
            let (behind, front) = cases.split_at(from % cases.len());
            front.iter().chain(behind).try_for_each(|known| caller.compare(known))?;
            calls += cases.len() as u64;
        }
    }
    Ok(calls)
}

/// So many threads at once. Returns the number of calls of each.
fn at_once(pools: &[Vec<Known>], common: &[Known], time: Duration) -> Result<Vec<u64>, String> {
    let start = Barrier::new(pools.len());
    thread::scope(|scope| {
        let threads: Vec<_> = pools
            .iter()
            .enumerate()
            .map(|(at, own)| {
                let start = &start;
                let work = move || {
                    start.wait();
                    one_thread(own, common, at * 97, Instant::now() + time)
                };
                thread::Builder::new().stack_size(STACK).spawn_scoped(scope, work).expect("a thread")
            })
            .collect();
        threads.into_iter().map(|thread| thread.join().expect("no panic")).collect()
    })
}

pub fn run(seconds: u64, seed: u64) -> Result<(), String> {
    let cores = thread::available_parallelism().map_or(1, usize::from);
    let counts = [2, 4 * cores.max(2)];
    println!("threads: {seconds} seconds, seed {seed}, {cores} processors, {} KiB of stack each", STACK >> 10);
    let common = compared_alone(seed)?;
    let pools = (1..=counts[1] as u64).map(|at| compared_alone(seed + at)).collect::<Result<Vec<_>, _>>()?;
    println!("threads: one thread alone: {} cases, 0 different", CASES * (1 + pools.len()));
    for count in counts {
        let calls = at_once(&pools[..count], &common, Duration::from_secs(seconds) / counts.len() as u32)?;
        let (min, max) = (calls.iter().min().unwrap_or(&0), calls.iter().max().unwrap_or(&0));
        let all: u64 = calls.iter().sum();
        println!("threads: {count} at once: {all} calls, {min} to {max} each, 0 different from one alone");
    }
    Ok(())
}
