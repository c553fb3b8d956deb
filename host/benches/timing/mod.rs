//! Times two calls side by side.
//!
//! `cargo bench` prints a table in nanoseconds a call. A figure is the best of several runs, so that
//! other work on the machine shows as little as possible; the runs of the two alternate. Slow calls
//! get fewer runs. Both are called through pointers the compiler can't see through, as functions of
//! another library are.

// Each benchmark uses its own part of this module.
#![allow(dead_code)]

use std::hint::black_box;
use std::time::{Duration, Instant};

const RUNS: usize = 100;
const RUN: Duration = Duration::from_millis(1);
/// After this time a line gets no more than the fewest runs.
const LINE: Duration = Duration::from_secs(1);
const FEWEST_RUNS: usize = 10;

pub fn heading() {
    heading_of("operation", "library ns", "reference ns");
}

/// The heading of lines that have something else side by side.
pub fn heading_of(what: &str, first: &str, second: &str) {
    println!("{what:<44}{first:>12}{second:>14}{:>8}", "ratio");
}

/// Makes the compiler believe that an answer is used, without moving it.
pub fn keep<T>(answer: &T) {
    black_box(answer);
}

/// Times both and prints a line. They share the buffer, as its place in memory matters.
pub fn compare(
    what: &str,
    out: &mut [u8],
    library: impl Fn(&mut [u8]),
    reference: impl Fn(&mut [u8]),
) {
    compare_parts(what, 1, out, library, reference);
}

/// Times both, whose calls have so many parts each, and prints a line for one part.
pub fn compare_parts(
    what: &str,
    parts: usize,
    out: &mut [u8],
    library: impl Fn(&mut [u8]),
    reference: impl Fn(&mut [u8]),
) {
    let (library, reference) = best_times(out, library, reference);
    let parts = parts as f64;
    print(what, library / parts, reference / parts);
}

/// The times of one call of each in nanoseconds, each the best of several runs.
pub fn best_times(
    out: &mut [u8],
    library: impl Fn(&mut [u8]),
    reference: impl Fn(&mut [u8]),
) -> (f64, f64) {
    let library_calls = calls_in_a_run(out, &library);
    let reference_calls = calls_in_a_run(out, &reference);
    let (mut library_best, mut reference_best) = (f64::MAX, f64::MAX);
    for _ in runs() {
        library_best = library_best.min(time(library_calls, out, &library));
        reference_best = reference_best.min(time(reference_calls, out, &reference));
    }
    (library_best, reference_best)
}

/// Prints a line of two times that were taken.
pub fn print(what: &str, first: f64, second: f64) {
    let ratio = first / second;
    println!("{what:<44}{first:>12.1}{second:>14.1}{ratio:>8.2}");
}

/// The runs of a line from now on.
fn runs() -> impl Iterator<Item = usize> {
    let start = Instant::now();
    (0..RUNS).take_while(move |&run| run < FEWEST_RUNS || start.elapsed() < LINE)
}

/// As many calls as fill one run. Finding out warms up caches and clock.
fn calls_in_a_run(out: &mut [u8], call: &impl Fn(&mut [u8])) -> u64 {
    let run = RUN.as_secs_f64() * 1e9;
    let mut calls = 1;
    while time(calls, out, call) * calls as f64 <= run {
        calls *= 2;
    }
    calls
}

/// The time of one call in nanoseconds when `calls` are made.
fn time(calls: u64, out: &mut [u8], call: &impl Fn(&mut [u8])) -> f64 {
    let start = Instant::now();
    for _ in 0..calls {
        call(black_box(out));
    }
    start.elapsed().as_secs_f64() * 1e9 / calls as f64
}

/// Times one call and prints a line.
pub fn time_alone(what: &str, out: &mut [u8], call: impl Fn(&mut [u8])) {
    let best = best_time(out, call);
    println!("{what:<44}{best:>12.1}");
}

/// The time of one call in nanoseconds, the best of several runs.
pub fn best_time(out: &mut [u8], call: impl Fn(&mut [u8])) -> f64 {
    let calls = calls_in_a_run(out, &call);
    runs()
        .map(|_| time(calls, out, &call))
        .fold(f64::MAX, f64::min)
}

/// The time of a single call in nanoseconds, for one that takes long.
pub fn time_once(call: impl FnOnce()) -> f64 {
    let start = Instant::now();
    call();
    start.elapsed().as_secs_f64() * 1e9
}
