//! How fast the library is beside the original: same inputs, both optimised, median of several runs.
//!
//! 512 KiB active, 4 KiB pages, chunks of 256, a 4 KiB state area in 4-byte words. The original runs twice:
//! over the crate's own test flash with the write altered, which is what the ratio is asked against, and over
//! the leaner flash of the comparison. Then a full swap beside the plain fills and copies of the same bytes, the
//! time per page as the pages grow in number, and a swap of 8 MiB. All of this at both erase values, each beside the
//! text that is compiled for it.

use std::time::{Duration, Instant};

use compare::random::Random;

/// Flash that erases to FF.
#[path = "."]
mod ones {
    pub use original as text;
    pub mod side;
}

/// Flash that erases to 00.
#[path = "."]
#[allow(clippy::duplicate_mod)]
mod zeros {
    pub use original_zero as text;
    pub mod side;
}

const RUNS: usize = 21;

fn timed(body: impl FnOnce()) -> Duration {
    let begin = Instant::now();
    body();
    begin.elapsed()
}

fn median(mut times: Vec<Duration>) -> f64 {
    times.sort();
    times[times.len() / 2].as_secs_f64() * 1e6
}

fn main() {
    let mut random = Random::new(1);
    println!("microseconds, median of {RUNS} runs; a ratio below 1 means that the library is faster");
    let ones = ones::side::Start::new(&mut random);
    let zeros = zeros::side::Start::new(&mut random);
    ones.measure_calls();
    println!();
    zeros.measure_calls();
    println!();
    ones.measure_plain();
    zeros.measure_plain();
    ones::side::measure_growth(&mut random);
    zeros::side::measure_growth(&mut random);
    ones.measure_large(&mut random);
    zeros.measure_large(&mut random);
}
