//! The lowest member of a signal set: the proved function, which counts trailing zeros, against a loop up from 1.

use crate::timing::in_turn;
use rrezhbuta_compare::random::Random;
use std::hint::black_box;
use std::time::{Duration, Instant};

/// Signals are 1 to this; signal s is bit s - 1.
const SIGNALS: u32 = 64;

extern "C" {
    fn rrezhbuta_lowest(set: u64) -> u32;
}

/// The lowest member, or 0, from the proved library.
#[inline]
pub fn proved(set: u64) -> u32 {
    // SAFETY: the function takes a number, answers any, and touches no memory of ours.
    unsafe { rrezhbuta_lowest(set) }
}

/// The same by a loop up from 1; a call like the library's, so never inlined. Written with `while` it takes half as
/// long again, since the compiler then tests many signals at once.
#[inline(never)]
pub fn by_loop(set: u64) -> u32 {
    let found = (1..=SIGNALS).find(|s| (set >> (s - 1)) % 2 == 1);
    found.unwrap_or(0)
}

/// So many random sets of one signal each.
pub fn sets_of_one(count: usize, seed: u64) -> Vec<u64> {
    let mut random = Random::new(seed);
    (0..count)
        .map(|_| 1 << random.below(SIGNALS as usize))
        .collect()
}

/// What the sets took on the two sides, as medians of one set in nanoseconds.
#[derive(Clone, Copy, Debug, PartialEq)]
pub struct Times {
    /// The proved library's.
    pub proved: f64,
    /// The loop's.
    pub by_loop: f64,
}

/// Times all sets on both sides.
pub fn time(sets: &[u64], rounds: usize) -> Times {
    let [proved, by_loop] = in_turn(rounds, || time_proved(sets), || time_loop(sets))
        .map(|seconds| seconds * 1e9 / sets.len() as f64);
    Times { proved, by_loop }
}

fn time_proved(sets: &[u64]) -> Duration {
    let began = Instant::now();
    for &set in sets {
        black_box(proved(black_box(set)));
    }
    began.elapsed()
}

fn time_loop(sets: &[u64]) -> Duration {
    let began = Instant::now();
    for &set in sets {
        black_box(by_loop(black_box(set)));
    }
    began.elapsed()
}
