//! How long the proved check takes against the plain one: the two in turn, in one run, on the same tables.

use rrezhbuta_check::limits::{BUFFER_RECORDS, PROCESS_PLACES, THREAD_PLACES};
use rrezhbuta_check::samples::FILLINGS;
use rrezhbuta_check::{is_sound, plain, Tables};
use std::hint::black_box;
use std::time::{Duration, Instant};

const ROUNDS: usize = 200;
const CHECKS: usize = 200;

fn time(check: fn(&Tables) -> bool, tables: &Tables) -> Duration {
    let start = Instant::now();
    for _ in 0..CHECKS {
        assert!(check(black_box(tables)));
    }
    start.elapsed()
}

fn median(mut times: Vec<Duration>) -> f64 {
    times.sort();
    times[times.len() / 2].as_secs_f64() / CHECKS as f64 * 1e6
}

/// What the two take on these tables, in microseconds.
fn medians(tables: &Tables) -> [f64; 2] {
    let (mut proved, mut plain) = (vec![], vec![]);
    for _ in 0..ROUNDS {
        proved.push(time(is_sound, tables));
        plain.push(time(plain::is_sound, tables));
    }
    [proved, plain].map(median)
}

fn main() {
    println!(
        "{PROCESS_PLACES} processes, {THREAD_PLACES} threads, {BUFFER_RECORDS} records a buffer"
    );
    println!("medians of {ROUNDS} rounds of {CHECKS} checks, microseconds a check");
    println!(
        "{:<12}{:>9}{:>9}{:>7}",
        "tables", "proved", "plain", "ratio"
    );
    for (name, filled) in FILLINGS {
        // a copy has written its pages; those of fresh zeros would all be one page in the cache
        let [proved, plain] = medians(&filled().clone());
        let ratio = proved / plain;
        println!("{name:<12}{proved:>9.2}{plain:>9.2}{ratio:>7.2}");
    }
}
