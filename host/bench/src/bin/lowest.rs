//! Prints what the lowest member of a set takes, on a million random sets of one signal: `lowest [ROUNDS]`.

use rrezhbuta_bench::lowest::{sets_of_one, time};
use rrezhbuta_bench::timing::rounds_asked;
use std::process::ExitCode;

const SETS: usize = 1_000_000;
const ROUNDS: usize = 100;
const SEED: u64 = 2;

fn main() -> ExitCode {
    let Some(rounds) = rounds_asked(ROUNDS) else {
        eprintln!("usage: lowest [ROUNDS]");
        return ExitCode::from(2);
    };
    let times = time(&sets_of_one(SETS, SEED), rounds);
    let ratio = times.proved / times.by_loop;
    println!("{SETS} random sets of one signal, medians of {rounds} rounds, nanoseconds a set");
    println!("{:>9}{:>9}{:>7}", "proved", "loop", "ratio");
    println!("{:>9.2}{:>9.2}{ratio:>7.3}", times.proved, times.by_loop);
    ExitCode::SUCCESS
}
