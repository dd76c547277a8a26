//! Prints what each kind of call and a mix of them takes on half full tables: `bench [ROUNDS]`.

use rrezhbuta_bench::timing::{accepted, rounds_asked, time};
use rrezhbuta_bench::work::{all, half_full};
use rrezhbuta_model::{BUFFER_RECORDS, PROCESS_PLACES, THREAD_PLACES};
use std::process::ExitCode;

const ROUNDS: usize = 400;

fn main() -> ExitCode {
    let Some(rounds) = rounds_asked(ROUNDS) else {
        eprintln!("usage: bench [ROUNDS]");
        return ExitCode::from(2);
    };
    let start = half_full();
    println!(
        "{PROCESS_PLACES} processes, {THREAD_PLACES} threads, {BUFFER_RECORDS} records a buffer"
    );
    println!("half full tables, medians of {rounds} rounds, microseconds a call");
    println!(
        "{:<12}{:>6}{:>10}{:>9}{:>9}{:>7}",
        "call", "calls", "accepted", "proved", "model", "ratio"
    );
    for batch in all() {
        let (calls, accepted) = (batch.calls.len(), accepted(&start, &batch));
        let times = time(&start, &batch, rounds);
        let (name, ratio) = (batch.name, times.proved / times.model);
        println!(
            "{name:<12}{calls:>6}{accepted:>10}{:>9.2}{:>9.2}{ratio:>7.2}",
            times.proved, times.model
        );
    }
    ExitCode::SUCCESS
}
