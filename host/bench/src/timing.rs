//! The two sides in turn, in one run, from the same tables.

use crate::work::Batch;
use rrezhbuta::Tables;
use rrezhbuta_compare::image::encode;
use rrezhbuta_compare::layer::{to_library, Layer, Library};
use rrezhbuta_compare::step::Expectation;
use rrezhbuta_model::{Call, Model};
use std::hint::black_box;
use std::time::{Duration, Instant};

/// What a batch took, as medians of a call.
#[derive(Clone, Copy, Debug, PartialEq)]
pub struct Times {
    /// The proved library's, in microseconds.
    pub proved: f64,
    /// The model's.
    pub model: f64,
}

/// The tables of a model.
fn tables_of(model: &Model) -> Tables<'static> {
    let mut tables = Tables::new();
    encode(model.rows(), &mut tables);
    tables
}

/// Both sides answer the batch alike, and their tables are the same after each call; how many calls are accepted.
pub fn accepted(start: &Model, batch: &Batch) -> usize {
    let mut library = Library::default();
    library.load(tables_of(start));
    let mut side = Expectation::new(start.clone());
    let told = batch.calls.iter().map(|call| {
        let told = side.step(&mut library, call);
        told.unwrap_or_else(|difference| panic!("{call:?}\n{difference}"))
    });
    told.filter(Result::is_ok).count()
}

/// How often both sides are timed: the program's one argument, else the number given. None where it is no number.
pub fn rounds_asked(unless: usize) -> Option<usize> {
    match std::env::args().nth(1) {
        None => Some(unless),
        Some(n) => n.parse().ok().filter(|&rounds| rounds > 0),
    }
}

/// Times two sides so many rounds, which take turns at going first: the median of each, in seconds.
pub fn in_turn(
    rounds: usize,
    ours: impl Fn() -> Duration,
    theirs: impl Fn() -> Duration,
) -> [f64; 2] {
    let mut times = [vec![], vec![]];
    for round in 0..rounds {
        for side in [round % 2, 1 - round % 2] {
            times[side].push(if side == 0 { ours() } else { theirs() });
        }
    }
    times.map(median)
}

fn median(mut times: Vec<Duration>) -> f64 {
    times.sort();
    times[times.len() / 2].as_secs_f64()
}

/// Times the batch on both sides.
pub fn time(start: &Model, batch: &Batch, rounds: usize) -> Times {
    let tables = tables_of(start);
    let [proved, model] = in_turn(
        rounds,
        || time_library(&tables, batch),
        || time_model(start, batch),
    )
    .map(|seconds| seconds * 1e6 / batch.calls.len() as f64);
    Times { proved, model }
}

fn time_library(start: &Tables<'_>, batch: &Batch) -> Duration {
    let calls: Vec<_> = batch.calls.iter().map(to_library).collect();
    let mut tables = start.snapshot();
    let began = Instant::now();
    run_library(&mut tables, &calls);
    began.elapsed()
}

fn time_model(start: &Model, batch: &Batch) -> Duration {
    let mut model = start.clone();
    let began = Instant::now();
    run_model(&mut model, &batch.calls);
    began.elapsed()
}

/// Never inlined, like the next one: host/instructions counts what is done in here, by its name.
#[inline(never)]
fn run_library(tables: &mut Tables<'_>, calls: &[rrezhbuta::Call]) {
    for call in calls {
        // both answers and refusals count
        let _ = black_box(tables.call(black_box(call)));
    }
}

#[inline(never)]
fn run_model(model: &mut Model, calls: &[Call]) {
    for call in calls {
        // clearing checks lengths only
        assert!(*call == Call::Clear || black_box(&*model).judge().is_ok());
        let _ = black_box(model.call(black_box(call)));
    }
}

/// Makes the batch once on one side, the library's or the model's, for its instructions to be counted.
pub fn make(start: &Model, batch: &Batch, on_library: bool) {
    if on_library {
        time_library(&tables_of(start), batch);
    } else {
        time_model(start, batch);
    }
}
