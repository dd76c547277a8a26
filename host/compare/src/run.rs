//! Long runs: one stretch of calls after another, each from cleared tables.

use crate::damage::damaged_call;
use crate::edit::Edit;
use crate::generate::{Generator, Style};
use crate::layer::Layer;
use crate::random::Random;
use crate::shrink::shrink;
use crate::step::{Difference, Expectation};
use crate::summary::Summary;
use rrezhbuta::Tables;
use rrezhbuta_ids::Family;
use rrezhbuta_model::{Call, Model, BUFFER_RECORDS};
use std::fmt;

/// How much is run.
#[derive(Clone, Copy, Debug, PartialEq, Eq)]
pub struct Options {
    /// Calls on tables that calls have made.
    pub calls: u64,
    /// Calls on damaged tables.
    pub damaged: u64,
    /// Where the random numbers start.
    pub seed: u64,
}

impl Default for Options {
    fn default() -> Options {
        Options {
            calls: 1_000_000,
            damaged: 100_000,
            seed: 1,
        }
    }
}

/// A shortest list of calls on which the two sides differ, from cleared tables on.
#[derive(Clone, Debug, PartialEq, Eq)]
pub struct Failure {
    /// The calls; the last is where they differ.
    pub calls: Vec<Call>,
    /// What was changed in the tables by hand before the last call.
    pub damage: Vec<Edit>,
    /// How they differ there.
    pub difference: Box<Difference>,
}

impl fmt::Display for Failure {
    fn fmt(&self, f: &mut fmt::Formatter<'_>) -> fmt::Result {
        writeln!(f, "the two differ at the last of these calls:")?;
        let (last, before) = self.calls.split_last().ok_or(fmt::Error)?;
        for call in before {
            writeln!(f, "    {call:?}")?;
        }
        for edit in &self.damage {
            writeln!(f, "    damage: {edit:?}")?;
        }
        write!(f, "    {last:?}\n{}", self.difference)
    }
}

/// The first difference on a list of calls from cleared tables, if there is one.
pub fn replay<L: Layer>(layer: &mut L, calls: &[Call]) -> Option<Box<Difference>> {
    layer.load(Tables::new());
    let mut side = Expectation::default();
    let mut steps = calls.iter().map(|call| side.step(layer, call));
    steps.find_map(Result::err)
}

/// The list of calls made as short as it can be.
pub fn shrunk<L: Layer>(layer: &mut L, calls: &[Call]) -> Option<Failure> {
    replay(layer, calls)?;
    let calls = shrink(calls, |list| replay(layer, list).is_some());
    let difference = replay(layer, &calls)?;
    Some(Failure {
        calls,
        damage: Vec::new(),
        difference,
    })
}

/// The style of a stretch, and how many calls it has: enough to fill the buffers where that is the style.
fn stretch(number: u64) -> (Style, u64) {
    let records = BUFFER_RECORDS as u64;
    match number % 12 {
        0 => (Style::ToThreads, 8 * records),
        1 => (Style::ToProcesses, 8 * records),
        2 => (Style::Crowded, 6 * records),
        _ => (Style::Mixed, 2 * records),
    }
}

/// The ids of a stretch: half the time small ones, else those of a family. Each style meets each family in its turn.
fn family(number: u64) -> Family {
    let family = Family::ALL.get(number as usize % 13);
    *family.unwrap_or(&Family::Places)
}

/// Makes the calls, then those on damaged tables, and counts them. `progress` gets how many are done.
pub fn run<L: Layer>(
    layer: &mut L,
    options: &Options,
    mut progress: impl FnMut(u64),
) -> Result<Summary, Box<Failure>> {
    let mut random = Random::new(options.seed);
    let mut summary = Summary::default();
    let mut number = 0;
    while summary.total() < options.calls {
        let (style, length) = stretch(number);
        let length = length.min(options.calls - summary.total());
        let seed = Random::new(random.next_u64());
        let generator = Generator::new(seed, style, family(number));
        run_stretch(layer, generator, length, &mut summary)?;
        number += 1;
        progress(summary.total());
    }
    run_damaged(layer, options, random, &mut summary, progress)?;
    Ok(summary)
}

fn run_stretch<L: Layer>(
    layer: &mut L,
    mut generator: Generator,
    length: u64,
    summary: &mut Summary,
) -> Result<(), Box<Failure>> {
    layer.load(Tables::new());
    let mut side = Expectation::default();
    let mut calls = Vec::new();
    for _ in 0..length {
        let call = generator.call(&side.model);
        calls.push(call);
        match side.step(layer, &call) {
            Ok(told) => summary.count(&call, &told),
            Err(difference) => return Err(failure(layer, calls, difference)),
        }
        summary.measure(side.model.rows());
    }
    Ok(())
}

/// The shortest list, or the whole one where the difference does not come again.
fn failure<L: Layer>(layer: &mut L, calls: Vec<Call>, difference: Box<Difference>) -> Box<Failure> {
    Box::new(shrunk(layer, &calls).unwrap_or(Failure {
        calls,
        damage: Vec::new(),
        difference,
    }))
}

/// Damaged tables come from a model that goes on by a few calls each time.
fn run_damaged<L: Layer>(
    layer: &mut L,
    options: &Options,
    mut random: Random,
    summary: &mut Summary,
    mut progress: impl FnMut(u64),
) -> Result<(), Box<Failure>> {
    let mut reached = Reached::new(&mut random, 0);
    for done in 0..options.damaged {
        if reached.calls.len() > 4 * BUFFER_RECORDS {
            reached = Reached::new(&mut random, done);
        }
        reached.go_on(random.below(8));
        damaged_call(layer, &mut reached, &mut random, summary)?;
        if done % 1000 == 0 {
            progress(summary.total());
        }
    }
    Ok(())
}

/// A model, and the calls that led to where it is.
pub struct Reached {
    /// The model.
    pub model: Model,
    /// The calls that were made on it.
    pub calls: Vec<Call>,
    /// Where further calls come from.
    pub generator: Generator,
}

impl Reached {
    fn new(random: &mut Random, number: u64) -> Reached {
        let (seed, style) = (Random::new(random.next_u64()), stretch(number).0);
        let mut reached = Reached {
            model: Model::new(),
            calls: Vec::new(),
            generator: Generator::new(seed, style, family(number)),
        };
        reached.go_on(100);
        reached
    }

    fn go_on(&mut self, calls: usize) {
        for _ in 0..calls {
            let call = self.generator.call(&self.model);
            // a refusal is as good a call as any here
            let _ = self.model.call(&call);
            self.calls.push(call);
        }
    }
}
