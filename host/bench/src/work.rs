//! Half full tables, and for each kind of call a batch of calls on them.

use rrezhbuta_compare::generate::{Generator, Style};
use rrezhbuta_compare::random::Random;
use rrezhbuta_compare::summary::CALLS;
use rrezhbuta_ids::Family;
use rrezhbuta_model::signal::{KILL, LAST, NODEFER, STOP};
use rrezhbuta_model::{Action, Answer, Call, Model, NewProcess, Set};
use rrezhbuta_model::{PROCESS_PLACES, RECORD_LIMIT, THREAD_PLACES};

/// How many calls the mix has.
const MIX: usize = 1000;
/// How many calls most batches have.
const BATCH: usize = 64;
const THREADS_EACH: u32 = (THREAD_PLACES / PROCESS_PLACES) as u32;
/// How many processes stay.
const KEPT: usize = PROCESS_PLACES / 2;

/// A batch of calls, made from the same tables in each round.
#[derive(Clone, Debug)]
pub struct Batch {
    /// The call, or the mix.
    pub name: &'static str,
    /// The calls.
    pub calls: Vec<Call>,
}

/// The ids of the processes in the places that stay; every other place is freed.
fn kept() -> impl Iterator<Item = u32> {
    (0..PROCESS_PLACES as u32).step_by(2).map(|i| 100 + i)
}

fn first_thread(process: u32) -> u32 {
    1000 + (process - 100) * THREADS_EACH
}

/// The n-th of the threads that stay, each process's first before the second ones.
fn thread(n: usize) -> u32 {
    let processes: Vec<u32> = kept().collect();
    let process = processes[n % processes.len()];
    first_thread(process) + (n / processes.len()) as u32 % THREADS_EACH
}

fn process(n: usize) -> u32 {
    100 + (n % KEPT) as u32 * 2
}

/// Realtime signals without a record or a mark, another one when every process has had its turn.
fn unused(n: usize) -> u32 {
    32 + (n / KEPT) as u32
}

fn add_process(id: u32, thread: u32) -> Call {
    Call::AddProcess(NewProcess {
        id,
        real: 0,
        effective: 0,
        saved: 0,
        session: 7,
        thread,
        mask: 0,
    })
}

/// A handler that leaves its signal unblocked, so that takes can follow each other.
fn handler(signal: u32) -> Action {
    Action {
        handler: 5000 + signal as u64,
        flags: NODEFER,
        mask: Set(1 << 11),
    }
}

fn sigaction(process: u32, signal: u32) -> Call {
    Call::Sigaction {
        process,
        signal,
        new: Some(handler(signal)),
    }
}

fn sigqueue(to: u32, thread: u32, signal: u32) -> Call {
    Call::Sigqueue {
        by: to,
        to,
        thread,
        signal,
        value: 7,
    }
}

fn kill(to: u32, thread: u32, signal: u32) -> Call {
    Call::Kill {
        by: to,
        to,
        thread,
        signal,
    }
}

/// What fills one process: threads, handlers, marks, and half the records that it may have.
fn filling(process: u32) -> Vec<Call> {
    let first = first_thread(process);
    let threads = (1..THREADS_EACH).map(|k| Call::AddThread {
        creator: first,
        id: first + k,
    });
    let signals = (1..=LAST).filter(|&s| s != KILL && s != STOP);
    let actions = signals.map(|signal| sigaction(process, signal));
    let records = (0..RECORD_LIMIT as u32 / 4).flat_map(|k| {
        let to_process = sigqueue(process, 0, 40 + k);
        [
            to_process,
            sigqueue(process, first + k % THREADS_EACH, 48 + k),
        ]
    });
    let marks = [kill(process, 0, 2), kill(process, first, 15)];
    threads.chain(actions).chain(records).chain(marks).collect()
}

/// Every other place of each table taken, and half the records that these processes may have.
pub fn half_full() -> Model {
    let mut model = Model::new();
    let mut accepted = |call: Call| {
        let told = model.call(&call);
        assert!(told.is_ok(), "{call:?} is refused: {told:?}");
    };
    for id in 100..100 + PROCESS_PLACES as u32 {
        accepted(add_process(id, first_thread(id)));
        filling(id).into_iter().for_each(&mut accepted);
    }
    for id in kept() {
        accepted(Call::EndProcess { id: id + 1 });
    }
    model
}

fn batch(name: &'static str, count: usize, call: impl Fn(usize) -> Call) -> Batch {
    Batch {
        name,
        calls: (0..count).map(call).collect(),
    }
}

/// A batch for each kind of call, in the documented order. Those that use up places or records are as long as these
/// last.
pub fn batches() -> Vec<Batch> {
    let calls = [
        batch(CALLS[0], 1, |_| Call::Clear),
        batch(CALLS[1], KEPT, |n| add_process(1 + n as u32, 1 + n as u32)),
        batch(CALLS[2], THREAD_PLACES / 4, |n| Call::AddThread {
            creator: thread(n),
            id: 1 + n as u32,
        }),
        batch(CALLS[3], KEPT / 2, |n| Call::EndProcess { id: process(n) }),
        batch(CALLS[4], 2 * KEPT, |n| Call::EndThread { id: thread(n) }),
        batch(CALLS[5], BATCH, |n| kill(process(n), 0, unused(n))),
        batch(CALLS[6], BATCH, |n| sigqueue(process(n), thread(n), 33)),
        batch(CALLS[7], BATCH, |n| sigaction(process(n), unused(n))),
        batch(CALLS[8], BATCH, |n| sigmask(thread(n), n as u32 % 3)),
        batch(CALLS[9], BATCH, |n| Call::Sigpending { thread: thread(n) }),
        batch(CALLS[10], BATCH, |n| Call::Look { thread: thread(n) }),
        batch(CALLS[11], BATCH, |n| Call::Who {
            process: process(n),
        }),
        batch(CALLS[12], BATCH, |n| Call::Take { thread: thread(n) }),
        batch(CALLS[13], BATCH, |n| Call::Sigreturn {
            thread: thread(n),
            mask: 1 << (n % 32),
        }),
    ];
    calls.into()
}

fn sigmask(thread: u32, way: u32) -> Call {
    Call::Sigmask {
        thread,
        way,
        set: Some(1 << 40),
    }
}

/// Random calls of every kind, most of them accepted, with what ends added anew.
pub fn mix(seed: u64) -> Batch {
    let mut generator = Generator::new(Random::new(seed), Style::Mixed, Family::Places);
    let mut model = half_full();
    let mut calls = Vec::new();
    while calls.len() < MIX {
        let call = generator.call(&model);
        // a clear would leave nothing half full
        if call != Call::Clear {
            // a refused call belongs to the mix as well
            let _: Result<Answer, u32> = model.call(&call);
            calls.push(call);
        }
    }
    Batch { name: "mix", calls }
}

/// A batch for each call, and the mix.
pub fn all() -> impl Iterator<Item = Batch> {
    batches().into_iter().chain([mix(1)])
}
