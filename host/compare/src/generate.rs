//! Random calls that know what the model holds, so that most are accepted.

use crate::random::Random;
use rrezhbuta_ids::Family;
use rrezhbuta_model::signal::{outcome, Outcome, DEFAULT, FLAGS, KILL, LAST, STOP};
use rrezhbuta_model::{Action, Call, Model, NewProcess, Process, Rows, Set, Thread};
use rrezhbuta_model::{PROCESS_PLACES, RECORD_LIMIT, THREAD_PLACES};

/// What a run is about.
#[derive(Clone, Copy, Debug, PartialEq, Eq)]
pub enum Style {
    /// Every call in its turn, on tables about half full.
    Mixed,
    /// The tables fill up, and so does the thread buffer.
    ToThreads,
    /// The tables fill up, and so does the process buffer.
    ToProcesses,
    /// The tables fill up, and both buffers share the records.
    Crowded,
}

/// How often each call comes up, in the documented order; adding depends on what is free as well.
const MIXED: [usize; 14] = [
    5, 60, 400, 30, 120, 2300, 2300, 1100, 800, 500, 600, 500, 1900, 700,
];
const FILLING: [usize; 14] = [
    2, 100, 1500, 1, 10, 700, 4000, 300, 500, 300, 400, 300, 150, 200,
];

/// The signals that stop, continue, or are ignored by default.
const JOB_CONTROL: [u32; 8] = [17, 18, 19, 20, 21, 22, 23, 28];
const LARGEST_ID: u32 = 2_147_483_647;

/// How many ids there are to choose from, more than are in use at once.
const IDS: usize = 300;
const _: () = assert!(IDS > THREAD_PLACES);

/// A source of calls.
#[derive(Clone, Debug)]
pub struct Generator {
    random: Random,
    style: Style,
    ids: Vec<u32>,
}

fn live(rows: &Rows) -> impl Iterator<Item = &Process> + Clone {
    rows.processes.iter().filter(|p| p.id != 0)
}

fn live_threads(rows: &Rows) -> impl Iterator<Item = &Thread> + Clone {
    rows.threads.iter().filter(|t| t.id != 0)
}

fn has_room(rows: &Rows, process: u32) -> bool {
    let records = rows.thread_records.iter().chain(&rows.process_records);
    records.filter(|r| r.process == process).count() < RECORD_LIMIT
}

impl Generator {
    /// Calls of that style from that source, with ids of that family.
    pub fn new(random: Random, style: Style, family: Family) -> Generator {
        let ids = family.ids(IDS);
        Generator { random, style, ids }
    }

    /// The next call, for a model as it is.
    pub fn call(&mut self, model: &Model) -> Call {
        let rows = model.rows();
        match self.kind(rows) {
            0 => Call::Clear,
            1 => self.add_process(rows),
            2 => self.add_thread(rows),
            3 => Call::EndProcess {
                id: self.process(rows),
            },
            4 => Call::EndThread {
                id: self.thread(rows),
            },
            5 => self.kill(rows),
            6 => self.sigqueue(model),
            7 => self.sigaction(rows),
            8 => self.sigmask(rows),
            9 => Call::Sigpending {
                thread: self.thread(rows),
            },
            10 => Call::Look {
                thread: self.taker(model),
            },
            11 => Call::Who {
                process: self.process(rows),
            },
            12 => self.take(model),
            _ => Call::Sigreturn {
                thread: self.thread(rows),
                mask: self.set(),
            },
        }
    }

    /// Which call, by the weights.
    fn kind(&mut self, rows: &Rows) -> usize {
        let mut weights = if self.style == Style::Mixed {
            MIXED
        } else {
            FILLING
        };
        let free = PROCESS_PLACES - live(rows).count();
        weights[1] *= 1 + free;
        if live_threads(rows).count() == THREAD_PLACES {
            weights[2] /= 20;
        }
        if free == PROCESS_PLACES {
            weights[1] *= 100;
        }
        let mut at = self.random.below(weights.iter().sum());
        let mut kind = 0;
        while at >= weights[kind] {
            at -= weights[kind];
            kind += 1;
        }
        kind
    }

    // ---- who

    fn nth<T>(&mut self, mut list: impl Iterator<Item = T> + Clone) -> Option<T> {
        match list.clone().count() {
            0 => None,
            n => list.nth(self.random.below(n)),
        }
    }

    /// An id that most likely nobody has.
    fn stray(&mut self) -> u32 {
        match self.random.below(4) {
            0 => 0,
            1 => match self.random.below(200) {
                0 => 0,
                n => self.ids[n - 1],
            },
            2 => LARGEST_ID + self.random.below(2) as u32,
            _ => self.random.next_u64() as u32,
        }
    }

    /// A live process, but for a few.
    fn process(&mut self, rows: &Rows) -> u32 {
        let found = self.nth(live(rows)).map(|p| p.id as u32);
        match found {
            Some(id) if !self.random.one_in(60) => id,
            _ => self.stray(),
        }
    }

    /// A live thread, but for a few.
    fn thread(&mut self, rows: &Rows) -> u32 {
        let found = self.nth(live_threads(rows)).map(|t| t.id as u32);
        match found {
            Some(id) if !self.random.one_in(60) => id,
            _ => self.stray(),
        }
    }

    /// A thread that has something to take, if one is found soon.
    fn taker(&mut self, model: &Model) -> u32 {
        let mut thread = self.thread(model.rows());
        for _ in 0..3 {
            if model.next_signal(thread).is_some() {
                break;
            }
            thread = self.thread(model.rows());
        }
        thread
    }

    /// An id that is free in most cases.
    fn fresh(&mut self, is_live: impl Fn(u32) -> bool) -> u32 {
        let mut id = self.random.pick(&self.ids);
        while is_live(id) && !self.random.one_in(30) {
            id = self.random.pick(&self.ids);
        }
        match self.random.below(60) {
            0 => self.stray(),
            1 => LARGEST_ID,
            _ => id,
        }
    }

    // ---- what

    fn user(&mut self) -> u32 {
        self.random.pick(&[0, 0, 0, 1000, 1001, u32::MAX])
    }

    fn signal(&mut self) -> u32 {
        let realtime = if self.style == Style::Mixed { 5 } else { 13 };
        match self.random.below(16) {
            n if n < realtime => 32 + self.random.below(33) as u32,
            15 if self.random.one_in(4) => self.random.pick(&[0, 0, 65, 66, u32::MAX]),
            n if n % 2 == 0 => self.random.pick(&JOB_CONTROL),
            _ => 1 + self.random.below(31) as u32,
        }
    }

    /// Few signals, one, none or all.
    fn set(&mut self) -> u64 {
        let random = &mut self.random;
        match random.below(8) {
            0..=2 => 0,
            3..=4 => random.next_u64() & random.next_u64() & random.next_u64(),
            5..=6 => 1 << random.below(64),
            _ => random.pick(&[u64::MAX, 1 << 8, 1 << 18, 0x3FFF_FFFF]),
        }
    }

    /// Known ones. One word in seven is another: a single bit, that bit beside known ones, or any number; nearly all of
    /// these are refused.
    fn flags(&mut self) -> u64 {
        let random = &mut self.random;
        let known = random.next_u64() & random.next_u64() & FLAGS;
        let bit = 1 << random.below(64);
        match random.below(21) {
            0 => bit,
            1 => known | bit,
            2 => random.next_u64(),
            3..=7 => 0,
            _ => known,
        }
    }

    fn new_action(&mut self) -> Action {
        let handler = match self.random.below(10) {
            0 => 0,
            1 => 1,
            _ => self.random.next_u64() >> self.random.below(60),
        };
        Action {
            handler,
            flags: self.flags(),
            mask: Set(self.set()),
        }
    }

    // ---- the calls with several arguments

    fn add_process(&mut self, rows: &Rows) -> Call {
        let effective = self.user();
        Call::AddProcess(NewProcess {
            id: self.fresh(|id| live(rows).any(|p| p.id == id as u64)),
            real: self.user(),
            effective,
            saved: self.user(),
            session: self.random.pick(&[0, 1, 2, u32::MAX]),
            thread: self.fresh(|id| live_threads(rows).any(|t| t.id == id as u64)),
            mask: self.set(),
        })
    }

    fn add_thread(&mut self, rows: &Rows) -> Call {
        Call::AddThread {
            creator: self.thread(rows),
            id: self.fresh(|id| live_threads(rows).any(|t| t.id == id as u64)),
        }
    }

    /// One who may signal the target in most cases: the target itself, or one with user 0.
    fn sender(&mut self, rows: &Rows, to: u32) -> u32 {
        let mut by = self.process(rows);
        for _ in 0..3 {
            if live(rows).any(|p| p.id == by as u64 && (by == to || p.effective == 0)) {
                break;
            }
            by = self.process(rows);
        }
        by
    }

    /// The process itself or a thread of it, but for a few.
    fn target_thread(&mut self, rows: &Rows, to: u32) -> u32 {
        let to_process = match self.style {
            Style::ToThreads => false,
            Style::ToProcesses => true,
            Style::Mixed | Style::Crowded => self.random.one_in(2),
        };
        if to_process {
            return 0;
        }
        let own = live_threads(rows).filter(|t| t.process == to as u64);
        match self.nth(own) {
            Some(thread) if !self.random.one_in(40) => thread.id as u32,
            _ => self.thread(rows),
        }
    }

    fn kill(&mut self, rows: &Rows) -> Call {
        let to = self.process(rows);
        Call::Kill {
            by: self.sender(rows, to),
            to,
            thread: self.target_thread(rows, to),
            signal: self.signal(),
        }
    }

    /// Where there is no room, a take mostly makes some.
    fn sigqueue(&mut self, model: &Model) -> Call {
        let rows = model.rows();
        let mut to = self.process(rows);
        for _ in 0..4 {
            if has_room(rows, to) {
                break;
            }
            to = self.process(rows);
        }
        if !has_room(rows, to) && !self.random.one_in(6) {
            return self.take(model);
        }
        Call::Sigqueue {
            by: self.sender(rows, to),
            to,
            thread: self.target_thread(rows, to),
            signal: self.signal(),
            value: self.random.next_u64(),
        }
    }

    fn sigaction(&mut self, rows: &Rows) -> Call {
        let mut signal = self.signal();
        let new = (!self.random.one_in(4)).then(|| self.new_action());
        if new.is_some() && (signal == KILL || signal == STOP) && !self.random.one_in(8) {
            signal += 1;
        }
        if signal == 0 && !self.random.one_in(2) {
            signal = LAST;
        }
        Call::Sigaction {
            process: self.process(rows),
            signal,
            new,
        }
    }

    fn sigmask(&mut self, rows: &Rows) -> Call {
        let thread = self.thread(rows);
        let set = (!self.random.one_in(5)).then(|| self.set());
        let way = match self.random.below(16) {
            0 => 3 + self.stray(),
            n => n as u32 % 3,
        };
        // removing few members leaves much blocked, so the others are removed instead
        let set = set.map(|set| if way == 1 { !set } else { set });
        Call::Sigmask { thread, way, set }
    }

    /// A take that would end the process mostly gives way to a handler for the signal.
    fn take(&mut self, model: &Model) -> Call {
        let thread = self.taker(model);
        let rows = model.rows();
        let owner = live_threads(rows)
            .find(|t| t.id == thread as u64)
            .and_then(|t| live(rows).find(|p| p.id == t.process));
        if let (Some(owner), Some(signal)) = (owner, model.next_signal(thread)) {
            let ends = owner.action(signal).handler == DEFAULT && outcome(signal) == Outcome::End;
            if ends && !self.random.one_in(8) {
                return Call::Sigaction {
                    process: owner.id as u32,
                    signal,
                    new: Some(Action {
                        handler: 2 + self.random.below(9000) as u64,
                        ..self.new_action()
                    }),
                };
            }
        }
        Call::Take { thread }
    }
}
