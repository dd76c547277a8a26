//! The state in plain rows, wide enough for whatever a damaged table may say.

use crate::signal::{outcome, Outcome, Set, DEFAULT, IGNORE, LAST};

/// Places of the process table.
pub const PROCESS_PLACES: usize = 16;
/// Places of the thread table.
pub const THREAD_PLACES: usize = 64;
/// Records of each buffer.
pub const BUFFER_RECORDS: usize = 512;
/// Records that a process may have pending, its threads' queues counted in.
pub const RECORD_LIMIT: usize = 32;

/// What a process does on a signal.
#[derive(Clone, Copy, Debug, PartialEq, Eq)]
pub struct Action {
    /// 0 default, 1 ignore, else a handler.
    pub handler: u64,
    /// The four known flags.
    pub flags: u64,
    /// What is blocked while the handler runs.
    pub mask: Set,
}

impl Action {
    /// The default action: all zero.
    pub const DEFAULT: Action = Action {
        handler: DEFAULT,
        flags: 0,
        mask: Set::EMPTY,
    };

    /// Is the signal ignored, by choice or by default?
    pub fn ignores(&self, signal: u32) -> bool {
        match self.handler {
            IGNORE => true,
            DEFAULT => outcome(signal) == Outcome::Ignore,
            _ => false,
        }
    }
}

/// A place of the process table; free where the id is 0.
#[derive(Clone, Debug, PartialEq, Eq)]
pub struct Process {
    /// Its id.
    pub id: u64,
    /// Real user id.
    pub real: u64,
    /// Effective user id.
    pub effective: u64,
    /// Saved user id.
    pub saved: u64,
    /// Session id.
    pub session: u64,
    /// 1 where it is stopped, else 0.
    pub stopped: u64,
    /// What is pending for the process without a value.
    pub marks: Set,
    /// The action of each signal, from signal 1 on.
    pub actions: [Action; LAST as usize],
}

impl Process {
    /// What a free place holds, and a new process apart from its ids.
    pub const FREE: Process = Process {
        id: 0,
        real: 0,
        effective: 0,
        saved: 0,
        session: 0,
        stopped: 0,
        marks: Set::EMPTY,
        actions: [Action::DEFAULT; LAST as usize],
    };

    /// The action of a signal from 1 to 64.
    pub fn action(&self, signal: u32) -> &Action {
        &self.actions[signal as usize - 1]
    }

    /// The same, to be changed.
    pub fn action_mut(&mut self, signal: u32) -> &mut Action {
        &mut self.actions[signal as usize - 1]
    }
}

/// A place of the thread table; free where the id is 0.
#[derive(Clone, Debug, Default, PartialEq, Eq)]
pub struct Thread {
    /// Its id.
    pub id: u64,
    /// The id of its process.
    pub process: u64,
    /// What it blocks.
    pub mask: Set,
    /// What is pending for the thread without a value.
    pub marks: Set,
}

/// A signal that is pending with a value.
#[derive(Clone, Copy, Debug, Default, PartialEq, Eq)]
pub struct Record {
    /// The process that it is for.
    pub process: u32,
    /// The thread that it is for; 0 for the process itself.
    pub thread: u32,
    /// The signal.
    pub signal: u32,
    /// -1 for a queued one, in 32 bits.
    pub code: u32,
    /// The process that sent it.
    pub sender: u32,
    /// The real user id of the sender.
    pub uid: u32,
    /// The value.
    pub value: u64,
}

/// The whole state: the two tables place by place, and the records of each buffer up to the last that is not all zero,
/// the oldest first.
#[derive(Clone, Debug, PartialEq, Eq)]
pub struct Rows {
    /// The process table.
    pub processes: Vec<Process>,
    /// The thread table.
    pub threads: Vec<Thread>,
    /// Records aimed at a thread.
    pub thread_records: Vec<Record>,
    /// Records aimed at a process.
    pub process_records: Vec<Record>,
}

impl Rows {
    /// Of a cleared store.
    pub fn cleared() -> Rows {
        Rows {
            processes: vec![Process::FREE; PROCESS_PLACES],
            threads: vec![Thread::default(); THREAD_PLACES],
            thread_records: Vec::new(),
            process_records: Vec::new(),
        }
    }
}
