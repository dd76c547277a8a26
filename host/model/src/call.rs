//! The calls and what they answer, in the documented order.

use crate::rows::{Action, Record};
use crate::signal::Set;

/// A process to be added, with its first thread.
#[derive(Clone, Copy, Debug, PartialEq, Eq)]
pub struct NewProcess {
    /// Its id.
    pub id: u32,
    /// Real user id.
    pub real: u32,
    /// Effective user id.
    pub effective: u32,
    /// Saved user id.
    pub saved: u32,
    /// Session id.
    pub session: u32,
    /// The first thread.
    pub thread: u32,
    /// The mask of the first thread.
    pub mask: u64,
}

/// A call with its arguments.
#[derive(Clone, Copy, Debug, PartialEq, Eq)]
pub enum Call {
    /// Clears the whole store.
    Clear,
    /// Adds a process, running, with its first thread.
    AddProcess(NewProcess),
    /// Adds a thread to its creator's process.
    AddThread {
        /// A thread.
        creator: u32,
        /// The new thread.
        id: u32,
    },
    /// Ends a process.
    EndProcess {
        /// The process.
        id: u32,
    },
    /// Ends a thread.
    EndThread {
        /// The thread.
        id: u32,
    },
    /// Sends a signal without a value.
    Kill {
        /// The sending process.
        by: u32,
        /// The target process.
        to: u32,
        /// A thread of the target, or 0 for the process itself.
        thread: u32,
        /// The signal, or 0 to test.
        signal: u32,
    },
    /// Sends a signal with a value.
    Sigqueue {
        /// The sending process.
        by: u32,
        /// The target process.
        to: u32,
        /// A thread of the target, or 0 for the process itself.
        thread: u32,
        /// The signal, or 0 to test.
        signal: u32,
        /// The value.
        value: u64,
    },
    /// Asks for an action, or stores one.
    Sigaction {
        /// The process.
        process: u32,
        /// The signal.
        signal: u32,
        /// The action to store.
        new: Option<Action>,
    },
    /// Asks for a mask, or changes it.
    Sigmask {
        /// The thread.
        thread: u32,
        /// 0 adds the set, 1 removes its members, 2 replaces the mask.
        way: u32,
        /// The set.
        set: Option<u64>,
    },
    /// Asks which blocked signals are pending.
    Sigpending {
        /// The thread.
        thread: u32,
    },
    /// Asks what is next.
    Look {
        /// The thread.
        thread: u32,
    },
    /// Asks which thread can take something.
    Who {
        /// The process.
        process: u32,
    },
    /// Takes the next signal.
    Take {
        /// The thread.
        thread: u32,
    },
    /// Returns from a handler.
    Sigreturn {
        /// The thread.
        thread: u32,
        /// The saved mask.
        mask: u64,
    },
}

/// What a thread would take next.
#[derive(Clone, Copy, Debug, PartialEq, Eq)]
pub enum Next {
    /// Nothing.
    Nothing,
    /// A mark.
    Mark {
        /// The process of the queue that it is in.
        process: u32,
        /// The thread of that queue, or 0 for the process's own.
        thread: u32,
        /// The signal.
        signal: u32,
    },
    /// A record.
    Record(Record),
}

/// What an accepted call answers.
#[derive(Clone, Copy, Debug, PartialEq, Eq)]
pub enum Answer {
    /// It is done.
    Done,
    /// Signal 0: the target could be signalled.
    Tested,
    /// KILL or STOP was carried out.
    Acted,
    /// The signal is ignored.
    Dropped,
    /// The signal is pending already.
    Absorbed,
    /// The mark was set.
    Marked,
    /// A record was added.
    Kept,
    /// The action before the call.
    OldAction(Action),
    /// The mask before the call.
    OldMask(Set),
    /// The blocked signals that are pending.
    PendingSet(Set),
    /// What is next.
    Looked(Next),
    /// The thread that can take something.
    CanTake(u32),
    /// No thread can.
    NoneCan,
    /// There is nothing to take.
    Nothing,
    /// A handler is to run.
    Handler {
        /// The handler number.
        handler: u64,
        /// The signal.
        signal: u32,
        /// What was taken; of a mark, the queue and the signal alone.
        record: Record,
        /// The flags of the action, as they were.
        flags: u64,
        /// The mask before.
        saved: Set,
    },
    /// The process ended by default.
    End(u32),
    /// The process stopped by default.
    Stop(u32),
    /// CONT by default.
    NoAction(u32),
}
