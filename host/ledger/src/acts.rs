//! Acts: what a call does to the ledger's lists, worked out from its arguments and from what is read in the ledger.

use crate::call::{Call, Send};
use crate::ledger::Ledger;
use crate::limits::*;
use crate::reading::{is_ignored_by, reset, Fate};
use crate::side::{Action, Queue, Record, Thread};
use std::fmt::{self, Display, Formatter};

/// What empties queues.
#[derive(Clone, Copy, Debug, PartialEq, Eq)]
pub enum Event {
    AllCleared,
    /// STOP, TSTP, TTIN or TTOU is sent.
    StopSent {
        process: u32,
    },
    ContSent {
        process: u32,
    },
    /// An ignoring action is stored, or reset to.
    NowIgnored {
        process: u32,
        signal: u32,
    },
    ThreadEnds {
        thread: u32,
    },
    /// By KILL too.
    ProcessEnds {
        process: u32,
    },
}

#[derive(Clone, Copy, Debug, PartialEq, Eq)]
pub enum Act {
    /// A queued send is kept in its queue, as its record.
    Kept(Record),
    /// A plain send sets its mark.
    Marked {
        queue: Queue,
        signal: u32,
    },
    /// A thread takes the oldest send of a signal in a queue.
    TookSend {
        thread: u32,
        queue: Queue,
        signal: u32,
        record: Record,
    },
    /// Or, with none, the mark.
    TookMark {
        thread: u32,
        queue: Queue,
        signal: u32,
    },
    Emptied(Event),
}

impl Event {
    /// Whether it empties the queue of the signal.
    pub fn empties(&self, queue: Queue, signal: u32) -> bool {
        match *self {
            Event::AllCleared => true,
            Event::StopSent { process } => queue.process == process && signal == SIGCONT,
            Event::ContSent { process } => {
                queue.process == process && matches!(signal, SIGTSTP | SIGTTIN | SIGTTOU)
            }
            Event::NowIgnored {
                process,
                signal: ignored,
            } => queue.process == process && signal == ignored,
            Event::ThreadEnds { thread } => queue.thread == thread,
            Event::ProcessEnds { process } => queue.process == process,
        }
    }
}

impl Ledger {
    /// The acts of a call that is not refused, in order.
    pub fn acts(&self, call: &Call) -> Vec<Act> {
        match *call {
            Call::Clear => vec![Act::Emptied(Event::AllCleared)],
            Call::EndProcess { id } => vec![Act::Emptied(Event::ProcessEnds { process: id })],
            Call::EndThread { id } => self.end_acts(id),
            Call::Send(send) => job_event(send.to, send.signal)
                .into_iter()
                .map(Act::Emptied)
                .chain(self.arrival(send))
                .collect(),
            Call::Sigaction {
                process,
                signal,
                new: Some(new),
            } if is_ignored_by(new, signal) => {
                vec![Act::Emptied(Event::NowIgnored { process, signal })]
            }
            Call::Take { thread } => self.take_acts(thread),
            Call::AddProcess(_) | Call::AddThread { .. } => vec![],
            Call::Sigaction { .. } | Call::Sigmask { .. } | Call::Sigreturn { .. } => vec![],
            Call::Sigpending { .. } | Call::Look { .. } | Call::Who { .. } => vec![],
        }
    }

    /// The last thread's end ends the process.
    fn end_acts(&self, id: u32) -> Vec<Act> {
        let Some(&Thread { process, .. }) = self.thread(id) else {
            return vec![];
        };
        let last = self.threads_of(process).count() == 1;
        vec![Act::Emptied(if last {
            Event::ProcessEnds { process }
        } else {
            Event::ThreadEnds { thread: id }
        })]
    }

    /// Step 5.
    fn arrival(&self, send: Send) -> Option<Act> {
        match self.fate(send) {
            Fate::Marked => Some(Act::Marked {
                queue: send.queue(),
                signal: send.signal,
            }),
            Fate::Kept => Some(Act::Kept(self.record(send))),
            Fate::Tested | Fate::Acted | Fate::Dropped | Fate::Absorbed => None,
        }
    }

    /// The oldest send or, with none, the mark; then what it sets off.
    fn take_acts(&self, thread: u32) -> Vec<Act> {
        let Some((queue, signal)) = self.next(thread) else {
            return vec![];
        };
        let taken = match self.oldest(queue, signal) {
            Some(record) => Act::TookSend {
                thread,
                queue,
                signal,
                record,
            },
            None => Act::TookMark {
                thread,
                queue,
                signal,
            },
        };
        let set_off = set_off(queue.process, signal, self.action(queue.process, signal));
        [Some(taken), set_off.map(Act::Emptied)]
            .into_iter()
            .flatten()
            .collect()
    }
}

/// Steps 1 and 2.
fn job_event(process: u32, signal: u32) -> Option<Event> {
    match signal {
        SIGKILL => Some(Event::ProcessEnds { process }),
        SIGSTOP | SIGTSTP | SIGTTIN | SIGTTOU => Some(Event::StopSent { process }),
        SIGCONT => Some(Event::ContSent { process }),
        _ => None,
    }
}

/// What a taken signal sets off: by default the end, or a handler that is reset to an ignoring default.
fn set_off(process: u32, signal: u32, action: Action) -> Option<Event> {
    match (action.handler, signal) {
        (SIG_DFL, SIGCONT | SIGTSTP | SIGTTIN | SIGTTOU) => None,
        (SIG_DFL, _) => Some(Event::ProcessEnds { process }),
        _ => {
            let left = reset(action, signal)?;
            is_ignored_by(left, signal).then_some(Event::NowIgnored { process, signal })
        }
    }
}

impl Display for Event {
    fn fmt(&self, f: &mut Formatter) -> fmt::Result {
        match self {
            Event::AllCleared => write!(f, "all is cleared"),
            Event::StopSent { process } => write!(f, "a stop signal is sent to process {process}"),
            Event::ContSent { process } => write!(f, "CONT is sent to process {process}"),
            Event::NowIgnored { process, signal } => {
                write!(f, "process {process} now ignores {signal}")
            }
            Event::ThreadEnds { thread } => write!(f, "thread {thread} ends"),
            Event::ProcessEnds { process } => write!(f, "process {process} ends"),
        }
    }
}

impl Display for Act {
    fn fmt(&self, f: &mut Formatter) -> fmt::Result {
        match self {
            Act::Kept(record) => write!(f, "{} is kept for {}", record.short(), record.queue),
            Act::Marked { queue, signal } => write!(f, "the mark of {signal} is set for {queue}"),
            Act::TookSend {
                thread,
                queue,
                record,
                ..
            } => {
                let oldest = record.short();
                write!(
                    f,
                    "thread {thread} takes the oldest send for {queue}, {oldest}"
                )
            }
            Act::TookMark {
                thread,
                queue,
                signal,
            } => write!(f, "thread {thread} takes the mark of {signal} for {queue}"),
            Act::Emptied(event) => write!(f, "emptied: {event}"),
        }
    }
}
