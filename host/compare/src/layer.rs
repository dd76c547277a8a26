//! What is held against the model: the library, or in a test something with a fault.

use crate::image::decode_info;
use crate::step::Told;
use rrezhbuta::limits::ANSWER_WORDS;
use rrezhbuta::raw::{self, Numbers};
use rrezhbuta::{Next, ProcessId, Sent, SessionId, SigSet, Signal, Tables, Taken};
use rrezhbuta::{Target, ThreadId, UserId};
use rrezhbuta_model::{self as model, Action, Answer, Call, NewProcess, Set};

/// A signal layer over the documented tables, in the model's words.
pub trait Layer {
    /// The tables as they are now.
    fn tables(&self) -> &Tables<'static>;

    /// Takes these tables, of whatever length and contents.
    fn load(&mut self, tables: Tables<'static>);

    /// One call.
    fn call(&mut self, call: &Call) -> Told;

    /// The part that a look hands back.
    fn look_part(&self, thread: u32) -> &[u8];
}

/// The proved library.
#[derive(Debug)]
pub struct Library {
    tables: Tables<'static>,
}

impl Default for Library {
    fn default() -> Library {
        Library {
            tables: Tables::new(),
        }
    }
}

impl Library {
    /// An enquiry looks at no action: one of all ones stands where a new one would.
    fn enquire(&mut self, numbers: Numbers) -> Told {
        let wide = [u64::MAX; 3];
        let mut words = [0; ANSWER_WORDS];
        match raw::call(&mut self.tables, &mut words, &Numbers { wide, ..numbers }) {
            0 => Ok(from_library(rrezhbuta::Answer::from_words(&words))),
            errno => Err(errno as u32),
        }
    }
}

impl Layer for Library {
    fn tables(&self) -> &Tables<'static> {
        &self.tables
    }

    fn load(&mut self, tables: Tables<'static>) {
        self.tables = tables;
    }

    fn call(&mut self, call: &Call) -> Told {
        let made = to_library(call);
        if let Call::Sigaction { new: None, .. } = call {
            return self.enquire(made.numbers());
        }
        let answer = self.tables.call(&made);
        answer.map(from_library).map_err(|errno| errno as u32)
    }

    fn look_part(&self, thread: u32) -> &[u8] {
        self.tables.look_part(ThreadId(thread))
    }
}

/// A call of the model, which has plain numbers for ids and signals, as the library's.
pub fn to_library(call: &Call) -> rrezhbuta::Call {
    use rrezhbuta::Call as Library;
    match *call {
        Call::Clear => Library::Clear,
        Call::AddProcess(ref new) => Library::AddProcess(new_process(new)),
        Call::AddThread { creator, id } => {
            let [creator, id] = [creator, id].map(ThreadId);
            Library::AddThread { creator, id }
        }
        Call::EndProcess { id } => Library::EndProcess { id: ProcessId(id) },
        Call::EndThread { id } => Library::EndThread { id: ThreadId(id) },
        Call::Kill {
            by,
            to,
            thread,
            signal,
        } => {
            let (by, to, signal) = (ProcessId(by), target(to, thread), Signal(signal));
            Library::Kill { by, to, signal }
        }
        Call::Sigqueue {
            by,
            to,
            thread,
            signal,
            value,
        } => Library::Sigqueue {
            by: ProcessId(by),
            to: target(to, thread),
            signal: Signal(signal),
            value,
        },
        Call::Sigaction {
            process,
            signal,
            new,
        } => Library::Sigaction {
            process: ProcessId(process),
            signal: Signal(signal),
            new: new.map(action_to_library),
        },
        Call::Sigmask { thread, way, set } => {
            let (thread, set) = (ThreadId(thread), set.map(SigSet));
            Library::Sigmask { thread, way, set }
        }
        Call::Sigreturn { thread, mask } => {
            let (thread, mask) = (ThreadId(thread), SigSet(mask));
            Library::Sigreturn { thread, mask }
        }
        Call::Who { process } => Library::Who {
            process: ProcessId(process),
        },
        Call::Sigpending { thread } => Library::Sigpending {
            thread: ThreadId(thread),
        },
        Call::Look { thread } => Library::Look {
            thread: ThreadId(thread),
        },
        Call::Take { thread } => Library::Take {
            thread: ThreadId(thread),
        },
    }
}

/// Thread 0 says that the process is meant.
fn target(process: u32, thread: u32) -> Target {
    Target::from((ProcessId(process), ThreadId(thread)))
}

fn new_process(new: &NewProcess) -> rrezhbuta::NewProcess {
    rrezhbuta::NewProcess {
        id: ProcessId(new.id),
        real: UserId(new.real),
        effective: UserId(new.effective),
        saved: UserId(new.saved),
        session: SessionId(new.session),
        thread: ThreadId(new.thread),
        mask: SigSet(new.mask),
    }
}

fn action_to_library(action: Action) -> rrezhbuta::Action {
    rrezhbuta::Action {
        handler: action.handler,
        flags: action.flags,
        mask: SigSet(action.mask.0),
    }
}

/// An answer of the library as the model's.
fn from_library(answer: rrezhbuta::Answer) -> Answer {
    use rrezhbuta::Answer as Library;
    match answer {
        Library::Done => Answer::Done,
        Library::Sent(sent) => from_sent(sent),
        Library::OldAction(action) => Answer::OldAction(Action {
            handler: action.handler,
            flags: action.flags,
            mask: Set(action.mask.0),
        }),
        Library::OldMask(mask) => Answer::OldMask(Set(mask.0)),
        Library::PendingSet(set) => Answer::PendingSet(Set(set.0)),
        Library::Looked(next) => Answer::Looked(from_next(next)),
        Library::Taker(None) => Answer::NoneCan,
        Library::Taker(Some(thread)) => Answer::CanTake(thread.0),
        Library::Taken(taken) => from_taken(taken),
    }
}

fn from_sent(sent: Sent) -> Answer {
    match sent {
        Sent::Tested => Answer::Tested,
        Sent::Acted => Answer::Acted,
        Sent::Dropped => Answer::Dropped,
        Sent::Absorbed => Answer::Absorbed,
        Sent::Marked => Answer::Marked,
        Sent::Kept => Answer::Kept,
    }
}

fn from_next(next: Next) -> model::Next {
    match next {
        Next::Nothing => model::Next::Nothing,
        Next::Mark { target, signal } => model::Next::Mark {
            process: target.process().0,
            thread: target.thread().unwrap_or_default().0,
            signal: signal.0,
        },
        Next::Record(info) => model::Next::Record(decode_info(info)),
    }
}

fn from_taken(taken: Taken) -> Answer {
    match taken {
        Taken::Nothing => Answer::Nothing,
        Taken::Handler(delivery) => Answer::Handler {
            handler: delivery.handler,
            signal: delivery.signal.0,
            record: decode_info(delivery.info),
            flags: delivery.flags,
            saved: Set(delivery.saved.0),
        },
        Taken::End(signal) => Answer::End(signal.0),
        Taken::Stop(signal) => Answer::Stop(signal.0),
        Taken::NoAction(signal) => Answer::NoAction(signal.0),
    }
}
