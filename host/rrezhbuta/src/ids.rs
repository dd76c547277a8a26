//! Signals, ids and targets: a type for each, so that the compiler finds arguments that have changed places.

use crate::limits;
use std::fmt;

/// A 32-bit number of one kind. Any number can be made one; the layer itself refuses those that are none.
macro_rules! kind {
    ($(#[$doc:meta])* $name:ident) => {
        $(#[$doc])*
        #[derive(Clone, Copy, Debug, Default, PartialEq, Eq, PartialOrd, Ord, Hash)]
        pub struct $name(pub u32);

        /// As a word of the tables has it.
        impl From<$name> for u64 {
            fn from(number: $name) -> u64 {
                number.0.into()
            }
        }

        impl fmt::Display for $name {
            fn fmt(&self, f: &mut fmt::Formatter<'_>) -> fmt::Result {
                self.0.fmt(f)
            }
        }
    };
}

kind! {
    /// A process id, 1 to 2,147,483,647 for a live one.
    ///
    /// It is no thread id: the two are numbered apart, and one does not stand for the other.
    ///
    /// ```compile_fail,E0308
    /// use rrezhbuta::{ProcessId, Signal, Tables, Target, ThreadId};
    ///
    /// let (process, thread) = (ProcessId(100), ThreadId(200));
    /// let _ = Tables::new().kill(process, Target::Thread(thread, process), Signal::CONT);
    /// ```
    ProcessId
}

kind! {
    /// A thread id, 1 to 2,147,483,647 for a live one.
    ThreadId
}

kind! {
    /// A user id; 0 may signal everyone.
    UserId
}

kind! {
    /// A session id.
    SessionId
}

kind! {
    /// A signal, 1 to 64; those over 31 are realtime. The constants are the signals that document 01 names, with their
    /// numbers on Linux on x86-64. A send of signal 0 only tests.
    ///
    /// ```
    /// use rrezhbuta::Signal;
    ///
    /// assert_eq!(Signal::CONT, Signal(18));
    /// assert_eq!(format!("signal {}", Signal::CONT), "signal 18");
    /// ```
    Signal
}

impl Signal {
    /// Interrupt.
    pub const INT: Signal = Signal(2);
    /// Illegal instruction; RESETHAND leaves its handler.
    pub const ILL: Signal = Signal(limits::SIGILL);
    /// Trace trap; RESETHAND leaves its handler.
    pub const TRAP: Signal = Signal(limits::SIGTRAP);
    /// Ends the process, whatever it blocks.
    pub const KILL: Signal = Signal(limits::SIGKILL);
    /// A child changed; ignored by default.
    pub const CHLD: Signal = Signal(limits::SIGCHLD);
    /// Continues the process.
    pub const CONT: Signal = Signal(limits::SIGCONT);
    /// Stops the process, whatever it blocks.
    pub const STOP: Signal = Signal(limits::SIGSTOP);
    /// A stop from the terminal.
    pub const TSTP: Signal = Signal(limits::SIGTSTP);
    /// A read in the background; stops by default.
    pub const TTIN: Signal = Signal(limits::SIGTTIN);
    /// A write in the background; stops by default.
    pub const TTOU: Signal = Signal(limits::SIGTTOU);
    /// Urgent data; ignored by default.
    pub const URG: Signal = Signal(limits::SIGURG);
    /// The window changed; ignored by default.
    pub const WINCH: Signal = Signal(limits::SIGWINCH);
}

/// Whom a signal is sent to or pending for, and so whose queue it is in.
#[derive(Clone, Copy, Debug, PartialEq, Eq, Hash)]
pub enum Target {
    /// A process: any thread of it may take the signal.
    Process(ProcessId),
    /// A thread of a process. No thread has id 0; where a call is made with it, the process is meant.
    Thread(ProcessId, ThreadId),
}

impl Target {
    /// The process, or that of the thread.
    pub fn process(self) -> ProcessId {
        match self {
            Target::Process(process) | Target::Thread(process, _) => process,
        }
    }

    /// The thread, if one is meant.
    pub fn thread(self) -> Option<ThreadId> {
        match self {
            Target::Process(_) => None,
            Target::Thread(_, thread) => Some(thread),
        }
    }
}

/// As a record and the C boundary have it: thread 0 says that the process is meant.
///
/// ```
/// use rrezhbuta::{ProcessId, Target, ThreadId};
///
/// let [process, none, thread] = [100, 0, 200];
/// let target = Target::from((ProcessId(process), ThreadId(none)));
/// assert_eq!(target, Target::Process(ProcessId(100)));
/// let target = Target::from((ProcessId(process), ThreadId(thread)));
/// assert_eq!(target, Target::Thread(ProcessId(100), ThreadId(200)));
/// ```
impl From<(ProcessId, ThreadId)> for Target {
    fn from((process, thread): (ProcessId, ThreadId)) -> Target {
        match thread {
            ThreadId(0) => Target::Process(process),
            _ => Target::Thread(process, thread),
        }
    }
}
