//! The calls, and how the C boundary numbers them and their arguments.

use crate::limits::*;
use crate::raw::Numbers;
use crate::{ProcessId, SessionId, SigSet, Signal, Target, ThreadId, UserId};

/// What a process does on a signal.
#[derive(Clone, Copy, Debug, Default, PartialEq, Eq, Hash)]
pub struct Action {
    /// 0 default, 1 ignore, else a handler.
    pub handler: u64,
    /// SIGINFO, RESTART, NODEFER and RESETHAND; an action with any other bit is refused.
    pub flags: u64,
    /// What is blocked while the handler runs.
    pub mask: SigSet,
}

/// How a set changes a mask.
#[derive(Clone, Copy, Debug, PartialEq, Eq, Hash)]
#[repr(u32)]
pub enum Way {
    /// The set is added.
    Block = SIG_BLOCK,
    /// The members of the set are removed.
    Unblock = SIG_UNBLOCK,
    /// The set replaces the mask.
    SetMask = SIG_SETMASK,
}

/// A process to be added, with its first thread.
#[derive(Clone, Copy, Debug, Default, PartialEq, Eq, Hash)]
pub struct NewProcess {
    /// Its id.
    pub id: ProcessId,
    /// Real user id.
    pub real: UserId,
    /// Effective user id.
    pub effective: UserId,
    /// Saved user id.
    pub saved: UserId,
    /// Session id.
    pub session: SessionId,
    /// The id of the first thread.
    pub thread: ThreadId,
    /// The mask of that thread; KILL and STOP are left out.
    pub mask: SigSet,
}

/// A call with its arguments, in the documented order.
#[derive(Clone, Copy, Debug, PartialEq, Eq, Hash)]
pub enum Call {
    /// Clears the whole store.
    Clear,
    /// Adds a process.
    AddProcess(NewProcess),
    /// Adds a thread to its creator's process.
    AddThread {
        /// A thread.
        creator: ThreadId,
        /// The new thread.
        id: ThreadId,
    },
    /// Ends a process.
    EndProcess {
        /// The process.
        id: ProcessId,
    },
    /// Ends a thread.
    EndThread {
        /// The thread.
        id: ThreadId,
    },
    /// Sends a signal without a value.
    Kill {
        /// The sending process.
        by: ProcessId,
        /// The target.
        to: Target,
        /// The signal, or 0 to test.
        signal: Signal,
    },
    /// Sends a signal with a value.
    Sigqueue {
        /// The sending process.
        by: ProcessId,
        /// The target.
        to: Target,
        /// The signal, or 0 to test.
        signal: Signal,
        /// The value.
        value: u64,
    },
    /// Asks for an action, or stores one.
    Sigaction {
        /// The process.
        process: ProcessId,
        /// The signal.
        signal: Signal,
        /// The action to store.
        new: Option<Action>,
    },
    /// Asks for a mask, or changes it.
    Sigmask {
        /// The thread.
        thread: ThreadId,
        /// The number of a [`Way`]; others are refused where a set is given.
        way: u32,
        /// The set.
        set: Option<SigSet>,
    },
    /// Asks which blocked signals are pending.
    Sigpending {
        /// The thread.
        thread: ThreadId,
    },
    /// Asks what is next.
    Look {
        /// The thread.
        thread: ThreadId,
    },
    /// Asks which thread can take something.
    Who {
        /// The process.
        process: ProcessId,
    },
    /// Takes the next signal.
    Take {
        /// The thread.
        thread: ThreadId,
    },
    /// Returns from a handler.
    Sigreturn {
        /// The thread.
        thread: ThreadId,
        /// The saved mask.
        mask: SigSet,
    },
}

/// A call's number and arguments; those that it has no use for are not read.
fn numbers<const N: usize, const W: usize>(
    number: u32,
    narrow: [u32; N],
    wide: [u64; W],
) -> Numbers {
    let mut all = Numbers {
        number,
        ..Numbers::default()
    };
    all.narrow[..N].copy_from_slice(&narrow);
    all.wide[..W].copy_from_slice(&wide);
    all
}

impl NewProcess {
    fn numbers(&self) -> Numbers {
        let users = [self.real, self.effective, self.saved];
        let [real, effective, saved] = users.map(|user| user.0);
        let (session, thread) = (self.session.0, self.thread.0);
        let narrow = [self.id.0, real, effective, saved, session, thread];
        numbers(CALL_ADD_PROCESS, narrow, [self.mask.0])
    }
}

impl Call {
    /// The call as the C boundary takes it.
    pub fn numbers(&self) -> Numbers {
        match *self {
            Call::Clear => numbers(CALL_CLEAR, [], []),
            Call::AddProcess(process) => process.numbers(),
            Call::AddThread { creator, id } => numbers(CALL_ADD_THREAD, [creator.0, id.0], []),
            Call::EndProcess { id } => numbers(CALL_END_PROCESS, [id.0], []),
            Call::EndThread { id } => numbers(CALL_END_THREAD, [id.0], []),
            Call::Kill { by, to, signal } => numbers(CALL_KILL, send_numbers(by, to, signal), []),
            Call::Sigqueue {
                by,
                to,
                signal,
                value,
            } => numbers(CALL_SIGQUEUE, send_numbers(by, to, signal), [value]),
            Call::Sigaction {
                process,
                signal,
                new,
            } => sigaction_numbers(process, signal, new),
            Call::Sigmask { thread, way, set } => sigmask_numbers(thread, way, set),
            Call::Sigpending { thread } => numbers(CALL_SIGPENDING, [thread.0], []),
            Call::Look { thread } => numbers(CALL_LOOK, [thread.0], []),
            Call::Who { process } => numbers(CALL_WHO, [process.0], []),
            Call::Take { thread } => numbers(CALL_TAKE, [thread.0], []),
            Call::Sigreturn { thread, mask } => numbers(CALL_SIGRETURN, [thread.0], [mask.0]),
        }
    }
}

/// The third number is the thread, or 0 where the process is meant.
fn send_numbers(by: ProcessId, to: Target, signal: Signal) -> [u32; 4] {
    let thread = to.thread().unwrap_or_default();
    [by.0, to.process().0, thread.0, signal.0]
}

/// The third number says whether an action is given.
fn sigaction_numbers(process: ProcessId, signal: Signal, new: Option<Action>) -> Numbers {
    let action = new.unwrap_or_default();
    let wide = [action.handler, action.flags, action.mask.0];
    let narrow = [process.0, signal.0, new.is_some() as u32];
    numbers(CALL_SIGACTION, narrow, wide)
}

/// The third number says whether a set is given.
fn sigmask_numbers(thread: ThreadId, way: u32, set: Option<SigSet>) -> Numbers {
    let narrow = [thread.0, way, set.is_some() as u32];
    numbers(CALL_SIGMASK, narrow, [set.unwrap_or_default().0])
}
