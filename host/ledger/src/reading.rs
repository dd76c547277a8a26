//! What is read in the ledger: what a call answers, and whether it is refused.

use crate::call::{AddProcess, Call, Send};
use crate::ledger::Ledger;
use crate::limits::*;
use crate::side::{bit, members, Action, Process, Queue, Record, Thread};

/// What becomes of a send, in document 01's words.
#[derive(Clone, Copy, Debug, PartialEq, Eq)]
pub(crate) enum Fate {
    Tested,
    Acted,
    Dropped,
    Absorbed,
    Marked,
    Kept,
}

fn is_bad_id(id: u32) -> bool {
    id == 0 || id > LARGEST_ID
}

/// The errno of the first row that applies.
fn first(rows: &[(u32, bool)]) -> Option<u32> {
    let &(errno, _) = rows.iter().find(|&&(_, applies)| applies)?;
    Some(errno)
}

impl Ledger {
    /// What a call answers, in docs/CALLS.md's words, read before it is entered.
    pub fn answer(&self, call: &Call) -> String {
        match self.refusal(call) {
            Some(errno) => format!("refused {errno}"),
            None => self.accepted(call),
        }
    }

    fn accepted(&self, call: &Call) -> String {
        match *call {
            Call::Clear | Call::AddProcess(_) | Call::AddThread { .. } => "done".into(),
            Call::EndProcess { .. } | Call::EndThread { .. } => "done".into(),
            Call::Send(send) => format!("{:?}", self.fate(send)).to_lowercase(),
            Call::Sigaction {
                process, signal, ..
            } => format!("old action {}", self.action(process, signal)),
            Call::Sigmask { thread, .. } | Call::Sigreturn { thread, .. } => {
                format!("old mask {}", self.mask(thread))
            }
            Call::Sigpending { thread } => format!("pending set {}", self.blocked_pending(thread)),
            Call::Look { thread } => self.looked(thread),
            Call::Who { process } => self.who(process),
            Call::Take { thread } => self.taken(thread),
        }
    }

    fn looked(&self, thread: u32) -> String {
        let Some((queue, signal)) = self.next(thread) else {
            return "looked nothing".into();
        };
        match self.oldest(queue, signal) {
            Some(record) => format!("looked record {record}"),
            None => {
                let Queue { process, thread } = queue;
                format!("looked mark of {signal} in queue {process} {thread}")
            }
        }
    }

    fn who(&self, process: u32) -> String {
        let able = self
            .threads_of(process)
            .find(|thread| self.next(thread.id).is_some());
        match able {
            Some(thread) => format!("can take {}", thread.id),
            None => "none can".into(),
        }
    }

    fn taken(&self, thread: u32) -> String {
        let Some((queue, signal)) = self.next(thread) else {
            return "nothing".into();
        };
        let Action { handler, flags, .. } = self.action(queue.process, signal);
        match (handler, signal) {
            (SIG_DFL, SIGCONT) => format!("no action {signal}"),
            (SIG_DFL, SIGTSTP | SIGTTIN | SIGTTOU) => format!("stop {signal}"),
            (SIG_DFL, _) => format!("end {signal}"),
            _ => {
                let record = self.oldest(queue, signal).unwrap_or(Record {
                    queue,
                    signal,
                    code: 0,
                    sender: 0,
                    uid: 0,
                    value: 0,
                });
                let saved = self.mask(thread);
                format!(
                    "handler {handler} signal {signal} record {record} flags {flags} saved {saved}"
                )
            }
        }
    }

    /// The refusal table's rows in its order. Errno 14 is about the tables, of which nothing is known here.
    fn refusal(&self, call: &Call) -> Option<u32> {
        match *call {
            Call::Clear => None,
            Call::AddProcess(new) => self.refused_process(new),
            Call::AddThread { creator, id } => first(&[
                (EINVAL, is_bad_id(id)),
                (ESRCH, self.thread(creator).is_none()),
                (EEXIST, self.thread(id).is_some()),
                (EAGAIN, self.threads_are_full()),
            ]),
            Call::Send(send) => self.refused_send(send),
            Call::Sigaction {
                process,
                signal,
                new,
            } => first(&[
                (EINVAL, signal == 0 || signal > SIGNALS),
                (EINVAL, new.is_some() && matches!(signal, SIGKILL | SIGSTOP)),
                (EINVAL, new.is_some_and(|new| new.flags & !KNOWN_FLAGS != 0)),
                (ESRCH, self.process(process).is_none()),
            ]),
            Call::Sigmask { thread, way, set } => first(&[
                (EINVAL, set.is_some() && way > SIG_SETMASK),
                (ESRCH, self.thread(thread).is_none()),
            ]),
            Call::EndProcess { id: process } | Call::Who { process } => {
                first(&[(ESRCH, self.process(process).is_none())])
            }
            Call::EndThread { id: thread }
            | Call::Sigpending { thread }
            | Call::Look { thread }
            | Call::Take { thread }
            | Call::Sigreturn { thread, .. } => first(&[(ESRCH, self.thread(thread).is_none())]),
        }
    }

    fn refused_process(&self, new: AddProcess) -> Option<u32> {
        let live = self.process(new.id).is_some() || self.thread(new.thread).is_some();
        let full = self.processes.iter().flatten().count() == PROCESS_PLACES;
        first(&[
            (EINVAL, is_bad_id(new.id) || is_bad_id(new.thread)),
            (EEXIST, live),
            (EAGAIN, full || self.threads_are_full()),
        ])
    }

    fn refused_send(&self, send: Send) -> Option<u32> {
        let of_target = |thread: &Thread| thread.process == send.to;
        let aimed = send.thread == 0 || self.thread(send.thread).is_some_and(of_target);
        let live = self.process(send.by).is_some() && self.process(send.to).is_some();
        let needs_record = self.fate(send) == Fate::Kept;
        first(&[
            (EINVAL, send.signal > SIGNALS),
            (ESRCH, !live || !aimed),
            (EPERM, !self.may_signal(send)),
            (EAGAIN, needs_record && self.queued(send.to) >= RECORD_LIMIT),
        ])
    }

    fn may_signal(&self, send: Send) -> bool {
        let (Some(by), Some(to)) = (self.process(send.by), self.process(send.to)) else {
            return false;
        };
        by.effective == 0
            || [by.real, by.effective]
                .iter()
                .any(|user| [to.real, to.saved].contains(user))
            || send.signal == SIGCONT && by.session == to.session
    }

    fn threads_are_full(&self) -> bool {
        self.threads.iter().flatten().count() == THREAD_PLACES
    }

    /// How many sends a process has pending, those of its threads counted in.
    fn queued(&self, process: u32) -> usize {
        self.lines
            .iter()
            .filter(|((queue, _), _)| queue.process == process)
            .map(|(_, line)| line.sends.len())
            .sum()
    }

    /// What becomes of a send that is not refused.
    pub(crate) fn fate(&self, send: Send) -> Fate {
        let queue = send.queue();
        let marked = self.is_marked(queue, send.signal);
        let queued = self.oldest(queue, send.signal).is_some();
        let again = send.signal <= LAST_STANDARD && (marked || queued);
        match (send.signal, send.value) {
            (0, _) => Fate::Tested,
            (SIGKILL | SIGSTOP, _) => Fate::Acted,
            _ if self.is_ignored(send.to, send.signal) => Fate::Dropped,
            (_, None) if again || marked => Fate::Absorbed,
            (_, None) => Fate::Marked,
            (_, Some(_)) if again => Fate::Absorbed,
            (_, Some(_)) => Fate::Kept,
        }
    }

    /// The record of a queued send.
    pub(crate) fn record(&self, send: Send) -> Record {
        Record {
            queue: send.queue(),
            signal: send.signal,
            code: SI_QUEUE as i32,
            sender: send.by,
            uid: self.process(send.by).map_or(0, |by| by.real),
            value: send.value.unwrap_or(0),
        }
    }

    /// The queue and the signal that a thread takes next.
    pub(crate) fn next(&self, thread: u32) -> Option<(Queue, u32)> {
        let thread = self.thread(thread)?;
        if self.process(thread.process)?.stopped {
            return None;
        }
        members(!thread.mask)
            .flat_map(|signal| queues(thread).map(|queue| (queue, signal)))
            .find(|&(queue, signal)| self.is_pending(queue, signal))
    }

    /// The blocked signals that are pending for a thread.
    fn blocked_pending(&self, thread: u32) -> u64 {
        let Some(thread) = self.thread(thread) else {
            return 0;
        };
        members(thread.mask)
            .filter(|&signal| queues(thread).iter().any(|&q| self.is_pending(q, signal)))
            .map(bit)
            .sum()
    }

    fn is_pending(&self, queue: Queue, signal: u32) -> bool {
        self.is_marked(queue, signal) || self.oldest(queue, signal).is_some()
    }

    fn is_marked(&self, queue: Queue, signal: u32) -> bool {
        self.lines
            .get(&(queue, signal))
            .is_some_and(|line| line.mark)
    }

    pub(crate) fn oldest(&self, queue: Queue, signal: u32) -> Option<Record> {
        self.lines.get(&(queue, signal))?.sends.front().copied()
    }

    pub(crate) fn process(&self, id: u32) -> Option<&Process> {
        self.processes.iter().flatten().find(|p| p.id == id)
    }

    pub(crate) fn thread(&self, id: u32) -> Option<&Thread> {
        self.threads.iter().flatten().find(|t| t.id == id)
    }

    /// The threads of a process, the one in the lowest place first.
    pub(crate) fn threads_of(&self, process: u32) -> impl Iterator<Item = &Thread> {
        self.threads
            .iter()
            .flatten()
            .filter(move |thread| thread.process == process)
    }

    fn mask(&self, thread: u32) -> u64 {
        self.thread(thread).map_or(0, |thread| thread.mask)
    }

    pub(crate) fn action(&self, process: u32, signal: u32) -> Action {
        self.process(process)
            .and_then(|process| process.actions.get(&signal))
            .copied()
            .unwrap_or_default()
    }

    fn is_ignored(&self, process: u32, signal: u32) -> bool {
        is_ignored_by(self.action(process, signal), signal)
    }
}

/// The action is ignore, or default with an ignoring signal.
pub(crate) fn is_ignored_by(action: Action, signal: u32) -> bool {
    match action.handler {
        SIG_IGN => true,
        SIG_DFL => matches!(signal, SIGCHLD | SIGURG | SIGWINCH),
        _ => false,
    }
}

/// What RESETHAND leaves of an action whose signal a handler takes.
pub(crate) fn reset(action: Action, signal: u32) -> Option<Action> {
    let resets = action.flags & SA_RESETHAND != 0 && !matches!(signal, SIGILL | SIGTRAP);
    resets.then_some(Action {
        handler: SIG_DFL,
        flags: action.flags & !SA_SIGINFO,
        mask: action.mask,
    })
}

/// A thread's own queue, then its process's.
fn queues(thread: &Thread) -> [Queue; 2] {
    [thread.id, 0].map(|id| Queue {
        process: thread.process,
        thread: id,
    })
}
