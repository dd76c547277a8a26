//! The ledger: it starts empty and is told of each call its arguments and whether it was refused, and nothing of the
//! tables. The acts of a call change its lists.

use crate::acts::Act;
use crate::call::{AddProcess, Call};
use crate::limits::*;
use crate::reading::reset;
use crate::side::{bit, Action, Process, Queue, Record, Side, Thread};
use std::collections::{BTreeMap, VecDeque};

/// How many sends were kept, taken and discarded. No event sets them back.
#[derive(Clone, Copy, Debug, Default, PartialEq, Eq)]
pub struct Counts {
    pub kept: usize,
    pub taken: usize,
    pub discarded: usize,
}

/// What stands for one queue and signal.
#[derive(Debug, Default)]
pub(crate) struct Line {
    /// The oldest first.
    pub(crate) sends: VecDeque<Record>,
    pub(crate) mark: bool,
    pub(crate) counts: Counts,
}

#[derive(Debug, Default)]
pub struct Ledger {
    /// In places, like the threads: what is added goes into the lowest free one.
    pub(crate) processes: Vec<Option<Process>>,
    pub(crate) threads: Vec<Option<Thread>>,
    pub(crate) lines: BTreeMap<(Queue, u32), Line>,
}

/// What a mask may hold of a set.
fn maskable(set: u64) -> u64 {
    set & !(bit(SIGKILL) | bit(SIGSTOP))
}

fn add<T>(places: &mut Vec<Option<T>>, new: T) {
    match places.iter().position(Option::is_none) {
        Some(free) => places[free] = Some(new),
        None => places.push(Some(new)),
    }
}

fn remove<T>(places: &mut [Option<T>], gone: impl Fn(&T) -> bool) {
    for place in places {
        if place.as_ref().is_some_and(&gone) {
            *place = None;
        }
    }
}

impl Ledger {
    /// A refused call leaves it alone. Any other has its acts, which are given back. What it makes of processes and
    /// threads is judged on the lists before them, so they are played last.
    pub fn enter(&mut self, call: &Call, refused: bool) -> Vec<Act> {
        if refused {
            return vec![];
        }
        let acts = self.acts(call);
        self.place(call);
        for act in &acts {
            self.play(act);
        }
        acts
    }

    /// What an act does to the lists, the marks and the counts; nothing else changes them.
    pub fn play(&mut self, act: &Act) {
        match *act {
            Act::Kept(record) => {
                let line = self.line(record.queue, record.signal);
                line.sends.push_back(record);
                line.counts.kept += 1;
            }
            Act::Marked { queue, signal } => self.line(queue, signal).mark = true,
            Act::TookSend { queue, signal, .. } => {
                let line = self.line(queue, signal);
                line.sends.pop_front();
                line.counts.taken += 1;
            }
            Act::TookMark { queue, signal, .. } => self.line(queue, signal).mark = false,
            Act::Emptied(event) => {
                for (&(queue, signal), line) in &mut self.lines {
                    if event.empties(queue, signal) {
                        line.counts.discarded += line.sends.len();
                        line.sends.clear();
                        line.mark = false;
                    }
                }
            }
        }
    }

    /// What a call makes of processes and threads.
    fn place(&mut self, call: &Call) {
        match *call {
            Call::Clear => self.clear(),
            Call::AddProcess(new) => self.add_process(new),
            Call::AddThread { creator, id } => self.add_thread(creator, id),
            Call::EndProcess { id } => self.end_process(id),
            Call::EndThread { id } => self.end_thread(id),
            Call::Send(send) => self.job_control(send.to, send.signal),
            Call::Sigaction {
                process,
                signal,
                new: Some(new),
            } => self.store(process, signal, new),
            Call::Sigmask {
                thread,
                way,
                set: Some(set),
            } => self.change_mask(thread, way, set),
            Call::Take { thread } => self.take(thread),
            Call::Sigreturn { thread, mask } => self.change_mask(thread, SIG_SETMASK, mask),
            // those that only ask
            Call::Sigaction { .. } | Call::Sigmask { .. } => {}
            Call::Sigpending { .. } | Call::Look { .. } | Call::Who { .. } => {}
        }
    }

    /// The counts of each queue and signal that has any.
    pub fn counts(&self) -> BTreeMap<(Queue, u32), Counts> {
        self.lines
            .iter()
            .filter(|(_, line)| line.counts != Counts::default())
            .map(|(&key, line)| (key, line.counts))
            .collect()
    }

    /// What it says is live and pending.
    pub fn side(&self) -> Side {
        let mut side = Side::default();
        for process in self.processes.iter().flatten() {
            side.processes.insert(process.id, process.clone());
        }
        for &thread in self.threads.iter().flatten() {
            side.threads.insert(thread.id, thread);
        }
        for (&(queue, signal), line) in &self.lines {
            if line.mark {
                side.marks.entry(queue).or_default().insert(signal);
            }
            if !line.sends.is_empty() {
                let sends = line.sends.iter().copied().collect();
                side.records.insert((queue, signal), sends);
            }
        }
        side
    }

    fn line(&mut self, queue: Queue, signal: u32) -> &mut Line {
        self.lines.entry((queue, signal)).or_default()
    }

    fn process_mut(&mut self, id: u32) -> Option<&mut Process> {
        self.processes.iter_mut().flatten().find(|p| p.id == id)
    }

    fn set_stopped(&mut self, process: u32, stopped: bool) {
        if let Some(process) = self.process_mut(process) {
            process.stopped = stopped;
        }
    }

    fn set_mask(&mut self, thread: u32, mask: u64) {
        let found = self.threads.iter_mut().flatten().find(|t| t.id == thread);
        if let Some(found) = found {
            found.mask = maskable(mask);
        }
    }

    fn clear(&mut self) {
        self.processes.clear();
        self.threads.clear();
    }

    fn add_process(&mut self, new: AddProcess) {
        let process = Process {
            id: new.id,
            real: new.real,
            effective: new.effective,
            saved: new.saved,
            session: new.session,
            stopped: false,
            actions: BTreeMap::new(),
        };
        let thread = Thread {
            id: new.thread,
            process: new.id,
            mask: maskable(new.mask),
        };
        add(&mut self.processes, process);
        add(&mut self.threads, thread);
    }

    fn add_thread(&mut self, creator: u32, id: u32) {
        if let Some(&creator) = self.thread(creator) {
            add(&mut self.threads, Thread { id, ..creator });
        }
    }

    fn end_process(&mut self, id: u32) {
        remove(&mut self.processes, |process| process.id == id);
        remove(&mut self.threads, |thread| thread.process == id);
    }

    fn end_thread(&mut self, id: u32) {
        let Some(&Thread { process, .. }) = self.thread(id) else {
            return;
        };
        if self.threads_of(process).count() == 1 {
            self.end_process(process);
        } else {
            remove(&mut self.threads, |thread| thread.id == id);
        }
    }

    /// Steps 1 and 2.
    fn job_control(&mut self, process: u32, signal: u32) {
        match signal {
            SIGKILL => self.end_process(process),
            SIGSTOP => self.set_stopped(process, true),
            SIGCONT => self.set_stopped(process, false),
            _ => {}
        }
    }

    fn store(&mut self, process: u32, signal: u32, new: Action) {
        let stored = Action {
            mask: maskable(new.mask),
            ..new
        };
        if let Some(process) = self.process_mut(process) {
            process.actions.remove(&signal);
            if stored != Action::default() {
                process.actions.insert(signal, stored);
            }
        }
    }

    fn change_mask(&mut self, thread: u32, way: u32, set: u64) {
        let Some(&Thread { mask: old, .. }) = self.thread(thread) else {
            return;
        };
        match way {
            SIG_BLOCK => self.set_mask(thread, old | set),
            SIG_UNBLOCK => self.set_mask(thread, old & !set),
            _ => self.set_mask(thread, set),
        }
    }

    /// What the signal that is taken sets off.
    fn take(&mut self, thread: u32) {
        let Some((queue, signal)) = self.next(thread) else {
            return;
        };
        let action = self.action(queue.process, signal);
        if action.handler != SIG_DFL {
            return self.handle(thread, queue.process, signal, action);
        }
        match signal {
            SIGCONT => {}
            SIGTSTP | SIGTTIN | SIGTTOU => self.set_stopped(queue.process, true),
            _ => self.end_process(queue.process),
        }
    }

    fn handle(&mut self, thread: u32, process: u32, signal: u32, action: Action) {
        let deferred = if action.flags & SA_NODEFER == 0 {
            bit(signal)
        } else {
            0
        };
        self.change_mask(thread, SIG_BLOCK, action.mask | deferred);
        if let Some(left) = reset(action, signal) {
            self.store(process, signal, left);
        }
    }
}
