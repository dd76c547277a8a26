//! The tables for a reader, in the style of `/proc/PID/status`.

use crate::limits::*;
use crate::{ProcessId, SigSet, Siginfo, Signal, Tables, Thread};
use std::fmt;

/// Each live process with its sets and its queue, and under it each of its threads. What is pending counts marks and
/// records, as Linux does; SigIgn are the signals that are ignored by choice, SigCgt those with a handler.
///
/// ```
/// use rrezhbuta::{NewProcess, ProcessId, Signal, Tables, Target, ThreadId};
///
/// let (process, thread) = (ProcessId(100), ThreadId(200));
/// let mut tables = Tables::new();
/// tables.add_process(NewProcess { id: process, thread, ..NewProcess::default() })?;
/// tables.sigqueue(process, Target::Thread(process, thread), Signal(40), 7)?;
/// let page = tables.to_string();
/// assert!(page.starts_with("Pid:\t100\nUid:\t0\t0\t0\n"));
/// assert!(page.contains("SigPnd:\t0000008000000000\n"));
/// assert!(page.ends_with("Queued:\t40 value 7 from 100 uid 0\n"));
/// # Ok::<(), rrezhbuta::Errno>(())
/// ```
impl fmt::Display for Tables<'_> {
    fn fmt(&self, f: &mut fmt::Formatter<'_>) -> fmt::Result {
        let places = self.processes.chunks_exact(PROCESS_WORDS);
        for process in places.filter(|p| p[PROCESS_ID] != 0) {
            self.write_process(f, process)?;
            let threads = self.threads.iter().filter(|t| t.id != 0);
            for thread in threads.filter(|t| t.process == process[PROCESS_ID]) {
                self.write_thread(f, thread)?;
            }
        }
        Ok(())
    }
}

impl Tables<'_> {
    fn write_process(&self, f: &mut fmt::Formatter<'_>, p: &[u64]) -> fmt::Result {
        let id = p[PROCESS_ID];
        let queue = queue(&self.process_buffer, |r| {
            u64::from(r.target.process()) == id
        });
        let state = if p[PROCESS_STOPPED] == 0 {
            "running"
        } else {
            "stopped"
        };
        let [real, effective, saved] =
            [PROCESS_REAL, PROCESS_EFFECTIVE, PROCESS_SAVED].map(|field| p[field]);
        writeln!(f, "Pid:\t{id}\nUid:\t{real}\t{effective}\t{saved}")?;
        writeln!(f, "Session:\t{}\nState:\t{state}", p[PROCESS_SESSION])?;
        writeln!(f, "ShdPnd:\t{}", pending(p[PROCESS_MARKS], &queue))?;
        writeln!(f, "SigIgn:\t{}", actions(p, |handler| handler == SIG_IGN))?;
        writeln!(f, "SigCgt:\t{}", actions(p, |handler| handler > SIG_IGN))?;
        write_queue(f, &queue)
    }

    fn write_thread(&self, f: &mut fmt::Formatter<'_>, thread: &Thread) -> fmt::Result {
        let queue = queue(&self.thread_buffer, |r| {
            r.target.thread().map(u64::from) == Some(thread.id)
        });
        writeln!(f, "Tid:\t{}", thread.id)?;
        writeln!(f, "SigPnd:\t{}", pending(thread.marks.0, &queue))?;
        writeln!(f, "SigBlk:\t{}", thread.mask)?;
        write_queue(f, &queue)
    }
}

/// The used records of a buffer that are of a queue, oldest first.
fn queue(buffer: &[u8], is_of: impl Fn(&Siginfo) -> bool) -> Vec<Siginfo> {
    buffer
        .chunks_exact(RECORD_BYTES)
        .filter_map(Siginfo::from_bytes)
        .take_while(|record| record.target.process() != ProcessId(0))
        .filter(is_of)
        .collect()
}

fn pending(marks: u64, queue: &[Siginfo]) -> SigSet {
    let signals = queue.iter().map(|record| SigSet::of_signal(record.signal));
    signals.fold(SigSet(marks), SigSet::union)
}

/// The signals whose handler number is such a one.
fn actions(process: &[u64], is_such: impl Fn(u64) -> bool) -> SigSet {
    let actions = process[HEAD_WORDS..].chunks_exact(ACTION_WORDS);
    (1..)
        .zip(actions)
        .fold(SigSet::EMPTY, |set, (signal, action)| {
            if is_such(action[ACTION_HANDLER]) {
                set.union(SigSet::of_signal(Signal(signal)))
            } else {
                set
            }
        })
}

fn write_queue(f: &mut fmt::Formatter<'_>, queue: &[Siginfo]) -> fmt::Result {
    queue.iter().try_for_each(|record| {
        let Siginfo {
            signal,
            value,
            sender,
            uid,
            ..
        } = record;
        writeln!(f, "Queued:\t{signal} value {value} from {sender} uid {uid}")
    })
}
