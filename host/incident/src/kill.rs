//! The operator's KILL.

use crate::failure::{ensure, Failure};
use crate::room::OPERATOR;
use rrezhbuta::limits::{PROCESS_ID, PROCESS_WORDS, RECORD_BYTES};
use rrezhbuta::{Errno, ProcessId, Sent, Siginfo, Signal, Tables, Target};

/// Which of the two sends is used.
#[derive(Clone, Copy, Debug, PartialEq, Eq)]
pub enum Means {
    /// The plain one.
    Kill,
    /// The queued one.
    Sigqueue,
}

/// Sends KILL to a process, and finds it gone.
pub fn kill(tables: &mut Tables<'_>, means: Means, process: ProcessId) -> Result<(), Failure> {
    let target = Target::Process(process);
    let answer = match means {
        Means::Kill => tables.kill(OPERATOR, target, Signal::KILL),
        Means::Sigqueue => tables.sigqueue(OPERATOR, target, Signal::KILL, 0),
    };
    ensure(answer == Ok(Sent::Acted), || {
        format!("KILL to {process} did not land: {answer:?}")
    })?;
    gone(tables, process)
}

/// No table names the process, and it can no longer be signalled.
pub fn gone(tables: &mut Tables<'_>, process: ProcessId) -> Result<(), Failure> {
    let test = tables.kill(OPERATOR, Target::Process(process), Signal(0));
    ensure(
        test == Err(Errno::ESRCH) && !is_named(tables, process),
        || format!("process {process} is still there"),
    )
}

fn is_named(tables: &Tables<'_>, process: ProcessId) -> bool {
    let id = u64::from(process);
    let mut places = tables.processes().chunks(PROCESS_WORDS);
    let has_place = places.any(|place| place[PROCESS_ID] == id);
    let has_thread = tables.threads().iter().any(|thread| thread.process == id);
    let has_record = [tables.thread_buffer(), tables.process_buffer()]
        .into_iter()
        .any(|buffer| names(buffer, process));
    has_place || has_thread || has_record
}

fn names(buffer: &[u8], process: ProcessId) -> bool {
    let mut records = buffer.chunks(RECORD_BYTES).filter_map(Siginfo::from_bytes);
    records.any(|record| record.target.process() == process)
}
