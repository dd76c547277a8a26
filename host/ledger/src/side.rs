//! What one of the two sides, the ledger or the tables, says after a call.

use crate::limits::SIGNALS;
use std::collections::{BTreeMap, BTreeSet};
use std::fmt::{self, Debug, Display, Formatter};

/// What a process does about a signal. The default action is all zero.
#[derive(Clone, Copy, Debug, Default, PartialEq, Eq)]
pub struct Action {
    pub handler: u64,
    pub flags: u64,
    pub mask: u64,
}

#[derive(Clone, Debug, PartialEq, Eq)]
pub struct Process {
    pub id: u32,
    pub real: u32,
    pub effective: u32,
    pub saved: u32,
    pub session: u32,
    pub stopped: bool,
    /// Those that are not the default action, by signal.
    pub actions: BTreeMap<u32, Action>,
}

#[derive(Clone, Copy, Debug, PartialEq, Eq)]
pub struct Thread {
    pub id: u32,
    pub process: u32,
    pub mask: u64,
}

#[derive(Clone, Copy, Debug, PartialEq, Eq, PartialOrd, Ord)]
pub struct Queue {
    pub process: u32,
    /// 0 for the queue of the process itself.
    pub thread: u32,
}

/// A queued send, as its record.
#[derive(Clone, Copy, Debug, PartialEq, Eq)]
pub struct Record {
    pub queue: Queue,
    pub signal: u32,
    pub code: i32,
    pub sender: u32,
    pub uid: u32,
    pub value: u64,
}

/// What is live and what is pending.
#[derive(Clone, Debug, Default, PartialEq, Eq)]
pub struct Side {
    pub processes: BTreeMap<u32, Process>,
    pub threads: BTreeMap<u32, Thread>,
    pub marks: BTreeMap<Queue, BTreeSet<u32>>,
    /// By queue and signal, the oldest first.
    pub records: BTreeMap<(Queue, u32), Vec<Record>>,
}

/// Signal s is bit s - 1; 0 and numbers over 64 are no signals.
pub fn bit(signal: u32) -> u64 {
    if (1..=SIGNALS).contains(&signal) {
        1 << (signal - 1)
    } else {
        0
    }
}

/// The signals of a set, in order.
pub fn members(set: u64) -> impl Iterator<Item = u32> {
    (1..=SIGNALS).filter(move |&s| set & bit(s) != 0)
}

impl Record {
    /// Its signal:value.
    pub fn short(&self) -> String {
        format!("{}:{}", self.signal, self.value)
    }
}

impl Side {
    pub fn pending(&self, queue: Queue, signal: u32) -> usize {
        self.records.get(&(queue, signal)).map_or(0, Vec::len)
    }

    pub fn all_pending(&self) -> usize {
        self.records.values().map(Vec::len).sum()
    }
}

/// Where the ledger and the tables say different things.
pub fn difference(ledger: &Side, tables: &Side) -> Option<String> {
    differs("process", &ledger.processes, &tables.processes)
        .or_else(|| differs("thread", &ledger.threads, &tables.threads))
        .or_else(|| differs("the marks of", &ledger.marks, &tables.marks))
        .or_else(|| differs("the records of", &ledger.records, &tables.records))
}

fn differs<K: Ord + Debug, V: PartialEq + Debug>(
    what: &str,
    ledger: &BTreeMap<K, V>,
    tables: &BTreeMap<K, V>,
) -> Option<String> {
    let key = ledger
        .keys()
        .chain(tables.keys())
        .find(|&key| ledger.get(key) != tables.get(key))?;
    let (here, there) = (ledger.get(key), tables.get(key));
    Some(format!(
        "{what} {key:?}: the ledger has {here:?}, the tables have {there:?}"
    ))
}

impl Display for Action {
    fn fmt(&self, f: &mut Formatter) -> fmt::Result {
        let Action {
            handler,
            flags,
            mask,
        } = self;
        write!(f, "handler={handler} flags={flags} mask={mask}")
    }
}

impl Display for Queue {
    fn fmt(&self, f: &mut Formatter) -> fmt::Result {
        match self.thread {
            0 => write!(f, "process {}", self.process),
            thread => write!(f, "thread {thread}"),
        }
    }
}

impl Display for Record {
    fn fmt(&self, f: &mut Formatter) -> fmt::Result {
        let Record {
            queue,
            signal,
            code,
            sender,
            uid,
            value,
        } = self;
        let Queue { process, thread } = queue;
        write!(
            f,
            "({process} {thread} {signal} {code} {sender} {uid} {value})"
        )
    }
}
