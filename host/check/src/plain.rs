//! The clauses of soundness as a Rust programmer would write them. Like the proved check it goes by place and by
//! record, counts and notes what is pending as it goes, and allocates nothing; unlike it, it looks at the rest of a
//! buffer after its records and not before the places.

use crate::limits::*;
use crate::Tables;
use std::array;

const UNMASKABLE: u64 = 1 << (SIGKILL - 1) | 1 << (SIGSTOP - 1);

fn bit(signal: u32) -> u64 {
    1 << (signal - 1)
}

fn action(process: &[u64], signal: u32) -> &[u64] {
    let at = HEAD_WORDS + (signal as usize - 1) * ACTION_WORDS;
    &process[at..at + ACTION_WORDS]
}

fn is_ignored(process: &[u64], signal: u32) -> bool {
    let handler = action(process, signal)[ACTION_HANDLER];
    handler == SIG_IGN || handler == SIG_DFL && matches!(signal, SIGCHLD | SIGURG | SIGWINCH)
}

fn is_default(action: &[u64]) -> bool {
    action.iter().all(|&word| word == 0)
}

fn marks_heard(process: &[u64], marks: u64) -> bool {
    marks == 0 || (1..=SIGNALS).all(|s| marks & bit(s) == 0 || !is_ignored(process, s))
}

fn is_id(id: u64) -> bool {
    (1..=LARGEST_ID as u64).contains(&id)
}

struct Places<'a> {
    processes: &'a [u64],
    threads: &'a [u64],
}

impl<'a> Places<'a> {
    fn process_at(&self, place: usize) -> &'a [u64] {
        &self.processes[place * PROCESS_WORDS..][..PROCESS_WORDS]
    }

    fn thread_at(&self, place: usize) -> &'a [u64] {
        &self.threads[place * THREAD_WORDS..][..THREAD_WORDS]
    }

    fn process(&self, id: u64) -> Option<usize> {
        if id == 0 {
            return None;
        }
        self.processes
            .chunks_exact(PROCESS_WORDS)
            .position(|p| p[PROCESS_ID] == id)
    }

    fn thread(&self, id: u64) -> Option<usize> {
        if id == 0 {
            return None;
        }
        self.threads
            .chunks_exact(THREAD_WORDS)
            .position(|t| t[THREAD_ID] == id)
    }

    fn process_ok(&self, place: usize) -> bool {
        let p = self.process_at(place);
        let id = p[PROCESS_ID];
        if id == 0 {
            return p.iter().all(|&word| word == 0);
        }
        is_id(id)
            && p[PROCESS_REAL..=PROCESS_SESSION]
                .iter()
                .all(|&user| user <= LARGEST_USER as u64)
            && p[PROCESS_STOPPED] <= 1
            && p[PROCESS_MARKS] & UNMASKABLE == 0
            && self.process(id) == Some(place)
            && self
                .threads
                .chunks_exact(THREAD_WORDS)
                .any(|t| t[THREAD_PROCESS] == id)
            && is_default(action(p, SIGKILL))
            && is_default(action(p, SIGSTOP))
            && p[HEAD_WORDS..]
                .chunks_exact(ACTION_WORDS)
                .all(|a| a[ACTION_MASK] & UNMASKABLE == 0 && a[ACTION_FLAGS] & !KNOWN_FLAGS == 0)
            && marks_heard(p, p[PROCESS_MARKS])
    }

    fn thread_ok(&self, place: usize) -> bool {
        let t = self.thread_at(place);
        let id = t[THREAD_ID];
        if id == 0 {
            return t.iter().all(|&word| word == 0);
        }
        let Some(owner) = self.process(t[THREAD_PROCESS]) else {
            return false;
        };
        is_id(id)
            && (t[THREAD_MASK] | t[THREAD_MARKS]) & UNMASKABLE == 0
            && self.thread(id) == Some(place)
            && marks_heard(self.process_at(owner), t[THREAD_MARKS])
    }
}

fn word(record: &[u8], at: usize) -> u32 {
    u32::from_le_bytes(record[at..at + 4].try_into().expect("four bytes"))
}

fn is_zero(bytes: &[u8]) -> bool {
    bytes
        .chunks_exact(8)
        .all(|c| u64::from_le_bytes(c.try_into().expect("eight bytes")) == 0)
}

/// What one pass over a buffer has found so far.
struct Pass<const QUEUES: usize> {
    counts: [usize; PROCESS_PLACES],
    seen: [u64; QUEUES],
}

impl<const QUEUES: usize> Pass<QUEUES> {
    fn record_ok(&mut self, places: &Places, record: &[u8], aimed_at_thread: bool) -> bool {
        let process = word(record, RECORD_PROCESS) as u64;
        let Some(place) = places.process(process) else {
            return false;
        };
        let thread = word(record, RECORD_THREAD) as u64;
        let queue = if !aimed_at_thread {
            if thread != 0 {
                return false;
            }
            place
        } else {
            match places.thread(thread) {
                Some(t) if places.thread_at(t)[THREAD_PROCESS] == process => t,
                _ => return false,
            }
        };
        let signal = word(record, RECORD_SIGNAL);
        if !(1..=SIGNALS).contains(&signal)
            || bit(signal) & UNMASKABLE != 0
            || word(record, RECORD_CODE) != SI_QUEUE
            || is_ignored(places.process_at(place), signal)
            || signal <= LAST_STANDARD && self.seen[queue] & bit(signal) != 0
        {
            return false;
        }
        self.counts[place] += 1;
        self.seen[queue] |= bit(signal);
        true
    }

    fn buffer_ok(&mut self, places: &Places, buffer: &[u8], aimed_at_thread: bool) -> bool {
        let mut records = buffer.chunks_exact(RECORD_BYTES);
        let mut used = 0;
        for record in records.by_ref() {
            if word(record, RECORD_PROCESS) == 0 {
                break;
            }
            if !self.record_ok(places, record, aimed_at_thread) {
                return false;
            }
            used += 1;
        }
        is_zero(&buffer[used * RECORD_BYTES..])
    }
}

/// Are the tables sound? Never inlined: its instructions are counted by its name.
#[inline(never)]
pub fn is_sound(tables: &Tables) -> bool {
    if tables.processes.len() != PROCESS_TABLE
        || tables.threads.len() != THREAD_TABLE
        || tables.thread_buffer.len() != BUFFER_BYTES
        || tables.process_buffer.len() != BUFFER_BYTES
    {
        return false;
    }
    let places = Places {
        processes: &tables.processes,
        threads: &tables.threads,
    };
    if !(0..PROCESS_PLACES).all(|i| places.process_ok(i))
        || !(0..THREAD_PLACES).all(|i| places.thread_ok(i))
    {
        return false;
    }
    let mut to_threads = Pass {
        counts: [0; PROCESS_PLACES],
        seen: array::from_fn::<u64, THREAD_PLACES, _>(|i| places.thread_at(i)[THREAD_MARKS]),
    };
    let mut to_processes = Pass {
        counts: [0; PROCESS_PLACES],
        seen: array::from_fn::<u64, PROCESS_PLACES, _>(|i| places.process_at(i)[PROCESS_MARKS]),
    };
    to_threads.buffer_ok(&places, &tables.thread_buffer, true)
        && to_processes.buffer_ok(&places, &tables.process_buffer, false)
        && (0..PROCESS_PLACES)
            .all(|i| to_threads.counts[i] + to_processes.counts[i] <= RECORD_LIMIT)
}
