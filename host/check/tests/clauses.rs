//! Every clause of document 01's soundness, broken by itself in tables that are sound but for it.

use rrezhbuta_check::limits::*;
use rrezhbuta_check::samples::{put, used};
use rrezhbuta_check::{is_sound, plain, Tables};

/// What is done to the tables, in words and in code.
type Change = (&'static str, fn(&mut Tables));

/// A word of the head of a process.
fn process(t: &mut Tables, place: usize, field: usize) -> &mut u64 {
    &mut t.processes[place * PROCESS_WORDS + field]
}

/// A word of the action of a process and a signal.
fn action(t: &mut Tables, place: usize, signal: u32, field: usize) -> &mut u64 {
    &mut t.processes
        [place * PROCESS_WORDS + HEAD_WORDS + (signal as usize - 1) * ACTION_WORDS + field]
}

fn thread(t: &mut Tables, place: usize, field: usize) -> &mut u64 {
    &mut t.threads[place * THREAD_WORDS + field]
}

/// A record like that in the first slot, with another signal, behind the last.
fn append(buffer: &mut [u8], signal: u32) {
    let end = used(buffer) * RECORD_BYTES;
    buffer.copy_within(0..RECORD_BYTES, end);
    put(buffer, end / RECORD_BYTES, RECORD_SIGNAL, signal);
}

fn bit(signal: u32) -> u64 {
    1 << (signal - 1)
}

const SIGINT: u32 = 2;
const SIGUSR1: u32 = 10;
const REALTIME: u32 = LAST_STANDARD + 1;

/// In half full tables every other process place is free, from the second on, and so are the threads that would be its.
const FREE: usize = 1;
const FREE_THREAD: usize = THREAD_PLACES / PROCESS_PLACES;

const DAMAGES: [Change; 31] = [
    ("a free process place holds a user id", |t| {
        *process(t, FREE, PROCESS_REAL) = 1
    }),
    ("a free process place holds an action", |t| {
        *action(t, FREE, SIGNALS, ACTION_MASK) = 1
    }),
    ("a free thread place holds a mark", |t| {
        *thread(t, FREE_THREAD, THREAD_MARKS) = 1
    }),
    ("a process id is too large", |t| {
        *process(t, FREE, PROCESS_ID) = LARGEST_ID as u64 + 1;
        *thread(t, FREE_THREAD, THREAD_ID) = 7;
        *thread(t, FREE_THREAD, THREAD_PROCESS) = LARGEST_ID as u64 + 1;
    }),
    ("a thread id is too large", |t| {
        *thread(t, 3, THREAD_ID) = LARGEST_ID as u64 + 1
    }),
    ("two processes have one id", |t| {
        *process(t, FREE, PROCESS_ID) = *process(t, 0, PROCESS_ID)
    }),
    ("two threads have one id", |t| {
        *thread(t, FREE_THREAD, THREAD_ID) = *thread(t, 0, THREAD_ID);
        *thread(t, FREE_THREAD, THREAD_PROCESS) = *thread(t, 0, THREAD_PROCESS);
    }),
    ("a user id has more than 32 bits", |t| {
        *process(t, 0, PROCESS_SAVED) = 1 << 32
    }),
    ("a session id has more than 32 bits", |t| {
        *process(t, 0, PROCESS_SESSION) = 1 << 32
    }),
    ("stopped is neither 0 nor 1", |t| {
        *process(t, 0, PROCESS_STOPPED) = 2
    }),
    ("a thread is of no process", |t| {
        *thread(t, FREE_THREAD, THREAD_ID) = 7;
        *thread(t, FREE_THREAD, THREAD_PROCESS) = 7;
    }),
    ("a process has no thread", |t| {
        *process(t, FREE, PROCESS_ID) = 7
    }),
    ("a mask holds KILL", |t| {
        *thread(t, 0, THREAD_MASK) |= bit(SIGKILL)
    }),
    ("a mark of a thread is STOP", |t| {
        *thread(t, 0, THREAD_MARKS) |= bit(SIGSTOP)
    }),
    ("a mark of a process is KILL", |t| {
        *process(t, 0, PROCESS_MARKS) |= bit(SIGKILL)
    }),
    ("an action mask holds STOP", |t| {
        *action(t, 0, SIGINT, ACTION_MASK) |= bit(SIGSTOP)
    }),
    ("KILL has a handler", |t| {
        *action(t, 0, SIGKILL, ACTION_HANDLER) = 0x4000
    }),
    ("STOP has flags", |t| {
        *action(t, 0, SIGSTOP, ACTION_FLAGS) = SA_RESTART
    }),
    ("a flag is unknown", |t| {
        *action(t, 0, SIGINT, ACTION_FLAGS) |= 2
    }),
    ("a byte behind the records is not zero", |t| {
        t.process_buffer[BUFFER_BYTES - 1] = 1
    }),
    ("a record stands behind a free slot", |t| {
        let end = used(&t.thread_buffer);
        append(&mut t.thread_buffer, REALTIME);
        put(&mut t.thread_buffer, end - 1, RECORD_PROCESS, 0);
    }),
    ("a record has another code", |t| {
        put(&mut t.thread_buffer, 0, RECORD_CODE, 0)
    }),
    ("a record is of KILL", |t| {
        put(&mut t.process_buffer, 0, RECORD_SIGNAL, SIGKILL)
    }),
    ("a record is of no signal", |t| {
        put(&mut t.process_buffer, 0, RECORD_SIGNAL, SIGNALS + 1)
    }),
    ("a record is of no process", |t| {
        put(&mut t.process_buffer, 0, RECORD_PROCESS, 7)
    }),
    ("a record names a thread of another process", |t| {
        let other = *thread(t, 2 * FREE_THREAD, THREAD_ID) as u32;
        put(&mut t.thread_buffer, 0, RECORD_THREAD, other);
    }),
    ("a record of the process buffer names a thread", |t| {
        let own = *thread(t, 0, THREAD_ID) as u32;
        put(&mut t.process_buffer, 0, RECORD_THREAD, own);
    }),
    ("a process has one record too many", |t| {
        let have = RECORD_LIMIT / 2;
        (have..=RECORD_LIMIT).for_each(|_| append(&mut t.process_buffer, REALTIME));
    }),
    ("a standard signal is queued twice", |t| {
        append(&mut t.process_buffer, SIGUSR1);
        append(&mut t.process_buffer, SIGUSR1);
    }),
    ("a standard signal is queued and marked", |t| {
        append(&mut t.thread_buffer, SIGUSR1);
        *thread(t, 0, THREAD_MARKS) |= bit(SIGUSR1);
        *process(t, 0, PROCESS_MARKS) |= bit(SIGUSR1);
    }),
    ("a pending signal is ignored", |t| {
        *action(t, 0, SIGTSTP, ACTION_HANDLER) = SIG_IGN
    }),
];

#[test]
fn each_clause_alone_makes_the_tables_unsound() {
    for (name, damage) in DAMAGES {
        let mut tables = Tables::half();
        damage(&mut tables);
        assert!(!is_sound(&tables), "{name}");
        assert!(!plain::is_sound(&tables), "{name}, to the plain check");
    }
}

/// What comes close to a clause and does not break it.
const ALLOWED: [Change; 7] = [
    ("the largest ids", |t| {
        *process(t, FREE, PROCESS_ID) = LARGEST_ID as u64;
        *thread(t, FREE_THREAD, THREAD_ID) = LARGEST_ID as u64;
        *thread(t, FREE_THREAD, THREAD_PROCESS) = LARGEST_ID as u64;
    }),
    ("the largest user id", |t| {
        *process(t, 0, PROCESS_REAL) = LARGEST_USER as u64
    }),
    ("a process and a thread with one id", |t| {
        *process(t, FREE, PROCESS_ID) = 7;
        *thread(t, FREE_THREAD, THREAD_ID) = 7;
        *thread(t, FREE_THREAD, THREAD_PROCESS) = 7;
    }),
    ("as many records as a process may have", |t| {
        let have = RECORD_LIMIT / 2;
        (have..RECORD_LIMIT).for_each(|_| append(&mut t.process_buffer, REALTIME));
    }),
    ("a realtime signal queued twice and marked", |t| {
        append(&mut t.process_buffer, REALTIME);
        append(&mut t.process_buffer, REALTIME);
        *process(t, 0, PROCESS_MARKS) |= bit(REALTIME);
    }),
    (
        "a standard signal queued for the thread and for the process",
        |t| {
            append(&mut t.thread_buffer, SIGUSR1);
            append(&mut t.process_buffer, SIGUSR1);
        },
    ),
    ("an ignored signal that is not pending", |t| {
        *action(t, 0, SIGUSR1, ACTION_HANDLER) = SIG_IGN;
    }),
];

#[test]
fn what_is_allowed_stays_sound() {
    for (name, change) in ALLOWED {
        let mut tables = Tables::half();
        change(&mut tables);
        assert!(is_sound(&tables), "{name}");
        assert!(plain::is_sound(&tables), "{name}, to the plain check");
    }
}
