//! The model's rows as the documented tables, and back.

use rrezhbuta::limits::*;
use rrezhbuta::{SigSet, Siginfo, Tables, Thread};
use rrezhbuta_model as model;
use rrezhbuta_model::{Process, Record, Rows, Set};

/// Writes the rows into tables of the right lengths.
pub fn encode(rows: &Rows, tables: &mut Tables<'_>) {
    let places = tables.processes_mut().chunks_exact_mut(PROCESS_WORDS);
    for (words, process) in places.zip(&rows.processes) {
        encode_process(words, process);
    }
    for (place, thread) in tables.threads_mut().iter_mut().zip(&rows.threads) {
        *place = Thread {
            id: thread.id,
            process: thread.process,
            mask: SigSet(thread.mask.0),
            marks: SigSet(thread.marks.0),
        };
    }
    encode_records(tables.thread_buffer_mut(), &rows.thread_records);
    encode_records(tables.process_buffer_mut(), &rows.process_records);
}

fn encode_process(words: &mut [u64], process: &Process) {
    words[PROCESS_ID] = process.id;
    words[PROCESS_REAL] = process.real;
    words[PROCESS_EFFECTIVE] = process.effective;
    words[PROCESS_SAVED] = process.saved;
    words[PROCESS_SESSION] = process.session;
    words[PROCESS_STOPPED] = process.stopped;
    words[PROCESS_MARKS] = process.marks.0;
    let places = words[HEAD_WORDS..].chunks_exact_mut(ACTION_WORDS);
    for (words, action) in places.zip(&process.actions) {
        words[ACTION_HANDLER] = action.handler;
        words[ACTION_FLAGS] = action.flags;
        words[ACTION_MASK] = action.mask.0;
    }
}

fn encode_records(buffer: &mut [u8], records: &[Record]) {
    let (used, rest) = buffer.split_at_mut(records.len() * RECORD_BYTES);
    rest.fill(0);
    for (bytes, record) in used.chunks_exact_mut(RECORD_BYTES).zip(records) {
        let mut put = |at: usize, number: u32| {
            bytes[at..at + 4].copy_from_slice(&number.to_le_bytes());
        };
        put(RECORD_PROCESS, record.process);
        put(RECORD_THREAD, record.thread);
        put(RECORD_SIGNAL, record.signal);
        put(RECORD_CODE, record.code);
        put(RECORD_SENDER, record.sender);
        put(RECORD_UID, record.uid);
        bytes[RECORD_VALUE..].copy_from_slice(&record.value.to_le_bytes());
    }
}

/// What tables say, if they have the right lengths; their contents may be anything.
pub fn decode(tables: &Tables<'_>) -> Option<Rows> {
    let lengths_fit = tables.processes().len() == PROCESS_TABLE
        && tables.threads().len() == THREAD_PLACES
        && tables.thread_buffer().len() == BUFFER_BYTES
        && tables.process_buffer().len() == BUFFER_BYTES;
    lengths_fit.then(|| Rows {
        processes: tables
            .processes()
            .chunks_exact(PROCESS_WORDS)
            .map(decode_process)
            .collect(),
        threads: tables.threads().iter().map(decode_thread).collect(),
        thread_records: decode_records(tables.thread_buffer()),
        process_records: decode_records(tables.process_buffer()),
    })
}

fn decode_process(words: &[u64]) -> Process {
    let mut process = Process {
        id: words[PROCESS_ID],
        real: words[PROCESS_REAL],
        effective: words[PROCESS_EFFECTIVE],
        saved: words[PROCESS_SAVED],
        session: words[PROCESS_SESSION],
        stopped: words[PROCESS_STOPPED],
        marks: Set(words[PROCESS_MARKS]),
        ..Process::FREE
    };
    let places = words[HEAD_WORDS..].chunks_exact(ACTION_WORDS);
    for (action, words) in process.actions.iter_mut().zip(places) {
        action.handler = words[ACTION_HANDLER];
        action.flags = words[ACTION_FLAGS];
        action.mask = Set(words[ACTION_MASK]);
    }
    process
}

fn decode_thread(thread: &Thread) -> model::Thread {
    model::Thread {
        id: thread.id,
        process: thread.process,
        mask: Set(thread.mask.0),
        marks: Set(thread.marks.0),
    }
}

/// The records up to the last that is not all zero.
fn decode_records(buffer: &[u8]) -> Vec<Record> {
    let used = buffer.iter().rposition(|&byte| byte != 0);
    let slots = used.map_or(0, |last| last / RECORD_BYTES + 1);
    let records = buffer.chunks_exact(RECORD_BYTES).take(slots);
    records
        .filter_map(Siginfo::from_bytes)
        .map(decode_info)
        .collect()
}

/// A record of the library as the model's.
pub fn decode_info(info: Siginfo) -> Record {
    Record {
        process: info.target.process().0,
        thread: info.target.thread().unwrap_or_default().0,
        signal: info.signal.0,
        code: info.code as u32,
        sender: info.sender.0,
        uid: info.uid.0,
        value: info.value,
    }
}
