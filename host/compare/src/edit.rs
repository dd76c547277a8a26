//! Changes to tables by hand, and random ones.

use crate::random::Random;
use rrezhbuta::limits::{PROCESS_WORDS, RECORD_BYTES, THREAD_WORDS};
use rrezhbuta::limits::{THREAD_ID, THREAD_MASK, THREAD_PROCESS};
use rrezhbuta::{Tables, Thread};
use rrezhbuta_ids::HINTS;

/// One of the four tables.
#[derive(Clone, Copy, Debug, PartialEq, Eq)]
pub enum Which {
    /// The process table.
    Processes,
    /// The thread table.
    Threads,
    /// The thread buffer.
    ThreadBuffer,
    /// The process buffer.
    ProcessBuffer,
}

/// One change by hand.
#[derive(Clone, Copy, Debug, PartialEq, Eq)]
pub enum Edit {
    /// This word of a table, or this byte of a buffer, becomes that.
    Set(Which, usize, u64),
    /// A place of a table, or a record of a buffer, is copied over another: from the first to the second.
    Copy(Which, usize, usize),
    /// The table has one element more or one less.
    Resize(Which, bool),
}

fn thread_word(thread: &mut Thread, field: usize) -> &mut u64 {
    match field {
        THREAD_ID => &mut thread.id,
        THREAD_PROCESS => &mut thread.process,
        THREAD_MASK => &mut thread.mask.0,
        _ => &mut thread.marks.0,
    }
}

/// The tables in vectors, which can change their lengths.
struct Parts {
    processes: Vec<u64>,
    threads: Vec<Thread>,
    thread_buffer: Vec<u8>,
    process_buffer: Vec<u8>,
}

fn resize<T>(table: &mut Vec<T>, more: bool, extra: T) {
    if more {
        table.push(extra);
    } else {
        table.pop();
    }
}

impl Parts {
    fn new(tables: &Tables<'_>) -> Parts {
        Parts {
            processes: tables.processes().to_vec(),
            threads: tables.threads().to_vec(),
            thread_buffer: tables.thread_buffer().to_vec(),
            process_buffer: tables.process_buffer().to_vec(),
        }
    }

    fn tables(self) -> Tables<'static> {
        Tables::from_parts(
            self.processes,
            self.threads,
            self.thread_buffer,
            self.process_buffer,
        )
    }

    fn apply(&mut self, edit: &Edit) {
        match *edit {
            Edit::Set(which, at, value) => self.set(which, at, value),
            Edit::Copy(which, from, to) => self.copy(which, from, to),
            Edit::Resize(which, more) => match which {
                Which::Processes => resize(&mut self.processes, more, 0),
                Which::Threads => resize(&mut self.threads, more, Thread::FREE),
                Which::ThreadBuffer => resize(&mut self.thread_buffer, more, 0),
                Which::ProcessBuffer => resize(&mut self.process_buffer, more, 0),
            },
        }
    }

    fn copy(&mut self, which: Which, from: usize, to: usize) {
        match which {
            Which::Processes => copy(&mut self.processes, PROCESS_WORDS, from, to),
            Which::Threads => copy(&mut self.threads, 1, from, to),
            Which::ThreadBuffer => copy(&mut self.thread_buffer, RECORD_BYTES, from, to),
            Which::ProcessBuffer => copy(&mut self.process_buffer, RECORD_BYTES, from, to),
        }
    }

    /// An element that an earlier change took away is passed over.
    fn set(&mut self, which: Which, at: usize, value: u64) {
        let byte = value as u8;
        match which {
            Which::Processes => put(&mut self.processes, at, value),
            Which::ThreadBuffer => put(&mut self.thread_buffer, at, byte),
            Which::ProcessBuffer => put(&mut self.process_buffer, at, byte),
            Which::Threads => {
                if let Some(thread) = self.threads.get_mut(at / THREAD_WORDS) {
                    *thread_word(thread, at % THREAD_WORDS) = value;
                }
            }
        }
    }
}

/// Copies so many elements; what lies outside is passed over.
fn copy<T: Copy>(table: &mut [T], size: usize, from: usize, to: usize) {
    if (from.max(to) + 1) * size <= table.len() {
        table.copy_within(from * size..(from + 1) * size, to * size);
    }
}

fn put<T>(table: &mut [T], at: usize, value: T) {
    if let Some(place) = table.get_mut(at) {
        *place = value;
    }
}

/// The tables with the changes made.
pub fn damaged(tables: &Tables<'_>, edits: &[Edit]) -> Tables<'static> {
    let mut parts = Parts::new(tables);
    for edit in edits {
        parts.apply(edit);
    }
    parts.tables()
}

/// A few random changes to these tables.
pub fn edits(tables: &Tables<'_>, random: &mut Random) -> Vec<Edit> {
    let count = 1 + random.below(3) / 2 + random.below(4) / 3;
    (0..count).map(|_| edit(tables, random)).collect()
}

fn edit(tables: &Tables<'_>, random: &mut Random) -> Edit {
    let tables_and_buffers = [
        Which::Processes,
        Which::Threads,
        Which::ThreadBuffer,
        Which::ProcessBuffer,
    ];
    let which = random.pick(&tables_and_buffers);
    match random.below(24) {
        0 => Edit::Resize(which, random.one_in(2)),
        1..=4 => edit_copy(which, tables, random),
        _ => edit_element(which, tables, random),
    }
}

/// One place or record over another, or behind the last record.
fn edit_copy(which: Which, tables: &Tables<'_>, random: &mut Random) -> Edit {
    let places = match which {
        Which::Processes => tables.processes().len() / PROCESS_WORDS,
        Which::Threads => tables.threads().len(),
        Which::ThreadBuffer => used(tables.thread_buffer()) + 1,
        Which::ProcessBuffer => used(tables.process_buffer()) + 1,
    };
    let to = match which {
        Which::ThreadBuffer | Which::ProcessBuffer if random.one_in(2) => places - 1,
        _ => random.below(places),
    };
    Edit::Copy(which, random.below(places), to)
}

/// How many records a buffer has.
fn used(buffer: &[u8]) -> usize {
    let last = buffer.iter().rposition(|&byte| byte != 0);
    last.map_or(0, |at| at / RECORD_BYTES + 1)
}

fn edit_element(which: Which, tables: &Tables<'_>, random: &mut Random) -> Edit {
    match which {
        Which::Processes => {
            let words = tables.processes();
            let at = random.below(words.len());
            Edit::Set(which, at, word(words[at], words, random))
        }
        Which::Threads => edit_thread(tables, random),
        Which::ThreadBuffer => edit_byte(which, tables.thread_buffer(), random),
        Which::ProcessBuffer => edit_byte(which, tables.process_buffer(), random),
    }
}

fn edit_thread(tables: &Tables<'_>, random: &mut Random) -> Edit {
    let threads = tables.threads();
    let words: Vec<u64> = threads
        .iter()
        .flat_map(|t| [t.id, t.process, t.mask.0, t.marks.0])
        .collect();
    let at = random.below(words.len());
    Edit::Set(Which::Threads, at, word(words[at], &words, random))
}

/// Another value for a word: near by, from elsewhere in the table, an id in the same slot of the hints, or any.
fn word(old: u64, table: &[u64], random: &mut Random) -> u64 {
    match random.below(6) {
        0 => 0,
        1 => random.below(3) as u64,
        2 => table[random.below(table.len())],
        3 => old ^ 1 << random.below(64),
        4 => old.wrapping_add(random.pick(&[1, HINTS as u64])),
        _ => random.next_u64(),
    }
}

/// Mostly among the used records.
fn edit_byte(which: Which, buffer: &[u8], random: &mut Random) -> Edit {
    let end = if random.one_in(6) {
        buffer.len()
    } else {
        ((used(buffer) + 1) * RECORD_BYTES).min(buffer.len())
    };
    let at = random.below(end);
    let value = match random.below(4) {
        0 => 0,
        1 => buffer[random.below(end)],
        2 => buffer[at] ^ 1 << random.below(8),
        _ => random.next_u64() as u8,
    };
    Edit::Set(which, at, value as u64)
}
