//! Tables to try a check on: sound ones as full as asked, and damage to them.

use crate::limits::*;
use crate::Tables;
use rrezhbuta_ids::{Family, HINTS};

/// Numbers from a seed (xorshift).
pub struct Numbers(u64);

impl Numbers {
    pub fn new(seed: u64) -> Numbers {
        Numbers(seed | 1)
    }

    pub fn next(&mut self) -> u64 {
        self.0 ^= self.0 << 13;
        self.0 ^= self.0 >> 7;
        self.0 ^= self.0 << 17;
        self.0
    }

    pub fn below(&mut self, n: usize) -> usize {
        (self.next() >> 11) as usize % n
    }

    pub fn pick<T: Copy>(&mut self, list: &[T]) -> T {
        list[self.below(list.len())]
    }

    fn shuffled<T>(&mut self, mut list: Vec<T>) -> Vec<T> {
        for n in (1..list.len()).rev() {
            list.swap(n, self.below(n + 1));
        }
        list
    }
}

/// How full the tables are that a check is measured on.
pub const FILLINGS: [(&str, fn() -> Tables); 3] = [
    ("empty", Tables::empty),
    ("half full", Tables::half),
    ("full", Tables::full),
];

impl Tables {
    /// All zero: no process.
    pub fn empty() -> Tables {
        Tables {
            processes: vec![0; PROCESS_TABLE],
            threads: vec![0; THREAD_TABLE],
            thread_buffer: vec![0; BUFFER_BYTES],
            process_buffer: vec![0; BUFFER_BYTES],
        }
    }

    /// Every other place of each table, and half the records that its processes may have.
    pub fn half() -> Tables {
        Tables::filled(2, RECORD_LIMIT / 2, &Ids::plain())
    }

    /// Every place of each table, and all the records that its processes may have.
    pub fn full() -> Tables {
        Tables::filled(1, RECORD_LIMIT, &Ids::plain())
    }

    /// One place in so many, with the ids of that place, and so many records for each process.
    pub fn filled(step: usize, records: usize, ids: &Ids) -> Tables {
        let mut tables = Tables::empty();
        let mut sent = Sent::default();
        let share = THREAD_PLACES / PROCESS_PLACES;
        for place in (0..PROCESS_PLACES).step_by(step) {
            let process = ids.processes[place];
            tables.add_process(place, process);
            for thread in place * share..(place + 1) * share {
                tables.add_thread(thread, ids.threads[thread], process);
            }
            for k in 0..records {
                let thread = ids.threads[place * share + k / 2 % share];
                tables.add_record(&mut sent, process, thread, k);
            }
        }
        tables
    }

    fn add_process(&mut self, place: usize, id: u32) {
        let p = &mut self.processes[place * PROCESS_WORDS..][..PROCESS_WORDS];
        p[PROCESS_ID] = id as u64;
        p[PROCESS_REAL..=PROCESS_SESSION].fill(1000 + place as u64);
        p[PROCESS_STOPPED] = place as u64 % 2;
        p[PROCESS_MARKS] = marks(place);
        for signal in (1..=SIGNALS).filter(|&s| s != SIGKILL && s != SIGSTOP) {
            let at = HEAD_WORDS + (signal as usize - 1) * ACTION_WORDS;
            p[at + ACTION_HANDLER] = 0x4000 + signal as u64;
            p[at + ACTION_FLAGS] = SA_SIGINFO | SA_RESTART;
            p[at + ACTION_MASK] = 1 << 11;
        }
    }

    fn add_thread(&mut self, place: usize, id: u32, process: u32) {
        let t = &mut self.threads[place * THREAD_WORDS..][..THREAD_WORDS];
        t[THREAD_ID] = id as u64;
        t[THREAD_PROCESS] = process as u64;
        t[THREAD_MASK] = 1 << 40;
        t[THREAD_MARKS] = marks(place);
    }

    /// The k-th record of a process, to the process itself or to one of its threads in turn.
    fn add_record(&mut self, sent: &mut Sent, process: u32, thread: u32, k: usize) {
        let (buffer, used, to) = if k % 2 == 0 {
            (&mut self.process_buffer, &mut sent.to_processes, 0)
        } else {
            (&mut self.thread_buffer, &mut sent.to_threads, thread)
        };
        // every other signal is a standard one, each once in a queue, 1 to 8 of them; marks have others
        let signal = if k % 4 < 2 {
            1 + k as u32 / 4
        } else {
            LAST_STANDARD + 1 + k as u32
        };
        put(buffer, *used, RECORD_PROCESS, process);
        put(buffer, *used, RECORD_THREAD, to);
        put(buffer, *used, RECORD_SIGNAL, signal);
        put(buffer, *used, RECORD_CODE, SI_QUEUE);
        put(buffer, *used, RECORD_VALUE, k as u32);
        *used += 1;
    }

    /// One word or byte changed, often into something that another place holds, or one table of another length.
    pub fn damage(&mut self, numbers: &mut Numbers) {
        match numbers.below(32) {
            0 => self.change_length(numbers),
            1..=12 => damage_word(&mut self.processes, numbers),
            13..=20 => damage_word(&mut self.threads, numbers),
            21..=26 => damage_byte(&mut self.thread_buffer, numbers),
            _ => damage_byte(&mut self.process_buffer, numbers),
        }
    }

    /// The process has another id, wherever it is named.
    pub fn rename_process(&mut self, from: u32, to: u32) {
        rename_word(&mut self.processes, PROCESS_WORDS, PROCESS_ID, from, to);
        rename_word(&mut self.threads, THREAD_WORDS, THREAD_PROCESS, from, to);
        rename_field(&mut self.thread_buffer, RECORD_PROCESS, from, to);
        rename_field(&mut self.process_buffer, RECORD_PROCESS, from, to);
    }

    /// The thread has another id, wherever it is named.
    pub fn rename_thread(&mut self, from: u32, to: u32) {
        rename_word(&mut self.threads, THREAD_WORDS, THREAD_ID, from, to);
        rename_field(&mut self.thread_buffer, RECORD_THREAD, from, to);
    }

    fn change_length(&mut self, numbers: &mut Numbers) {
        let shorter = numbers.below(2) == 0;
        match numbers.below(4) {
            0 => change_length(&mut self.processes, shorter),
            1 => change_length(&mut self.threads, shorter),
            2 => change_length(&mut self.thread_buffer, shorter),
            _ => change_length(&mut self.process_buffer, shorter),
        }
    }
}

/// How many records each buffer has.
#[derive(Default)]
struct Sent {
    to_threads: usize,
    to_processes: usize,
}

/// The ids of the places, in their order, and behind these some that nobody has.
pub struct Ids {
    pub processes: Vec<u32>,
    pub threads: Vec<u32>,
}

impl Ids {
    fn plain() -> Ids {
        Ids {
            processes: (100..).take(PROCESS_PLACES).collect(),
            threads: (100_000..).take(THREAD_PLACES).collect(),
        }
    }

    /// Of two families, in any order, and as many spare ones as are in use.
    pub fn of(processes: Family, threads: Family, numbers: &mut Numbers) -> Ids {
        Ids {
            processes: numbers.shuffled(processes.ids(2 * PROCESS_PLACES)),
            threads: numbers.shuffled(threads.ids(2 * THREAD_PLACES)),
        }
    }

    /// Each has the number of its place for its first slot, and those that nobody has are these numbers: the hint there
    /// is the very number that is looked for.
    pub fn beside_places() -> Ids {
        let of = |places: usize| {
            let places = places as u32;
            (HINTS..HINTS + places).chain(1..places).collect()
        };
        Ids {
            processes: of(PROCESS_PLACES),
            threads: of(THREAD_PLACES),
        }
    }

    /// Those that nobody has.
    pub fn spare(&self) -> (&[u32], &[u32]) {
        let (processes, threads) = (&self.processes, &self.threads);
        (&processes[PROCESS_PLACES..], &threads[THREAD_PLACES..])
    }
}

/// Writes a field of four bytes of the record in that slot.
pub fn put(buffer: &mut [u8], slot: usize, field: usize, number: u32) {
    buffer[slot * RECORD_BYTES + field..][..4].copy_from_slice(&number.to_le_bytes());
}

/// Reads a field of four bytes of the record in that slot.
pub fn get(buffer: &[u8], slot: usize, field: usize) -> u32 {
    let bytes = &buffer[slot * RECORD_BYTES + field..][..4];
    u32::from_le_bytes(bytes.try_into().expect("four bytes"))
}

/// How many records a buffer has, up to the first free slot.
pub fn used(buffer: &[u8]) -> usize {
    (0..BUFFER_RECORDS)
        .find(|&slot| get(buffer, slot, RECORD_PROCESS) == 0)
        .unwrap_or(BUFFER_RECORDS)
}

/// Marks of standard signals that no sample record names.
fn marks(place: usize) -> u64 {
    (1 << (SIGTSTP - 1)) | (1 << (SIGTTIN - 1)) | ((place as u64 % 16) << (SIGTTOU - 1))
}

fn change_length<T: Default>(table: &mut Vec<T>, shorter: bool) {
    if shorter {
        table.pop();
    } else {
        table.push(T::default());
    }
}

fn rename_word(table: &mut [u64], words: usize, field: usize, from: u32, to: u32) {
    let places = table.chunks_exact_mut(words).map(|place| &mut place[field]);
    places
        .filter(|id| **id == from as u64)
        .for_each(|id| *id = to as u64);
}

fn rename_field(buffer: &mut [u8], field: usize, from: u32, to: u32) {
    for slot in 0..used(buffer) {
        if get(buffer, slot, field) == from {
            put(buffer, slot, field, to);
        }
    }
}

fn damage_word(table: &mut [u64], numbers: &mut Numbers) {
    let at = numbers.below(table.len());
    table[at] = match numbers.below(6) {
        0 => 0,
        1 => 1,
        2 => table[numbers.below(table.len())],
        3 => table[at] ^ (1 << numbers.below(64)),
        4 => table[at].wrapping_add(1),
        _ => numbers.next(),
    };
}

fn damage_byte(buffer: &mut [u8], numbers: &mut Numbers) {
    // mostly where the records are
    let at = numbers.below(buffer.len()) >> numbers.below(6);
    buffer[at] = match numbers.below(4) {
        0 => 0,
        1 => buffer[numbers.below(buffer.len())],
        2 => buffer[at] ^ (1 << numbers.below(8)),
        _ => numbers.next() as u8,
    };
}
