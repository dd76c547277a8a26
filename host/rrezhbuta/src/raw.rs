//! The C boundary as it is, for a host that numbers its calls itself, and all the code of this crate that the compiler
//! cannot check.

#![allow(unsafe_code)]

use crate::{Tables, Thread};

/// A call as the C boundary takes it: its number, then six arguments of 32 bits (a to f) and three of 64 (x to z).
#[derive(Clone, Copy, Debug, Default, PartialEq, Eq, Hash)]
pub struct Numbers {
    /// The call.
    pub number: u32,
    /// a to f.
    pub narrow: [u32; 6],
    /// x to z.
    pub wide: [u64; 3],
}

extern "C" {
    fn rrezhbuta_call(
        processes: *mut u64,
        process_words: usize,
        thread_buffer: *mut u8,
        thread_bytes: usize,
        process_buffer: *mut u8,
        process_bytes: usize,
        answer: *mut u64,
        answer_words: usize,
        threads: *mut Thread,
        thread_places: usize,
        number: u32,
        a: u32,
        b: u32,
        c: u32,
        d: u32,
        e: u32,
        f: u32,
        x: u64,
        y: u64,
        z: u64,
    ) -> u64;

    fn rrezhbuta_look_slot(
        processes: *const u64,
        process_words: usize,
        thread_buffer: *const u8,
        thread_bytes: usize,
        process_buffer: *const u8,
        process_bytes: usize,
        threads: *const Thread,
        thread_places: usize,
        thread: u32,
    ) -> u64;
}

/// One call. Returns 0 with the answer's words in `answer`, or the errno with nothing written; an `answer` of under 12
/// words is 22 after 14.
///
/// ```
/// use rrezhbuta::raw::{call, Numbers};
/// use rrezhbuta::Tables;
///
/// let (mut tables, mut answer) = (Tables::new(), [7; 12]);
/// assert_eq!(call(&mut tables, &mut answer, &Numbers { number: 99, ..Numbers::default() }), 22);
/// assert_eq!(answer, [7; 12]);
/// ```
pub fn call(tables: &mut Tables<'_>, answer: &mut [u64], numbers: &Numbers) -> u64 {
    let Tables {
        processes,
        threads,
        thread_buffer,
        process_buffer,
    } = tables;
    let [a, b, c, d, e, f] = numbers.narrow;
    let [x, y, z] = numbers.wide;
    // SAFETY: each pointer is that of a live slice that is borrowed for the call alone and comes with its length; no
    // two overlap. The library reads and writes within the lengths, answers any contents, and keeps no pointer.
    unsafe {
        rrezhbuta_call(
            processes.as_mut_ptr(),
            processes.len(),
            thread_buffer.as_mut_ptr(),
            thread_buffer.len(),
            process_buffer.as_mut_ptr(),
            process_buffer.len(),
            answer.as_mut_ptr(),
            answer.len(),
            threads.as_mut_ptr(),
            threads.len(),
            numbers.number,
            a,
            b,
            c,
            d,
            e,
            f,
            x,
            y,
            z,
        )
    }
}

/// Where the record lies that a thread takes next: 0 for none, from 1 to `BUFFER_RECORDS` for a slot of the thread
/// buffer, from there on for a slot of the process buffer.
pub fn look_slot(tables: &Tables<'_>, thread: u32) -> u64 {
    // SAFETY: each pointer is that of a live slice that is borrowed for the call and comes with its length; the library
    // only reads, within the lengths, and keeps no pointer.
    unsafe {
        rrezhbuta_look_slot(
            tables.processes.as_ptr(),
            tables.processes.len(),
            tables.thread_buffer.as_ptr(),
            tables.thread_buffer.len(),
            tables.process_buffer.as_ptr(),
            tables.process_buffer.len(),
            tables.threads.as_ptr(),
            tables.threads.len(),
            thread,
        )
    }
}
