//! The proved check of the four lent tables, from the static library, and a plain Rust check of the same clauses beside
//! it.

/// The capacities, offsets and numbers, from the one file that names them.
pub use rrezhbuta_limits as limits;

pub mod plain;
pub mod samples;

extern "C" {
    fn rrezhbuta_sound(
        processes: *const u64,
        process_words: usize,
        threads: *const u64,
        thread_words: usize,
        thread_buffer: *const u8,
        thread_bytes: usize,
        process_buffer: *const u8,
        process_bytes: usize,
    ) -> bool;
}

/// The four tables as a host lends them.
#[derive(Clone)]
pub struct Tables {
    pub processes: Vec<u64>,
    pub threads: Vec<u64>,
    pub thread_buffer: Vec<u8>,
    pub process_buffer: Vec<u8>,
}

/// What the proved library says of the tables: any lengths and any contents are answered.
pub fn is_sound(tables: &Tables) -> bool {
    // SAFETY: each pointer is that of a live slice and comes with its length; the library only reads.
    unsafe {
        rrezhbuta_sound(
            tables.processes.as_ptr(),
            tables.processes.len(),
            tables.threads.as_ptr(),
            tables.threads.len(),
            tables.thread_buffer.as_ptr(),
            tables.thread_buffer.len(),
            tables.process_buffer.as_ptr(),
            tables.process_buffer.len(),
        )
    }
}
