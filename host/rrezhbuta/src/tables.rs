//! The four tables, the host's own or kept here.

use crate::limits::{BUFFER_BYTES, PROCESS_TABLE, THREAD_PLACES};
use crate::SigSet;
use std::ops::{Deref, DerefMut};

/// A place of the thread table: four words, and whoever keeps the table may have written any numbers there.
#[derive(Clone, Copy, Debug, Default, PartialEq, Eq, Hash)]
#[repr(C)]
pub struct Thread {
    /// Its id; 0 where the place is free.
    pub id: u64,
    /// The id of its process.
    pub process: u64,
    /// What it blocks.
    pub mask: SigSet,
    /// What is pending for it without a value.
    pub marks: SigSet,
}

impl Thread {
    /// What a free place holds.
    pub const FREE: Thread = Thread {
        id: 0,
        process: 0,
        mask: SigSet::EMPTY,
        marks: SigSet::EMPTY,
    };
}

/// One table: kept here, or lent by the host.
#[derive(Debug)]
pub enum Table<'a, T> {
    /// Kept here.
    Kept(Vec<T>),
    /// Lent by the host.
    Lent(&'a mut [T]),
}

impl<T> From<Vec<T>> for Table<'_, T> {
    fn from(table: Vec<T>) -> Self {
        Table::Kept(table)
    }
}

impl<'a, T> From<&'a mut [T]> for Table<'a, T> {
    fn from(table: &'a mut [T]) -> Self {
        Table::Lent(table)
    }
}

impl<T> Deref for Table<'_, T> {
    type Target = [T];

    fn deref(&self) -> &[T] {
        match self {
            Table::Kept(table) => table,
            Table::Lent(table) => table,
        }
    }
}

impl<T> DerefMut for Table<'_, T> {
    fn deref_mut(&mut self) -> &mut [T] {
        match self {
            Table::Kept(table) => table,
            Table::Lent(table) => table,
        }
    }
}

impl<T: PartialEq> PartialEq for Table<'_, T> {
    fn eq(&self, other: &Self) -> bool {
        self[..] == other[..]
    }
}

impl<T: Eq> Eq for Table<'_, T> {}

/// The four tables. Any lengths and any contents are safe: a call on tables that are not as they should be is refused
/// with EFAULT.
#[derive(Debug, PartialEq, Eq)]
pub struct Tables<'a> {
    pub(crate) processes: Table<'a, u64>,
    pub(crate) threads: Table<'a, Thread>,
    pub(crate) thread_buffer: Table<'a, u8>,
    pub(crate) process_buffer: Table<'a, u8>,
}

impl Default for Tables<'_> {
    fn default() -> Self {
        Tables::from_parts(
            vec![0; PROCESS_TABLE],
            vec![Thread::FREE; THREAD_PLACES],
            vec![0; BUFFER_BYTES],
            vec![0; BUFFER_BYTES],
        )
    }
}

impl Tables<'static> {
    /// Tables of the right lengths, cleared.
    pub fn new() -> Self {
        Tables::default()
    }
}

impl<'a> Tables<'a> {
    /// Tables from vectors, or from slices of a host that keeps its own: processes, threads, the thread buffer, the
    /// process buffer.
    ///
    /// ```
    /// use rrezhbuta::limits::{BUFFER_BYTES, PROCESS_TABLE, THREAD_PLACES};
    /// use rrezhbuta::{Errno, NewProcess, ProcessId, Tables, Thread, ThreadId};
    ///
    /// let mut processes = [0; PROCESS_TABLE];
    /// let mut threads = [Thread::FREE; THREAD_PLACES];
    /// let mut thread_buffer = [0; BUFFER_BYTES];
    /// let mut process_buffer = [0; BUFFER_BYTES];
    /// let mut tables = Tables::from_parts(
    ///     &mut processes[..],
    ///     &mut threads[..],
    ///     &mut thread_buffer[..],
    ///     &mut process_buffer[..],
    /// );
    /// let (id, thread) = (ProcessId(100), ThreadId(200));
    /// tables.add_process(NewProcess { id, thread, ..NewProcess::default() })?;
    /// assert_eq!((processes[0], threads[0].id), (100, 200));
    ///
    /// let mut short = Tables::from_parts(vec![], &mut threads[..], vec![], vec![]);
    /// assert_eq!(short.clear(), Err(Errno::EFAULT));
    /// # Ok::<(), Errno>(())
    /// ```
    pub fn from_parts(
        processes: impl Into<Table<'a, u64>>,
        threads: impl Into<Table<'a, Thread>>,
        thread_buffer: impl Into<Table<'a, u8>>,
        process_buffer: impl Into<Table<'a, u8>>,
    ) -> Self {
        Tables {
            processes: processes.into(),
            threads: threads.into(),
            thread_buffer: thread_buffer.into(),
            process_buffer: process_buffer.into(),
        }
    }

    /// A copy that is kept here, whoever keeps the tables.
    pub fn snapshot(&self) -> Tables<'static> {
        Tables::from_parts(
            self.processes.to_vec(),
            self.threads.to_vec(),
            self.thread_buffer.to_vec(),
            self.process_buffer.to_vec(),
        )
    }

    /// The process table, word by word.
    pub fn processes(&self) -> &[u64] {
        &self.processes
    }

    /// The process table, to be changed.
    pub fn processes_mut(&mut self) -> &mut [u64] {
        &mut self.processes
    }

    /// The thread table, place by place.
    pub fn threads(&self) -> &[Thread] {
        &self.threads
    }

    /// The thread table, to be changed.
    pub fn threads_mut(&mut self) -> &mut [Thread] {
        &mut self.threads
    }

    /// The buffer of records aimed at a thread.
    pub fn thread_buffer(&self) -> &[u8] {
        &self.thread_buffer
    }

    /// The same, to be changed.
    pub fn thread_buffer_mut(&mut self) -> &mut [u8] {
        &mut self.thread_buffer
    }

    /// The buffer of records aimed at a process.
    pub fn process_buffer(&self) -> &[u8] {
        &self.process_buffer
    }

    /// The same, to be changed.
    pub fn process_buffer_mut(&mut self) -> &mut [u8] {
        &mut self.process_buffer
    }
}
