//! What every call needs of the store: who is live, what is pending where, and the removals that several calls share.

use crate::errno::ESRCH;
use crate::model::{Buffer, Model, Slot};
use crate::rows::{Process, Record, Thread};
use crate::signal::Set;

/// One thread's or one process's queue.
#[derive(Clone, Copy, Debug, PartialEq, Eq)]
pub(crate) struct Queue {
    pub process: u32,
    /// 0 for the process's own.
    pub thread: u32,
}

impl Queue {
    pub fn buffer(self) -> Buffer {
        if self.thread == 0 {
            Buffer::Process
        } else {
            Buffer::Thread
        }
    }

    fn holds(self, record: &Record) -> bool {
        record.process == self.process && record.thread == self.thread
    }
}

impl Model {
    /// The place of a live process.
    pub(crate) fn process_place(&self, id: u32) -> Result<usize, u32> {
        let place = self.rows.processes.iter().position(|p| p.id == id as u64);
        place.filter(|_| id != 0).ok_or(ESRCH)
    }

    /// The place of a live thread.
    pub(crate) fn thread_place(&self, id: u32) -> Result<usize, u32> {
        let place = self.rows.threads.iter().position(|t| t.id == id as u64);
        place.filter(|_| id != 0).ok_or(ESRCH)
    }

    pub(crate) fn process(&self, id: u32) -> Result<&Process, u32> {
        Ok(&self.rows.processes[self.process_place(id)?])
    }

    pub(crate) fn thread(&self, id: u32) -> Result<&Thread, u32> {
        Ok(&self.rows.threads[self.thread_place(id)?])
    }

    /// The process of a live process id: a thread of a sound store has one.
    pub(crate) fn process_mut(&mut self, id: u32) -> &mut Process {
        let place = self.process_place(id).expect("a live process");
        &mut self.rows.processes[place]
    }

    pub(crate) fn records(&self, buffer: Buffer) -> &[Record] {
        match buffer {
            Buffer::Thread => &self.rows.thread_records,
            Buffer::Process => &self.rows.process_records,
        }
    }

    pub(crate) fn records_mut(&mut self, buffer: Buffer) -> &mut Vec<Record> {
        match buffer {
            Buffer::Thread => &mut self.rows.thread_records,
            Buffer::Process => &mut self.rows.process_records,
        }
    }

    /// The marks of a live queue.
    pub(crate) fn marks(&self, queue: Queue) -> Set {
        let marks = match queue.buffer() {
            Buffer::Thread => self.thread(queue.thread).map(|t| t.marks),
            Buffer::Process => self.process(queue.process).map(|p| p.marks),
        };
        marks.expect("a live queue")
    }

    pub(crate) fn set_marks(&mut self, queue: Queue, marks: Set) {
        match queue.buffer() {
            Buffer::Thread => {
                let place = self.thread_place(queue.thread).expect("a live thread");
                self.rows.threads[place].marks = marks;
            }
            Buffer::Process => self.process_mut(queue.process).marks = marks,
        }
    }

    /// The signals pending in a live queue, as a mark or as a record.
    pub(crate) fn pending_in(&self, queue: Queue) -> Set {
        let records = self.records(queue.buffer());
        records
            .iter()
            .filter(|r| queue.holds(r))
            .fold(self.marks(queue), |set, r| set.or(Set::of(&[r.signal])))
    }

    /// Where the oldest record of a signal in a queue lies.
    pub(crate) fn oldest(&self, queue: Queue, signal: u32) -> Option<Slot> {
        let buffer = queue.buffer();
        let mut records = self.records(buffer).iter();
        let index = records.position(|r| queue.holds(r) && r.signal == signal)?;
        Some(Slot { buffer, index })
    }

    /// How many records a process has pending, its threads' queues counted in.
    pub(crate) fn record_count(&self, process: u32) -> usize {
        let rows = &self.rows;
        let records = rows.thread_records.iter().chain(&rows.process_records);
        records.filter(|r| r.process == process).count()
    }

    /// The signals leave all queues of a process.
    pub(crate) fn discard(&mut self, process: u32, signals: Set) {
        let owner = self.process_mut(process);
        owner.marks = owner.marks.less(signals);
        for thread in &mut self.rows.threads {
            if thread.process == process as u64 {
                thread.marks = thread.marks.less(signals);
            }
        }
        for buffer in [Buffer::Thread, Buffer::Process] {
            self.records_mut(buffer)
                .retain(|r| r.process != process || !signals.has(r.signal));
        }
    }

    /// The process goes with its threads and all that is pending for them.
    pub(crate) fn remove_process(&mut self, id: u32) {
        *self.process_mut(id) = Process::FREE;
        for thread in &mut self.rows.threads {
            if thread.process == id as u64 {
                *thread = Thread::default();
            }
        }
        for buffer in [Buffer::Thread, Buffer::Process] {
            self.records_mut(buffer).retain(|r| r.process != id);
        }
    }
}
