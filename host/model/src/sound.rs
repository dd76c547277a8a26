//! When a store is sound, clause by clause as document 01 has them. The rows may say anything.

use crate::rows::{Action, Process, Record, Rows, Thread};
use crate::rows::{BUFFER_RECORDS, PROCESS_PLACES, RECORD_LIMIT, THREAD_PLACES};
use crate::signal::{Set, DEFAULT, FLAGS, IGNORE, KILL, LAST, LAST_STANDARD, QUEUED, STOP};

/// The clause that a store breaks; the first that was met, where it breaks several.
#[derive(Clone, Copy, Debug, PartialEq, Eq)]
pub enum Unsound {
    /// A table or a buffer has another length.
    Length,
    /// A free place is not all zero.
    FreePlace,
    /// A live id is not 1 to 2^31 - 1.
    Id,
    /// Two live places of a table have one id.
    SameId,
    /// A user or session id is no 32-bit number, or stopped is neither 0 nor 1.
    Width,
    /// A thread belongs to no live process.
    Owner,
    /// A live process has no thread.
    NoThread,
    /// A mask, a mark or an action mask holds 9 or 19.
    Unmaskable,
    /// The action of 9 or 19 is not the default.
    FixedAction,
    /// An action has a flag that is not one of the four.
    Flags,
    /// A record is not laid out so, or names no signal that can be pending.
    Record,
    /// A record names no live process, or not the thread that its buffer asks for.
    Target,
    /// A process has over 32 records.
    Limit,
    /// A standard signal is pending twice in a queue.
    Twice,
    /// Something pending is ignored.
    Ignored,
}

impl Unsound {
    /// All of them.
    pub const ALL: [Unsound; 15] = [
        Unsound::Length,
        Unsound::FreePlace,
        Unsound::Id,
        Unsound::SameId,
        Unsound::Width,
        Unsound::Owner,
        Unsound::NoThread,
        Unsound::Unmaskable,
        Unsound::FixedAction,
        Unsound::Flags,
        Unsound::Record,
        Unsound::Target,
        Unsound::Limit,
        Unsound::Twice,
        Unsound::Ignored,
    ];
}

fn ensure(holds: bool, clause: Unsound) -> Result<(), Unsound> {
    if holds {
        Ok(())
    } else {
        Err(clause)
    }
}

fn ensure_id(id: u64, earlier: &[u64]) -> Result<(), Unsound> {
    ensure(id <= 2_147_483_647, Unsound::Id)?;
    ensure(!earlier.contains(&id), Unsound::SameId)
}

fn ensure_maskable(set: Set) -> Result<(), Unsound> {
    ensure(set.and(Set::UNMASKABLE).is_empty(), Unsound::Unmaskable)
}

fn ensure_heard(pending: Set, ignored: Set) -> Result<(), Unsound> {
    ensure(pending.and(ignored).is_empty(), Unsound::Ignored)
}

/// Is the store sound?
pub fn judge(rows: &Rows) -> Result<(), Unsound> {
    ensure_lengths(rows)?;
    let mut seen = Seen::default();
    for (place, process) in rows.processes.iter().enumerate() {
        seen.process(place, process)?;
    }
    for (place, thread) in rows.threads.iter().enumerate() {
        seen.thread(place, thread)?;
    }
    seen.ensure_peopled()?;
    for record in &rows.thread_records {
        seen.thread_record(record)?;
    }
    for record in &rows.process_records {
        seen.process_record(record)?;
    }
    Ok(())
}

fn ensure_lengths(rows: &Rows) -> Result<(), Unsound> {
    let tables_fit = rows.processes.len() == PROCESS_PLACES && rows.threads.len() == THREAD_PLACES;
    let buffers = [&rows.thread_records, &rows.process_records];
    let buffers_fit = buffers.iter().all(|b| b.len() <= BUFFER_RECORDS);
    ensure(tables_fit && buffers_fit, Unsound::Length)
}

/// The signals that the actions ignore, if the actions are sound.
fn ignored_by(actions: &[Action; LAST as usize]) -> Result<Set, Unsound> {
    let (mut chosen, mut default) = (0, 0);
    for (i, action) in actions.iter().enumerate() {
        ensure_maskable(action.mask)?;
        ensure(action.flags & !FLAGS == 0, Unsound::Flags)?;
        chosen |= ((action.handler == IGNORE) as u64) << i;
        default |= ((action.handler == DEFAULT) as u64) << i;
    }
    Ok(Set(chosen).or(Set(default).and(Set::IGNORING)))
}

fn ensure_widths(process: &Process) -> Result<(), Unsound> {
    let users = [process.real, process.effective, process.saved];
    let all = users.iter().chain([&process.session]);
    let fit = all.copied().all(|id| id <= u32::MAX as u64);
    ensure(fit && process.stopped <= 1, Unsound::Width)
}

/// What the places and records judged so far have said; 0 for the ids of free places.
struct Seen {
    processes: [u64; PROCESS_PLACES],
    ignored: [Set; PROCESS_PLACES],
    peopled: [bool; PROCESS_PLACES],
    records: [usize; PROCESS_PLACES],
    process_queues: [Set; PROCESS_PLACES],
    threads: [u64; THREAD_PLACES],
    owners: [usize; THREAD_PLACES],
    thread_queues: [Set; THREAD_PLACES],
}

impl Default for Seen {
    fn default() -> Seen {
        Seen {
            processes: [0; PROCESS_PLACES],
            ignored: [Set::EMPTY; PROCESS_PLACES],
            peopled: [false; PROCESS_PLACES],
            records: [0; PROCESS_PLACES],
            process_queues: [Set::EMPTY; PROCESS_PLACES],
            threads: [0; THREAD_PLACES],
            owners: [0; THREAD_PLACES],
            thread_queues: [Set::EMPTY; THREAD_PLACES],
        }
    }
}

impl Seen {
    fn process(&mut self, place: usize, process: &Process) -> Result<(), Unsound> {
        if process.id == 0 {
            return ensure(*process == Process::FREE, Unsound::FreePlace);
        }
        ensure_id(process.id, &self.processes[..place])?;
        ensure_widths(process)?;
        ensure_maskable(process.marks)?;
        let fixed = [KILL, STOP].map(|s| *process.action(s));
        ensure(fixed == [Action::DEFAULT; 2], Unsound::FixedAction)?;
        let ignored = ignored_by(&process.actions)?;
        ensure_heard(process.marks, ignored)?;
        self.processes[place] = process.id;
        self.ignored[place] = ignored;
        self.process_queues[place] = process.marks;
        Ok(())
    }

    fn thread(&mut self, place: usize, thread: &Thread) -> Result<(), Unsound> {
        if thread.id == 0 {
            return ensure(*thread == Thread::default(), Unsound::FreePlace);
        }
        ensure_id(thread.id, &self.threads[..place])?;
        let owner = self.owner(thread.process).ok_or(Unsound::Owner)?;
        ensure_maskable(thread.mask.or(thread.marks))?;
        ensure_heard(thread.marks, self.ignored[owner])?;
        self.threads[place] = thread.id;
        self.owners[place] = owner;
        self.peopled[owner] = true;
        self.thread_queues[place] = thread.marks;
        Ok(())
    }

    fn ensure_peopled(&self) -> Result<(), Unsound> {
        let mut places = self.processes.iter().zip(self.peopled);
        let all = places.all(|(&id, peopled)| id == 0 || peopled);
        ensure(all, Unsound::NoThread)
    }

    fn owner(&self, process: u64) -> Option<usize> {
        let place = self.processes.iter().position(|&id| id == process);
        place.filter(|_| process != 0)
    }

    fn thread_record(&mut self, record: &Record) -> Result<(), Unsound> {
        let owner = self.record(record)?;
        let place = self
            .threads
            .iter()
            .position(|&id| id == record.thread as u64)
            .filter(|&place| record.thread != 0 && self.owners[place] == owner)
            .ok_or(Unsound::Target)?;
        arrive(&mut self.thread_queues[place], record.signal)
    }

    fn process_record(&mut self, record: &Record) -> Result<(), Unsound> {
        let owner = self.record(record)?;
        ensure(record.thread == 0, Unsound::Target)?;
        arrive(&mut self.process_queues[owner], record.signal)
    }

    /// What both buffers ask of a record; the place of its process.
    fn record(&mut self, record: &Record) -> Result<usize, Unsound> {
        let Record { signal, code, .. } = *record;
        let named = (1..=LAST).contains(&signal) && signal != KILL && signal != STOP;
        ensure(named && code == QUEUED, Unsound::Record)?;
        let owner = self.owner(record.process as u64).ok_or(Unsound::Target)?;
        ensure(!self.ignored[owner].has(signal), Unsound::Ignored)?;
        self.records[owner] += 1;
        ensure(self.records[owner] <= RECORD_LIMIT, Unsound::Limit)?;
        Ok(owner)
    }
}

/// A signal is pending in a queue as well; a standard one only once.
fn arrive(queue: &mut Set, signal: u32) -> Result<(), Unsound> {
    let twice = signal <= LAST_STANDARD && queue.has(signal);
    *queue = queue.or(Set::of(&[signal]));
    ensure(!twice, Unsound::Twice)
}
