//! What a thread takes next, and taking it.

use crate::call::{Answer, Next};
use crate::model::{Model, Slot};
use crate::rows::{Action, Record, Thread};
use crate::settings::queues;
use crate::signal::{outcome, Outcome, Set};
use crate::signal::{DEFAULT, ILL, NODEFER, RESETHAND, SIGINFO, TRAP};
use crate::store::Queue;

/// What is next: a record where there is a slot, else a mark.
#[derive(Clone, Copy)]
struct Found {
    queue: Queue,
    signal: u32,
    slot: Option<Slot>,
}

/// RESETHAND: the handler number and SIGINFO go, the rest stays.
fn reset(action: Action) -> Action {
    Action {
        handler: DEFAULT,
        flags: action.flags & !SIGINFO,
        mask: action.mask,
    }
}

impl Model {
    /// The lowest unblocked signal; at equal numbers the thread's queue goes first, and in a queue the oldest record
    /// before the mark.
    fn next(&self, thread: &Thread) -> Option<Found> {
        let owner = self.process(thread.process as u32).expect("a live owner");
        if owner.stopped != 0 {
            return None;
        }
        let [own, shared] = queues(thread);
        let in_own = self.pending_in(own).less(thread.mask);
        let in_shared = self.pending_in(shared).less(thread.mask);
        let signal = in_own.or(in_shared).lowest()?;
        let queue = if in_own.has(signal) { own } else { shared };
        Some(Found {
            queue,
            signal,
            slot: self.oldest(queue, signal),
        })
    }

    /// Where the record lies that a look hands back; none for a mark, for nothing and for a thread that is not live.
    pub fn look_slot(&self, thread: u32) -> Option<Slot> {
        self.next(self.thread(thread).ok()?)?.slot
    }

    /// The signal that a thread would take next; none for nothing and for a thread that is not live.
    pub fn next_signal(&self, thread: u32) -> Option<u32> {
        Some(self.next(self.thread(thread).ok()?)?.signal)
    }

    pub(crate) fn look(&self, thread: u32) -> Result<Answer, u32> {
        let next = match self.next(self.thread(thread)?) {
            None => Next::Nothing,
            Some(Found {
                slot: Some(slot), ..
            }) => Next::Record(self.records(slot.buffer)[slot.index]),
            Some(Found { queue, signal, .. }) => Next::Mark {
                process: queue.process,
                thread: queue.thread,
                signal,
            },
        };
        Ok(Answer::Looked(next))
    }

    pub(crate) fn who(&self, process: u32) -> Result<Answer, u32> {
        self.process(process)?;
        let mut threads = self.rows.threads.iter();
        let taker = threads.find(|t| t.process == process as u64 && self.next(t).is_some());
        Ok(taker.map_or(Answer::NoneCan, |t| Answer::CanTake(t.id as u32)))
    }

    pub(crate) fn take(&mut self, thread: u32) -> Result<Answer, u32> {
        let place = self.thread_place(thread)?;
        let Some(found) = self.next(&self.rows.threads[place]) else {
            return Ok(Answer::Nothing);
        };
        let record = self.remove(found);
        let process = found.queue.process;
        let action = *self.process(process)?.action(found.signal);
        if action.handler == DEFAULT {
            return Ok(self.default_outcome(process, found.signal));
        }
        Ok(self.run_handler(place, process, record, action))
    }

    /// What is next leaves its queue; a mark is answered as a record of its queue and signal alone.
    fn remove(&mut self, found: Found) -> Record {
        let Found {
            queue,
            signal,
            slot,
        } = found;
        if let Some(slot) = slot {
            return self.records_mut(slot.buffer).remove(slot.index);
        }
        let marks = self.marks(queue).less(Set::of(&[signal]));
        self.set_marks(queue, marks);
        Record {
            process: queue.process,
            thread: queue.thread,
            signal,
            ..Record::default()
        }
    }

    fn default_outcome(&mut self, process: u32, signal: u32) -> Answer {
        match outcome(signal) {
            Outcome::Stop => {
                self.process_mut(process).stopped = 1;
                Answer::Stop(signal)
            }
            Outcome::End => {
                self.remove_process(process);
                Answer::End(signal)
            }
            Outcome::Continue | Outcome::Ignore => Answer::NoAction(signal),
        }
    }

    fn run_handler(
        &mut self,
        place: usize,
        process: u32,
        record: Record,
        action: Action,
    ) -> Answer {
        let signal = record.signal;
        let thread = &mut self.rows.threads[place];
        let saved = thread.mask;
        let mut mask = saved.or(action.mask);
        if action.flags & NODEFER == 0 {
            mask = mask.or(Set::of(&[signal]));
        }
        thread.mask = mask.less(Set::UNMASKABLE);
        if action.flags & RESETHAND != 0 && signal != ILL && signal != TRAP {
            self.store_action(process, signal, reset(action));
        }
        Answer::Handler {
            handler: action.handler,
            signal,
            record,
            flags: action.flags,
            saved,
        }
    }
}
