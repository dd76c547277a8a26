//! Sends: with a value or without, to a process or to one of its threads.

use crate::call::Answer;
use crate::errno::{EAGAIN, EINVAL, EPERM, ESRCH};
use crate::model::Model;
use crate::rows::{Process, Record, RECORD_LIMIT};
use crate::signal::{Set, CONT, KILL, LAST, LAST_STANDARD, QUEUED, STOP, TSTP, TTIN, TTOU};
use crate::store::Queue;

fn may_signal(sender: &Process, target: &Process, signal: u32) -> bool {
    let is_targets = |user| user == target.real || user == target.saved;
    sender.effective == 0
        || is_targets(sender.real)
        || is_targets(sender.effective)
        || signal == CONT && sender.session == target.session
}

impl Model {
    /// A value makes it a queued send.
    pub(crate) fn send(
        &mut self,
        by: u32,
        to: u32,
        thread: u32,
        signal: u32,
        value: Option<u64>,
    ) -> Result<Answer, u32> {
        if signal > LAST {
            return Err(EINVAL);
        }
        let sender = self.process(by)?;
        let target = self.process(to)?;
        if thread != 0 && self.thread(thread)?.process != to as u64 {
            return Err(ESRCH);
        }
        if !may_signal(sender, target, signal) {
            return Err(EPERM);
        }
        let record = Record {
            process: to,
            thread,
            signal,
            code: QUEUED,
            sender: by,
            uid: sender.real as u32,
            value: value.unwrap_or(0),
        };
        match signal {
            0 => Ok(Answer::Tested),
            KILL | STOP => Ok(self.act(to, signal)),
            _ => self.deliver(record, value.is_some()),
        }
    }

    /// Step 1.
    fn act(&mut self, to: u32, signal: u32) -> Answer {
        if signal == KILL {
            self.remove_process(to);
        } else {
            self.discard(to, Set::of(&[CONT]));
            self.process_mut(to).stopped = 1;
        }
        Answer::Acted
    }

    /// Steps 2 to 5. Step 2 removes nothing that steps 3 and 4 ask about, so these are judged first, and errno 11
    /// before anything changes.
    fn deliver(&mut self, record: Record, queued: bool) -> Result<Answer, u32> {
        let (to, signal) = (record.process, record.signal);
        let queue = Queue {
            process: to,
            thread: record.thread,
        };
        let dropped = self.process(to)?.action(signal).ignores(signal);
        let absorbed = self.absorbs(queue, signal, queued);
        let needs_record = queued && !dropped && !absorbed;
        if needs_record && self.record_count(to) >= RECORD_LIMIT {
            return Err(EAGAIN);
        }
        self.job_control(to, signal);
        if dropped {
            return Ok(Answer::Dropped);
        }
        if absorbed {
            return Ok(Answer::Absorbed);
        }
        if queued {
            self.records_mut(queue.buffer()).push(record);
            return Ok(Answer::Kept);
        }
        let marks = self.marks(queue).or(Set::of(&[signal]));
        self.set_marks(queue, marks);
        Ok(Answer::Marked)
    }

    /// A standard signal that is pending in the queue, or a plain send whose mark is set there.
    fn absorbs(&self, queue: Queue, signal: u32, queued: bool) -> bool {
        if signal <= LAST_STANDARD {
            return self.pending_in(queue).has(signal);
        }
        !queued && self.marks(queue).has(signal)
    }

    /// Step 2.
    fn job_control(&mut self, to: u32, signal: u32) {
        match signal {
            TSTP | TTIN | TTOU => self.discard(to, Set::of(&[CONT])),
            CONT => {
                self.discard(to, Set::STOPPING);
                self.process_mut(to).stopped = 0;
            }
            _ => {}
        }
    }
}
