//! A method for each call.

use crate::limits::{ANSWER_WORDS, BUFFER_RECORDS, RECORD_BYTES, SIG_BLOCK};
use crate::raw;
use crate::{Action, Answer, Call, Errno, NewProcess, Next, Sent, SigSet, Tables, Taken, Way};
use crate::{ProcessId, Signal, Target, ThreadId};

/// Each call has its own answers, which the library's promises fix.
fn unexpected(answer: Answer) -> ! {
    unreachable!("no answer to this call: {answer:?}")
}

fn done(answer: Answer) {
    match answer {
        Answer::Done => (),
        other => unexpected(other),
    }
}

fn sent(answer: Answer) -> Sent {
    match answer {
        Answer::Sent(sent) => sent,
        other => unexpected(other),
    }
}

fn old_action(answer: Answer) -> Action {
    match answer {
        Answer::OldAction(action) => action,
        other => unexpected(other),
    }
}

fn old_mask(answer: Answer) -> SigSet {
    match answer {
        Answer::OldMask(mask) => mask,
        other => unexpected(other),
    }
}

/// The bytes of a slot.
fn record(buffer: &[u8], slot: usize) -> &[u8] {
    &buffer[slot * RECORD_BYTES..][..RECORD_BYTES]
}

impl Tables<'_> {
    /// One call as a value: its answer, or why it was refused, and then no table has changed. Every other method but
    /// `look_part` goes through here.
    ///
    /// ```
    /// use rrezhbuta::{Answer, Call, Errno, Tables, ThreadId};
    ///
    /// let mut tables = Tables::new();
    /// assert_eq!(tables.call(&Call::Clear), Ok(Answer::Done));
    /// assert_eq!(tables.call(&Call::EndThread { id: ThreadId(7) }), Err(Errno::ESRCH));
    /// ```
    pub fn call(&mut self, call: &Call) -> Result<Answer, Errno> {
        let mut words = [0; ANSWER_WORDS];
        match raw::call(self, &mut words, &call.numbers()) {
            0 => Ok(Answer::from_words(&words)),
            number => Err(Errno::from_number(number).expect("an errno of the papers")),
        }
    }

    /// Clears the whole store; only the lengths are checked.
    pub fn clear(&mut self) -> Result<(), Errno> {
        self.call(&Call::Clear).map(done)
    }

    /// Adds a process, running, with its first thread, each in the lowest free place.
    pub fn add_process(&mut self, process: NewProcess) -> Result<(), Errno> {
        self.call(&Call::AddProcess(process)).map(done)
    }

    /// Adds a thread to its creator's process, with its creator's mask.
    pub fn add_thread(&mut self, creator: ThreadId, id: ThreadId) -> Result<(), Errno> {
        self.call(&Call::AddThread { creator, id }).map(done)
    }

    /// Ends a process, with its threads and all that is pending for them.
    pub fn end_process(&mut self, id: ProcessId) -> Result<(), Errno> {
        self.call(&Call::EndProcess { id }).map(done)
    }

    /// Ends a thread; the last one of a process ends the process.
    pub fn end_thread(&mut self, id: ThreadId) -> Result<(), Errno> {
        self.call(&Call::EndThread { id }).map(done)
    }

    /// Process `by` sends a signal to a process or to a thread. Signal 0 only tests.
    pub fn kill(&mut self, by: ProcessId, to: Target, signal: Signal) -> Result<Sent, Errno> {
        self.call(&Call::Kill { by, to, signal }).map(sent)
    }

    /// As `kill`, with a value: what is kept is a record.
    ///
    /// ```
    /// use rrezhbuta::{NewProcess, ProcessId, Sent, Signal, Tables, Target, ThreadId};
    ///
    /// let (process, thread) = (ProcessId(100), ThreadId(200));
    /// let mut tables = Tables::new();
    /// tables.add_process(NewProcess { id: process, thread, ..NewProcess::default() })?;
    /// assert_eq!(tables.sigqueue(process, Target::Thread(process, thread), Signal(40), 7)?, Sent::Kept);
    /// # Ok::<(), rrezhbuta::Errno>(())
    /// ```
    pub fn sigqueue(
        &mut self,
        by: ProcessId,
        to: Target,
        signal: Signal,
        value: u64,
    ) -> Result<Sent, Errno> {
        let call = Call::Sigqueue {
            by,
            to,
            signal,
            value,
        };
        self.call(&call).map(sent)
    }

    /// The action of a signal.
    pub fn sigaction(&mut self, process: ProcessId, signal: Signal) -> Result<Action, Errno> {
        self.change_sigaction(process, signal, None)
    }

    /// Stores an action and answers the old one. What is ignored from now on is no longer pending. An action with an
    /// unknown flag is refused with EINVAL, and the old one stays.
    ///
    /// ```
    /// use rrezhbuta::{Action, Errno, NewProcess, ProcessId, SigSet, Signal, Tables, ThreadId};
    ///
    /// let process = ProcessId(100);
    /// let mut tables = Tables::new();
    /// tables.add_process(NewProcess { id: process, thread: ThreadId(200), ..NewProcess::default() })?;
    /// let handler = Action { handler: 5000, flags: 4, mask: SigSet(2048) };
    /// assert_eq!(tables.set_sigaction(process, Signal(40), handler)?, Action::default());
    /// let unknown = Action { flags: 8, ..handler };
    /// assert_eq!(tables.set_sigaction(process, Signal(40), unknown), Err(Errno::EINVAL));
    /// assert_eq!(tables.sigaction(process, Signal(40))?, handler);
    /// # Ok::<(), rrezhbuta::Errno>(())
    /// ```
    pub fn set_sigaction(
        &mut self,
        process: ProcessId,
        signal: Signal,
        action: Action,
    ) -> Result<Action, Errno> {
        self.change_sigaction(process, signal, Some(action))
    }

    fn change_sigaction(
        &mut self,
        process: ProcessId,
        signal: Signal,
        new: Option<Action>,
    ) -> Result<Action, Errno> {
        let call = Call::Sigaction {
            process,
            signal,
            new,
        };
        self.call(&call).map(old_action)
    }

    /// The mask of a thread.
    pub fn sigmask(&mut self, thread: ThreadId) -> Result<SigSet, Errno> {
        let (way, set) = (SIG_BLOCK, None);
        self.call(&Call::Sigmask { thread, way, set }).map(old_mask)
    }

    /// Changes the mask of a thread and answers the old one; KILL and STOP are left out.
    ///
    /// ```
    /// use rrezhbuta::{NewProcess, ProcessId, SigSet, Tables, ThreadId, Way};
    ///
    /// let (id, thread, mask) = (ProcessId(100), ThreadId(200), SigSet(6));
    /// let mut tables = Tables::new();
    /// tables.add_process(NewProcess { id, thread, mask, ..NewProcess::default() })?;
    /// assert_eq!(tables.set_sigmask(thread, Way::Unblock, SigSet(2))?, SigSet(6));
    /// assert_eq!(tables.sigmask(thread)?, SigSet(4));
    /// # Ok::<(), rrezhbuta::Errno>(())
    /// ```
    pub fn set_sigmask(
        &mut self,
        thread: ThreadId,
        way: Way,
        set: SigSet,
    ) -> Result<SigSet, Errno> {
        let (way, set) = (way as u32, Some(set));
        self.call(&Call::Sigmask { thread, way, set }).map(old_mask)
    }

    /// The signals that are pending for a thread or its process and that the thread blocks.
    pub fn sigpending(&mut self, thread: ThreadId) -> Result<SigSet, Errno> {
        match self.call(&Call::Sigpending { thread })? {
            Answer::PendingSet(set) => Ok(set),
            other => unexpected(other),
        }
    }

    /// The 32 bytes of the record that a thread takes next, a part of the buffer that holds it; empty for a mark, for
    /// nothing, and where the look is refused. `look` tells these apart.
    pub fn look_part(&self, thread: ThreadId) -> &[u8] {
        let slot = raw::look_slot(self, thread.0) as usize;
        match slot {
            0 => &[],
            1..=BUFFER_RECORDS => record(&self.thread_buffer, slot - 1),
            _ => record(&self.process_buffer, slot - 1 - BUFFER_RECORDS),
        }
    }

    /// What a thread would take next.
    pub fn look(&mut self, thread: ThreadId) -> Result<Next, Errno> {
        match self.call(&Call::Look { thread })? {
            Answer::Looked(next) => Ok(next),
            other => unexpected(other),
        }
    }

    /// The thread in the lowest place of a process that can take something.
    pub fn who(&mut self, process: ProcessId) -> Result<Option<ThreadId>, Errno> {
        match self.call(&Call::Who { process })? {
            Answer::Taker(thread) => Ok(thread),
            other => unexpected(other),
        }
    }

    /// A thread takes its next signal.
    ///
    /// ```
    /// use rrezhbuta::{Action, NewProcess, ProcessId, SigSet, Signal, Tables, Taken, Target, ThreadId};
    ///
    /// let (process, thread) = (ProcessId(100), ThreadId(200));
    /// let mut tables = Tables::new();
    /// tables.add_process(NewProcess { id: process, thread, ..NewProcess::default() })?;
    /// tables.set_sigaction(process, Signal::INT, Action { handler: 5000, ..Action::default() })?;
    /// tables.kill(process, Target::Process(process), Signal::INT)?;
    /// let Taken::Handler(delivery) = tables.take(thread)? else { panic!() };
    /// assert_eq!((delivery.handler, delivery.signal), (5000, Signal::INT));
    /// assert_eq!(tables.sigreturn(thread, delivery.saved)?, SigSet::of_signal(Signal::INT));
    /// # Ok::<(), rrezhbuta::Errno>(())
    /// ```
    pub fn take(&mut self, thread: ThreadId) -> Result<Taken, Errno> {
        match self.call(&Call::Take { thread })? {
            Answer::Taken(taken) => Ok(taken),
            other => unexpected(other),
        }
    }

    /// A thread returns from a handler: its mask becomes the saved one, and the mask before is answered.
    pub fn sigreturn(&mut self, thread: ThreadId, mask: SigSet) -> Result<SigSet, Errno> {
        self.call(&Call::Sigreturn { thread, mask }).map(old_mask)
    }
}
