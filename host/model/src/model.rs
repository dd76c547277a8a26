//! The model: one call after another on a sound store.

use crate::call::{Answer, Call};
use crate::rows::Rows;
use crate::sound::{judge, Unsound};

/// Which of the two buffers.
#[derive(Clone, Copy, Debug, PartialEq, Eq)]
pub enum Buffer {
    /// Of records aimed at a thread.
    Thread,
    /// Of records aimed at a process.
    Process,
}

/// Where a record lies.
#[derive(Clone, Copy, Debug, PartialEq, Eq)]
pub struct Slot {
    /// The buffer.
    pub buffer: Buffer,
    /// How many records come before it there.
    pub index: usize,
}

/// The layer's state and its calls.
#[derive(Clone, Debug, PartialEq, Eq)]
pub struct Model {
    pub(crate) rows: Rows,
}

impl Default for Model {
    fn default() -> Model {
        Model::new()
    }
}

impl Model {
    /// A cleared store.
    pub fn new() -> Model {
        Model {
            rows: Rows::cleared(),
        }
    }

    /// The store that the rows say, if they are sound.
    pub fn from_rows(rows: Rows) -> Result<Model, Unsound> {
        judge(&rows)?;
        Ok(Model { rows })
    }

    /// The state in plain rows.
    pub fn rows(&self) -> &Rows {
        &self.rows
    }

    /// Judges the present state, every clause of it.
    pub fn judge(&self) -> Result<(), Unsound> {
        judge(&self.rows)
    }

    /// One call: its answer, or the errno of its refusal, which changes nothing. The store is sound, so 14 is never
    /// given.
    pub fn call(&mut self, call: &Call) -> Result<Answer, u32> {
        match *call {
            Call::Clear => Ok(self.clear()),
            Call::AddProcess(ref new) => self.add_process(new),
            Call::AddThread { creator, id } => self.add_thread(creator, id),
            Call::EndProcess { id } => self.end_process(id),
            Call::EndThread { id } => self.end_thread(id),
            Call::Kill {
                by,
                to,
                thread,
                signal,
            } => self.send(by, to, thread, signal, None),
            Call::Sigqueue {
                by,
                to,
                thread,
                signal,
                value,
            } => self.send(by, to, thread, signal, Some(value)),
            Call::Sigaction {
                process,
                signal,
                new,
            } => self.sigaction(process, signal, new),
            Call::Sigmask { thread, way, set } => self.sigmask(thread, way, set),
            Call::Sigpending { thread } => self.sigpending(thread),
            Call::Look { thread } => self.look(thread),
            Call::Who { process } => self.who(process),
            Call::Take { thread } => self.take(thread),
            Call::Sigreturn { thread, mask } => self.sigmask(thread, 2, Some(mask)),
        }
    }
}
