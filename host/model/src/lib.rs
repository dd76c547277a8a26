//! A second model of the signal layer, written from document 01, POSIX and the settled readings alone. It shares no
//! code, no number and no table layout with the proved layer, so that where the two agree they do not agree by having a
//! common source.
//!
//! ```
//! use rrezhbuta_model::{Answer, Call, Model, NewProcess};
//!
//! let mut model = Model::new();
//! let new = NewProcess { id: 100, real: 1000, effective: 1000, saved: 1000, session: 7, thread: 200, mask: 0 };
//! assert_eq!(model.call(&Call::AddProcess(new)), Ok(Answer::Done));
//! let kill = Call::Kill { by: 100, to: 100, thread: 0, signal: 2 };
//! assert_eq!(model.call(&kill), Ok(Answer::Marked));
//! assert_eq!(model.call(&kill), Ok(Answer::Absorbed));
//! ```

mod adding;
mod call;
pub mod errno;
mod model;
mod rows;
mod sending;
mod settings;
pub mod signal;
mod sound;
mod store;
mod taking;

pub use call::{Answer, Call, NewProcess, Next};
pub use model::{Buffer, Model, Slot};
pub use rows::{Action, Process, Record, Rows, Thread};
pub use rows::{BUFFER_RECORDS, PROCESS_PLACES, RECORD_LIMIT, THREAD_PLACES};
pub use signal::Set;
pub use sound::{judge, Unsound};
