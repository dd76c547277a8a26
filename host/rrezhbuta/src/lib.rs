//! The proved POSIX signal layer behind a safe interface. The tables are the host's; every call checks the whole of
//! them, does its work or refuses it, and a refusal writes nothing. Which call does what, and when it is refused, is in
//! `docs/CALLS.md`.
//!
//! ```
//! use rrezhbuta::{NewProcess, ProcessId, Sent, Signal, Tables, Taken, Target, ThreadId};
//!
//! let (process, thread) = (ProcessId(100), ThreadId(200));
//! let mut tables = Tables::new();
//! tables.add_process(NewProcess { id: process, thread, ..NewProcess::default() })?;
//! assert_eq!(tables.kill(process, Target::Process(process), Signal::INT)?, Sent::Marked);
//! assert_eq!(tables.take(thread)?, Taken::End(Signal::INT));
//! # Ok::<(), rrezhbuta::Errno>(())
//! ```

/// The capacities, offsets and numbers, from the one file that names them.
pub use rrezhbuta_limits as limits;

mod answer;
mod call;
mod errno;
mod ids;
mod methods;
pub mod raw;
mod siginfo;
mod sigset;
mod status;
mod tables;

pub use answer::{Answer, Delivery, Next, Sent, Taken};
pub use call::{Action, Call, NewProcess, Way};
pub use errno::Errno;
pub use ids::{ProcessId, SessionId, Signal, Target, ThreadId, UserId};
pub use siginfo::Siginfo;
pub use sigset::SigSet;
pub use tables::{Table, Tables, Thread};
