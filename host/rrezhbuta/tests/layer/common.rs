//! Process 100 of user 1000 with thread 200, and process 1 of user 0 with thread 2.

use rrezhbuta::{Action, NewProcess, ProcessId, SessionId, SigSet, Signal, Tables};
use rrezhbuta::{Target, ThreadId, UserId};

/// The process of user 0.
pub const ROOT: ProcessId = ProcessId(1);
/// Its thread.
pub const ROOTS: ThreadId = ThreadId(2);
/// The process of user 1000.
pub const PROCESS: ProcessId = ProcessId(100);
/// Its thread.
pub const THREAD: ThreadId = ThreadId(200);
/// The process as a target.
pub const TO_PROCESS: Target = Target::Process(PROCESS);
/// Its thread as a target.
pub const TO_THREAD: Target = Target::Thread(PROCESS, THREAD);
/// A thread id that nobody has.
pub const NOBODY: ThreadId = ThreadId(999);
/// A signal that ends by default.
pub const USR1: Signal = Signal(10);
/// A realtime signal.
pub const RT: Signal = Signal(40);

/// A handler number.
pub const HANDLER: u64 = 5000;
/// The flag that resets the handler.
pub const RESETHAND: u64 = 0x8000_0000;

/// A process of one user in session 7.
pub fn user(id: u32, user: u32, thread: u32) -> NewProcess {
    let user = UserId(user);
    NewProcess {
        id: ProcessId(id),
        real: user,
        effective: user,
        saved: user,
        session: SessionId(7),
        thread: ThreadId(thread),
        mask: SigSet::EMPTY,
    }
}

/// Both processes.
pub fn two() -> Tables<'static> {
    let mut tables = Tables::new();
    tables.add_process(user(1, 0, 2)).unwrap();
    tables.add_process(user(100, 1000, 200)).unwrap();
    tables
}

/// A handler with flags and a mask.
pub fn handler(flags: u64, mask: u64) -> Action {
    Action {
        handler: HANDLER,
        flags,
        mask: SigSet(mask),
    }
}
