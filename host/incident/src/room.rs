//! The room: the operator, four technicians, and what one of them has started.

use crate::failure::{ensure, Failure};
use rrezhbuta::{Action, Errno, NewProcess, ProcessId, Sent, SessionId, SigSet, Signal, Tables};
use rrezhbuta::{Taken, Target, ThreadId, UserId};

/// The operator's process, of user 0.
pub const OPERATOR: ProcessId = ProcessId(100);
/// The technicians' processes.
pub const TECHNICIANS: [ProcessId; 4] = [
    ProcessId(101),
    ProcessId(102),
    ProcessId(103),
    ProcessId(104),
];
/// The loader that the first technician has started.
pub const LOADER: ProcessId = ProcessId(110);
/// The viewer that the loader sends its facets to.
pub const VIEWER: ProcessId = ProcessId(120);
/// All of them.
pub const EVERYONE: [ProcessId; 7] = {
    let [a, b, c, d] = TECHNICIANS;
    [OPERATOR, a, b, c, d, LOADER, VIEWER]
};

/// The signal of a message between technicians.
const MESSAGE: Signal = Signal(34);
const HANDLER: u64 = 5000;
/// The owner of the messenger, a set-user-id program that every technician runs: by it they may signal each other.
const MESSENGER: UserId = UserId(1000);

/// The user of a technician: each has one.
pub fn user_of(technician: ProcessId) -> UserId {
    UserId(MESSENGER.0 + technician.0 - OPERATOR.0)
}

/// The one thread of a process.
pub fn thread_of(process: ProcessId) -> ThreadId {
    ThreadId(process.0 + 100)
}

/// What the technicians have done; each call of it was accepted, or the replay has ended.
#[derive(Clone, Copy, Debug, Default, PartialEq, Eq)]
pub struct Work {
    /// Queued sends.
    pub sends: u64,
    /// Takes of what was sent.
    pub takes: u64,
}

/// The tables, and the technicians' work on them.
pub struct Room {
    /// The tables.
    pub tables: Tables<'static>,
    /// The work.
    pub work: Work,
}

/// A process of one user, in the session that the leader has begun.
fn process(id: ProcessId, user: UserId, leader: ProcessId) -> NewProcess {
    NewProcess {
        id,
        real: user,
        effective: user,
        saved: user,
        session: SessionId(leader.0),
        thread: thread_of(id),
        mask: SigSet::EMPTY,
    }
}

fn technician(id: ProcessId) -> NewProcess {
    NewProcess {
        effective: MESSENGER,
        saved: MESSENGER,
        ..process(id, user_of(id), id)
    }
}

/// A viewer of the first technician. It blocks all that can be blocked while it draws.
pub fn viewer(id: ProcessId) -> NewProcess {
    let owner = TECHNICIANS[0];
    NewProcess {
        mask: SigSet(u64::MAX),
        ..process(id, user_of(owner), owner)
    }
}

fn processes() -> Vec<NewProcess> {
    let owner = TECHNICIANS[0];
    let mut all = vec![process(OPERATOR, UserId(0), OPERATOR)];
    all.extend(TECHNICIANS.map(technician));
    all.extend([process(LOADER, user_of(owner), owner), viewer(VIEWER)]);
    all
}

fn refused(what: &str) -> impl FnOnce(Errno) -> Failure + '_ {
    move |errno| Failure(format!("{what} was refused: {errno}"))
}

impl Room {
    /// The room in the morning.
    pub fn open() -> Result<Room, Failure> {
        let mut tables = Tables::new();
        for process in processes() {
            tables
                .add_process(process)
                .map_err(refused("adding a process"))?;
        }
        let action = Action {
            handler: HANDLER,
            ..Action::default()
        };
        for technician in TECHNICIANS {
            tables
                .set_sigaction(technician, MESSAGE, action)
                .map_err(refused("a technician's action"))?;
        }
        let work = Work::default();
        Ok(Room { tables, work })
    }

    /// The technicians' next message: one queues it to the next, who takes it.
    pub fn turn(&mut self) -> Result<(), Failure> {
        let message = self.work.sends;
        let place = message as usize % TECHNICIANS.len();
        let from = TECHNICIANS[place];
        let to = TECHNICIANS[(place + 1) % TECHNICIANS.len()];
        self.send(from, to, message)?;
        self.take(from, to, message)
    }

    fn send(&mut self, from: ProcessId, to: ProcessId, message: u64) -> Result<(), Failure> {
        let to = Target::Process(to);
        let sent = self.tables.sigqueue(from, to, MESSAGE, message);
        let sent = sent.map_err(refused("a technician's send"))?;
        self.work.sends += 1;
        ensure(sent == Sent::Kept, || {
            format!("a technician's send was not kept: {sent:?}")
        })
    }

    /// Takes what was sent, as it was sent, and returns from the handler.
    fn take(&mut self, from: ProcessId, to: ProcessId, message: u64) -> Result<(), Failure> {
        let thread = thread_of(to);
        let taken = self.tables.take(thread);
        let taken = taken.map_err(refused("a technician's take"))?;
        let Taken::Handler(delivery) = taken else {
            return Err(Failure(format!("a technician took {taken:?}")));
        };
        let info = delivery.info;
        let said = (info.sender, info.uid, info.value);
        ensure(said == (from, user_of(from), message), || {
            format!("a technician took another message: {info:?}")
        })?;
        self.work.takes += 1;
        let returned = self.tables.sigreturn(thread, delivery.saved);
        returned.map_err(refused("a technician's return"))?;
        Ok(())
    }
}
