//! The whole story, from the open room to the room that goes on, with its claims checked.

use crate::failure::{ensure, Failure};
use crate::flood::{flood, Bounds, Counts, FACET};
use crate::kill::{kill, Means};
use crate::room::{viewer, Room, Work, LOADER, TECHNICIANS, VIEWER};
use crate::{mesh, page};
use rrezhbuta::limits::RECORD_LIMIT;
use rrezhbuta::{ProcessId, Sent, Tables, Target};
use std::fmt;
use std::time::{Duration, Instant};

/// The facets that the file claims.
pub const CLAIM: u32 = u32::MAX;
/// The viewer that is started afterwards.
pub const NEXT_VIEWER: ProcessId = ProcessId(121);
/// The technicians' messages afterwards.
pub const TURNS_AFTER: u64 = 1000;

/// What was found.
pub struct Report {
    /// The bytes of the file.
    pub file_bytes: usize,
    /// The facets that its header claims.
    pub claimed: u32,
    /// The loader's sends.
    pub counts: Counts,
    /// How long they took.
    pub time: Duration,
    /// The technicians' work while the loader ran.
    pub work: Work,
    /// Their work after the operator's KILL.
    pub work_after: Work,
    /// The tables before the file was loaded.
    pub before: Tables<'static>,
    /// The tables with the viewer's queue full.
    pub flooded: Tables<'static>,
    /// The tables after the operator's KILL.
    pub killed: Tables<'static>,
}

impl fmt::Display for Report {
    fn fmt(&self, f: &mut fmt::Formatter<'_>) -> fmt::Result {
        page::write(f, self)
    }
}

/// Viewer and loader are killed, each by the one send; on a copy each by the other, which comes to the same.
pub fn kill_by_either(tables: &mut Tables<'_>) -> Result<(), Failure> {
    let mut copy = tables.snapshot();
    kill(&mut copy, Means::Kill, VIEWER)?;
    kill(&mut copy, Means::Sigqueue, LOADER)?;
    kill(tables, Means::Sigqueue, VIEWER)?;
    kill(tables, Means::Kill, LOADER)?;
    ensure(*tables == copy, || "the two sends differ".to_string())
}

/// The technicians work on, and the first of them starts another viewer, whose queue is its own.
fn go_on(room: &mut Room) -> Result<(), Failure> {
    for _ in 0..TURNS_AFTER {
        room.turn()?;
    }
    let added = room.tables.add_process(viewer(NEXT_VIEWER));
    let (owner, to) = (TECHNICIANS[0], Target::Process(NEXT_VIEWER));
    let sent = added.and_then(|()| room.tables.sigqueue(owner, to, FACET, 0));
    ensure(sent == Ok(Sent::Kept), || {
        format!("the next viewer's first signal: {sent:?}")
    })
}

/// Replays the incident. `watch` is told of the loader's sends now and then.
pub fn replay(bounds: &Bounds, watch: impl FnMut(&Counts)) -> Result<Report, Failure> {
    let file = mesh::file_claiming(CLAIM);
    let claimed = mesh::facets_claimed(&file).ok_or_else(|| Failure("no header".to_string()))?;
    let mut room = Room::open()?;
    let before = room.tables.snapshot();
    let start = Instant::now();
    let counts = flood(&mut room, claimed, bounds, watch)?;
    let time = start.elapsed();
    ensure(counts.kept == RECORD_LIMIT as u64, || {
        format!("{} were kept, not {RECORD_LIMIT}", counts.kept)
    })?;
    let (work, flooded) = (room.work, room.tables.snapshot());
    kill_by_either(&mut room.tables)?;
    let killed = room.tables.snapshot();
    room.work = Work::default();
    go_on(&mut room)?;
    let work_after = room.work;
    Ok(Report {
        file_bytes: file.len(),
        claimed,
        counts,
        time,
        work,
        work_after,
        before,
        flooded,
        killed,
    })
}
