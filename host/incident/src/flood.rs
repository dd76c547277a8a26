//! The loader believes the header and sends a queued signal for each facet.

use crate::failure::Failure;
use crate::room::{Room, LOADER, VIEWER};
use rrezhbuta::{Errno, Sent, Signal, Target};
use std::time::{Duration, Instant};

/// The signal that says: one more facet.
pub const FACET: Signal = Signal(40);
/// The loader's sends between two messages of the technicians.
pub const SENDS_A_TURN: u64 = 4;
/// The loader's sends between two looks at the clock: more than a queue has room for, so that it is full however slow
/// the machine.
pub const SENDS_A_LOOK: u64 = 64;

/// When the operator steps in, whichever comes first.
#[derive(Clone, Copy, Debug)]
pub struct Bounds {
    /// After so many sends of the loader.
    pub sends: u64,
    /// After that time.
    pub time: Duration,
}

/// What became of the loader's sends.
#[derive(Clone, Copy, Debug, Default, PartialEq, Eq)]
pub struct Counts {
    /// All of them.
    pub sent: u64,
    /// Those that are records now.
    pub kept: u64,
    /// Those that were refused with EAGAIN.
    pub refused: u64,
}

impl Counts {
    fn count(&mut self, answer: Result<Sent, Errno>) -> Result<(), Failure> {
        self.sent += 1;
        match answer {
            Ok(Sent::Kept) => self.kept += 1,
            Err(Errno::EAGAIN) => self.refused += 1,
            other => return Err(Failure(format!("the loader's send gave {other:?}"))),
        }
        Ok(())
    }
}

/// Sends for as many facets as are claimed, within the bounds; the technicians work on in between. `watch` is told now
/// and then.
pub fn flood(
    room: &mut Room,
    claimed: u32,
    bounds: &Bounds,
    mut watch: impl FnMut(&Counts),
) -> Result<Counts, Failure> {
    let start = Instant::now();
    let mut counts = Counts::default();
    let viewer = Target::Process(VIEWER);
    for facet in 0..bounds.sends.min(claimed.into()) {
        counts.count(room.tables.sigqueue(LOADER, viewer, FACET, facet))?;
        if counts.sent.is_multiple_of(SENDS_A_TURN) {
            room.turn()?;
        }
        if counts.sent.is_multiple_of(SENDS_A_LOOK) {
            watch(&counts);
            if start.elapsed() >= bounds.time {
                break;
            }
        }
    }
    Ok(counts)
}
