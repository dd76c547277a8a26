//! Records.

use crate::limits::*;
use crate::{ProcessId, Signal, Target, ThreadId, UserId};

/// A pending signal with what its sender said of it.
#[derive(Clone, Copy, Debug, PartialEq, Eq, Hash)]
pub struct Siginfo {
    /// Whom it is pending for.
    pub target: Target,
    /// The signal.
    pub signal: Signal,
    /// -1 for a queued one, 0 for a mark.
    pub code: i32,
    /// The process that sent it; 0 for a mark.
    pub sender: ProcessId,
    /// The real user id of the sender; 0 for a mark.
    pub uid: UserId,
    /// The value; 0 for a mark.
    pub value: u64,
}

impl Siginfo {
    /// The record that 32 bytes of a buffer say; none for a part of another length, as a look hands back for a mark.
    ///
    /// ```
    /// use rrezhbuta::{NewProcess, ProcessId, Siginfo, Signal, Tables, Target, ThreadId};
    ///
    /// let (process, thread) = (ProcessId(100), ThreadId(200));
    /// let mut tables = Tables::new();
    /// tables.add_process(NewProcess { id: process, thread, ..NewProcess::default() })?;
    /// tables.sigqueue(process, Target::Process(process), Signal(40), 7)?;
    /// let info = Siginfo::from_bytes(tables.look_part(thread)).unwrap();
    /// assert_eq!((info.signal, info.code, info.value), (Signal(40), -1, 7));
    /// # Ok::<(), rrezhbuta::Errno>(())
    /// ```
    pub fn from_bytes(bytes: &[u8]) -> Option<Siginfo> {
        if bytes.len() != RECORD_BYTES {
            return None;
        }
        let low = |at| read::<4>(bytes, at).map(u32::from_le_bytes);
        Some(Siginfo {
            target: target(low(RECORD_PROCESS)?, low(RECORD_THREAD)?),
            signal: Signal(low(RECORD_SIGNAL)?),
            code: low(RECORD_CODE)? as i32,
            sender: ProcessId(low(RECORD_SENDER)?),
            uid: UserId(low(RECORD_UID)?),
            value: read::<8>(bytes, RECORD_VALUE).map(u64::from_le_bytes)?,
        })
    }

    /// The record of an answer's words: each of the first six is a 32-bit number there.
    pub(crate) fn from_words(words: &[u64]) -> Siginfo {
        let low = |i: usize| words[i] as u32;
        Siginfo {
            target: target(low(0), low(1)),
            signal: Signal(low(2)),
            code: low(3) as i32,
            sender: ProcessId(low(4)),
            uid: UserId(low(5)),
            value: words[6],
        }
    }
}

/// Of the two numbers that a record and an answer have.
pub(crate) fn target(process: u32, thread: u32) -> Target {
    Target::from((ProcessId(process), ThreadId(thread)))
}

fn read<const WIDTH: usize>(bytes: &[u8], at: usize) -> Option<[u8; WIDTH]> {
    bytes.get(at..at + WIDTH)?.try_into().ok()
}
