//! Refusals.

use crate::limits;
use std::fmt;

/// Why a call was refused. The number is that of Linux on x86-64.
///
/// ```
/// use rrezhbuta::{Errno, Tables, ThreadId};
///
/// let refusal = Tables::new().take(ThreadId(200)).unwrap_err();
/// assert_eq!(refusal, Errno::ESRCH);
/// assert_eq!(refusal as u32, 3);
/// assert_eq!(refusal.to_string(), "no such process or thread (ESRCH)");
/// ```
#[derive(Clone, Copy, Debug, PartialEq, Eq, Hash)]
#[repr(u32)]
pub enum Errno {
    /// The sender may not signal the target.
    EPERM = limits::EPERM,
    /// The acting process or thread, the target or the creator is not live.
    ESRCH = limits::ESRCH,
    /// No free place for what is added, or no room for a record.
    EAGAIN = limits::EAGAIN,
    /// A table has another length, or the tables are not sound.
    EFAULT = limits::EFAULT,
    /// An added id is live already.
    EEXIST = limits::EEXIST,
    /// A signal, a flag, a way or an added id that is none.
    EINVAL = limits::EINVAL,
}

impl Errno {
    /// All of them, in the order of their numbers.
    pub const ALL: [Errno; 6] = [
        Errno::EPERM,
        Errno::ESRCH,
        Errno::EAGAIN,
        Errno::EFAULT,
        Errno::EEXIST,
        Errno::EINVAL,
    ];

    /// The refusal of that number.
    pub fn from_number(number: u64) -> Option<Errno> {
        Errno::ALL.into_iter().find(|&e| e as u64 == number)
    }
}

impl fmt::Display for Errno {
    fn fmt(&self, f: &mut fmt::Formatter<'_>) -> fmt::Result {
        let words = match self {
            Errno::EPERM => "the sender may not signal the target",
            Errno::ESRCH => "no such process or thread",
            Errno::EAGAIN => "no free place, or no room for a record",
            Errno::EFAULT => "the tables are not sound",
            Errno::EEXIST => "the id is live already",
            Errno::EINVAL => "no such signal, flag, way or id",
        };
        write!(f, "{words} ({self:?})")
    }
}

impl std::error::Error for Errno {}
