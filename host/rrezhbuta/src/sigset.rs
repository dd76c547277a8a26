//! Sets of signals.

use crate::limits::SIGNALS;
use crate::Signal;
use std::fmt;

/// A set of signals: signal s is bit s-1. A tuple struct, so that a mask and a plain value cannot be mixed.
///
/// ```
/// use rrezhbuta::{SigSet, Signal};
///
/// let set = SigSet::of_signal(Signal::KILL).union(SigSet::of_signal(Signal(10)));
/// assert_eq!(set, SigSet(768));
/// assert_eq!(set.without(SigSet::UNMASKABLE), SigSet(512));
/// assert_eq!(set.to_string(), "0000000000000300");
/// ```
#[derive(Clone, Copy, Debug, Default, PartialEq, Eq, Hash)]
#[repr(transparent)]
pub struct SigSet(pub u64);

impl SigSet {
    /// No signal.
    pub const EMPTY: SigSet = SigSet(0);
    /// KILL and STOP, which no mask holds.
    pub const UNMASKABLE: SigSet =
        SigSet::of_signal(Signal::KILL).union(SigSet::of_signal(Signal::STOP));

    /// The set of one signal; empty for a number that is no signal.
    pub const fn of_signal(signal: Signal) -> SigSet {
        if signal.0 == 0 || signal.0 > SIGNALS {
            return SigSet::EMPTY;
        }
        SigSet(1 << (signal.0 - 1))
    }

    /// The members of either.
    pub const fn union(self, other: SigSet) -> SigSet {
        SigSet(self.0 | other.0)
    }

    /// The members that the other has not.
    pub const fn without(self, other: SigSet) -> SigSet {
        SigSet(self.0 & !other.0)
    }

    /// Is the signal a member?
    pub const fn has(self, signal: Signal) -> bool {
        self.0 & SigSet::of_signal(signal).0 != 0
    }
}

/// As 16 hexadecimal digits, the form of `/proc/PID/status`.
impl fmt::Display for SigSet {
    fn fmt(&self, f: &mut fmt::Formatter<'_>) -> fmt::Result {
        write!(f, "{:016x}", self.0)
    }
}
