//! Signals, sets of them, flags, and what happens by default.

/// Signals are 1 to 64.
pub const LAST: u32 = 64;
/// 1 to 31 are standard, the others realtime.
pub const LAST_STANDARD: u32 = 31;

/// Illegal instruction; its handler is never reset.
pub const ILL: u32 = 4;
/// Trace trap; its handler is never reset.
pub const TRAP: u32 = 5;
/// Ends the process.
pub const KILL: u32 = 9;
/// A child changed; ignored by default.
pub const CHLD: u32 = 17;
/// Continues the process.
pub const CONT: u32 = 18;
/// Stops the process.
pub const STOP: u32 = 19;
/// A stop from the terminal.
pub const TSTP: u32 = 20;
/// A read in the background.
pub const TTIN: u32 = 21;
/// A write in the background.
pub const TTOU: u32 = 22;
/// Urgent data; ignored by default.
pub const URG: u32 = 23;
/// The window changed; ignored by default.
pub const WINCH: u32 = 28;

/// The handler number of the default action.
pub const DEFAULT: u64 = 0;
/// The handler number of the ignoring action.
pub const IGNORE: u64 = 1;

/// The handler takes the record.
pub const SIGINFO: u64 = 4;
/// Carried only.
pub const RESTART: u64 = 0x1000_0000;
/// The signal taken is not added to the mask.
pub const NODEFER: u64 = 0x4000_0000;
/// The action becomes the default when its handler is answered.
pub const RESETHAND: u64 = 0x8000_0000;
/// The known flags; an action with any other bit is refused.
pub const FLAGS: u64 = SIGINFO | RESTART | NODEFER | RESETHAND;

/// The code of a queued record: -1.
pub const QUEUED: u32 = u32::MAX;

/// A set of signals: signal s is bit s-1.
#[derive(Clone, Copy, Debug, Default, PartialEq, Eq)]
pub struct Set(pub u64);

impl Set {
    /// No signal.
    pub const EMPTY: Set = Set(0);
    /// KILL and STOP, which nobody can block.
    pub const UNMASKABLE: Set = Set::of(&[KILL, STOP]);
    /// The stop signals that can be pending.
    pub const STOPPING: Set = Set::of(&[TSTP, TTIN, TTOU]);
    /// What is ignored by default.
    pub const IGNORING: Set = Set::of(&[CHLD, URG, WINCH]);

    /// The signals of a list.
    pub const fn of(signals: &[u32]) -> Set {
        let mut set = 0;
        let mut i = 0;
        while i < signals.len() {
            set |= 1 << (signals[i] - 1);
            i += 1;
        }
        Set(set)
    }

    /// Is the signal a member? Numbers that are no signal are none.
    pub fn has(self, signal: u32) -> bool {
        (1..=LAST).contains(&signal) && self.0 >> (signal - 1) & 1 == 1
    }

    /// The members of either.
    pub fn or(self, other: Set) -> Set {
        Set(self.0 | other.0)
    }

    /// The members of both.
    pub fn and(self, other: Set) -> Set {
        Set(self.0 & other.0)
    }

    /// The members that the other has not.
    pub fn less(self, other: Set) -> Set {
        Set(self.0 & !other.0)
    }

    /// Has it no member?
    pub fn is_empty(self) -> bool {
        self.0 == 0
    }

    /// The lowest member.
    pub fn lowest(self) -> Option<u32> {
        (!self.is_empty()).then(|| self.0.trailing_zeros() + 1)
    }
}

/// What a signal does where its action is the default.
#[derive(Clone, Copy, Debug, PartialEq, Eq)]
pub enum Outcome {
    /// Nothing is kept.
    Ignore,
    /// The process stops.
    Stop,
    /// The process goes on.
    Continue,
    /// The process ends.
    End,
}

/// The default outcome of a signal.
pub fn outcome(signal: u32) -> Outcome {
    match signal {
        CHLD | URG | WINCH => Outcome::Ignore,
        STOP | TSTP | TTIN | TTOU => Outcome::Stop,
        CONT => Outcome::Continue,
        _ => Outcome::End,
    }
}
