//! The answers, and how the C boundary writes them.

use crate::limits::*;
use crate::siginfo::target;
use crate::{Action, SigSet, Siginfo, Signal, Target, ThreadId};

/// What became of a send.
#[derive(Clone, Copy, Debug, PartialEq, Eq, Hash)]
pub enum Sent {
    /// Signal 0: the target could be signalled.
    Tested,
    /// KILL ended the process or STOP stopped it.
    Acted,
    /// The signal is ignored.
    Dropped,
    /// The signal is pending already.
    Absorbed,
    /// The mark was set.
    Marked,
    /// A record was added.
    Kept,
}

/// What a thread would take next.
#[derive(Clone, Copy, Debug, PartialEq, Eq, Hash)]
pub enum Next {
    /// Nothing.
    Nothing,
    /// A mark.
    Mark {
        /// Whom it is pending for.
        target: Target,
        /// The signal.
        signal: Signal,
    },
    /// A record.
    Record(Siginfo),
}

/// A handler that is to run.
#[derive(Clone, Copy, Debug, PartialEq, Eq, Hash)]
pub struct Delivery {
    /// The handler number.
    pub handler: u64,
    /// The signal.
    pub signal: Signal,
    /// The flags of the action, as they were before RESETHAND.
    pub flags: u64,
    /// The mask before, for the return.
    pub saved: SigSet,
    /// What was taken.
    pub info: Siginfo,
}

/// What a take took.
#[derive(Clone, Copy, Debug, PartialEq, Eq, Hash)]
pub enum Taken {
    /// Nothing.
    Nothing,
    /// A signal with a handler.
    Handler(Delivery),
    /// This signal ended the process.
    End(Signal),
    /// This signal stopped the process.
    Stop(Signal),
    /// This signal, CONT, did nothing more.
    NoAction(Signal),
}

/// What an accepted call answers.
#[derive(Clone, Copy, Debug, PartialEq, Eq, Hash)]
pub enum Answer {
    /// It is done.
    Done,
    /// Of a send.
    Sent(Sent),
    /// The action before the call.
    OldAction(Action),
    /// The mask before the call.
    OldMask(SigSet),
    /// The blocked signals that are pending.
    PendingSet(SigSet),
    /// Of a look.
    Looked(Next),
    /// The thread that can take something, if one can.
    Taker(Option<ThreadId>),
    /// Of a take.
    Taken(Taken),
}

impl Answer {
    /// The answer that the words say.
    ///
    /// # Panics
    ///
    /// Where the words are no answer, which the library never writes.
    pub fn from_words(words: &[u64; ANSWER_WORDS]) -> Answer {
        let signal = Signal(words[1] as u32);
        match words[0] {
            ANSWER_DONE => Answer::Done,
            ANSWER_TESTED => Answer::Sent(Sent::Tested),
            ANSWER_ACTED => Answer::Sent(Sent::Acted),
            ANSWER_DROPPED => Answer::Sent(Sent::Dropped),
            ANSWER_ABSORBED => Answer::Sent(Sent::Absorbed),
            ANSWER_MARKED => Answer::Sent(Sent::Marked),
            ANSWER_KEPT => Answer::Sent(Sent::Kept),
            ANSWER_OLD_ACTION => Answer::OldAction(action(words)),
            ANSWER_OLD_MASK => Answer::OldMask(SigSet(words[1])),
            ANSWER_PENDING_SET => Answer::PendingSet(SigSet(words[1])),
            ANSWER_NEXT_NOTHING => Answer::Looked(Next::Nothing),
            ANSWER_NEXT_MARK => Answer::Looked(mark(words)),
            ANSWER_NEXT_RECORD => Answer::Looked(Next::Record(Siginfo::from_words(&words[1..]))),
            ANSWER_CAN_TAKE => Answer::Taker(Some(ThreadId(words[1] as u32))),
            ANSWER_NONE_CAN => Answer::Taker(None),
            ANSWER_NOTHING => Answer::Taken(Taken::Nothing),
            ANSWER_HANDLER => Answer::Taken(Taken::Handler(delivery(words))),
            ANSWER_END => Answer::Taken(Taken::End(signal)),
            ANSWER_STOP => Answer::Taken(Taken::Stop(signal)),
            ANSWER_NO_ACTION => Answer::Taken(Taken::NoAction(signal)),
            other => unreachable!("answer {other}"),
        }
    }
}

fn action(words: &[u64; ANSWER_WORDS]) -> Action {
    Action {
        handler: words[1],
        flags: words[2],
        mask: SigSet(words[3]),
    }
}

fn mark(words: &[u64; ANSWER_WORDS]) -> Next {
    Next::Mark {
        target: target(words[1] as u32, words[2] as u32),
        signal: Signal(words[3] as u32),
    }
}

fn delivery(words: &[u64; ANSWER_WORDS]) -> Delivery {
    Delivery {
        handler: words[1],
        signal: Signal(words[2] as u32),
        flags: words[3],
        saved: SigSet(words[4]),
        info: Siginfo::from_words(&words[5..]),
    }
}
