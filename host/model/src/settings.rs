//! Actions, masks and the pending set.

use crate::call::Answer;
use crate::errno::EINVAL;
use crate::model::Model;
use crate::rows::{Action, Thread};
use crate::signal::{Set, FLAGS, KILL, LAST, STOP};
use crate::store::Queue;

impl Model {
    pub(crate) fn sigaction(
        &mut self,
        process: u32,
        signal: u32,
        new: Option<Action>,
    ) -> Result<Answer, u32> {
        let no_signal = signal == 0 || signal > LAST;
        let is_fixed = new.is_some() && (signal == KILL || signal == STOP);
        let unknown_flag = new.is_some_and(|action| action.flags & !FLAGS != 0);
        if no_signal || is_fixed || unknown_flag {
            return Err(EINVAL);
        }
        let old = *self.process(process)?.action(signal);
        if let Some(action) = new {
            let stored = Action {
                mask: action.mask.less(Set::UNMASKABLE),
                ..action
            };
            self.store_action(process, signal, stored);
        }
        Ok(Answer::OldAction(old))
    }

    /// The action of a live process becomes another; what it ignores is no longer pending.
    pub(crate) fn store_action(&mut self, process: u32, signal: u32, action: Action) {
        *self.process_mut(process).action_mut(signal) = action;
        if action.ignores(signal) {
            self.discard(process, Set::of(&[signal]));
        }
    }

    pub(crate) fn sigmask(
        &mut self,
        thread: u32,
        way: u32,
        set: Option<u64>,
    ) -> Result<Answer, u32> {
        if set.is_some() && way > 2 {
            return Err(EINVAL);
        }
        let place = self.thread_place(thread)?;
        let thread = &mut self.rows.threads[place];
        let old = thread.mask;
        if let Some(set) = set.map(Set) {
            let new = match way {
                0 => old.or(set),
                1 => old.less(set),
                _ => set,
            };
            thread.mask = new.less(Set::UNMASKABLE);
        }
        Ok(Answer::OldMask(old))
    }

    pub(crate) fn sigpending(&self, thread: u32) -> Result<Answer, u32> {
        let thread = self.thread(thread)?;
        let [own, shared] = queues(thread);
        let pending = self.pending_in(own).or(self.pending_in(shared));
        Ok(Answer::PendingSet(pending.and(thread.mask)))
    }
}

/// A live thread's own queue and its process's.
pub(crate) fn queues(thread: &Thread) -> [Queue; 2] {
    let process = thread.process as u32;
    [thread.id as u32, 0].map(|thread| Queue { process, thread })
}
