//! Clearing, adding and ending.

use crate::call::{Answer, NewProcess};
use crate::errno::{EAGAIN, EEXIST, EINVAL};
use crate::model::Model;
use crate::rows::{Process, Rows, Thread};
use crate::signal::Set;

/// Ids go from 1 to 2^31 - 1.
fn id_refusal(id: u32) -> Result<(), u32> {
    if id == 0 || id > 2_147_483_647 {
        return Err(EINVAL);
    }
    Ok(())
}

impl Model {
    pub(crate) fn clear(&mut self) -> Answer {
        self.rows = Rows::cleared();
        Answer::Done
    }

    pub(crate) fn add_process(&mut self, new: &NewProcess) -> Result<Answer, u32> {
        id_refusal(new.id)?;
        id_refusal(new.thread)?;
        if self.process(new.id).is_ok() || self.thread(new.thread).is_ok() {
            return Err(EEXIST);
        }
        let process_place = self.free_process_place()?;
        let thread_place = self.free_thread_place()?;
        self.rows.processes[process_place] = Process {
            id: new.id as u64,
            real: new.real as u64,
            effective: new.effective as u64,
            saved: new.saved as u64,
            session: new.session as u64,
            ..Process::FREE
        };
        self.rows.threads[thread_place] = Thread {
            id: new.thread as u64,
            process: new.id as u64,
            mask: Set(new.mask).less(Set::UNMASKABLE),
            marks: Set::EMPTY,
        };
        Ok(Answer::Done)
    }

    fn free_process_place(&self) -> Result<usize, u32> {
        let mut places = self.rows.processes.iter();
        places.position(|p| p.id == 0).ok_or(EAGAIN)
    }

    fn free_thread_place(&self) -> Result<usize, u32> {
        let mut places = self.rows.threads.iter();
        places.position(|t| t.id == 0).ok_or(EAGAIN)
    }

    pub(crate) fn add_thread(&mut self, creator: u32, id: u32) -> Result<Answer, u32> {
        id_refusal(id)?;
        let Thread { process, mask, .. } = *self.thread(creator)?;
        if self.thread(id).is_ok() {
            return Err(EEXIST);
        }
        let place = self.free_thread_place()?;
        self.rows.threads[place] = Thread {
            id: id as u64,
            process,
            mask,
            marks: Set::EMPTY,
        };
        Ok(Answer::Done)
    }

    pub(crate) fn end_process(&mut self, id: u32) -> Result<Answer, u32> {
        self.process(id)?;
        self.remove_process(id);
        Ok(Answer::Done)
    }

    pub(crate) fn end_thread(&mut self, id: u32) -> Result<Answer, u32> {
        let place = self.thread_place(id)?;
        let process = self.rows.threads[place].process;
        let siblings = self.rows.threads.iter().filter(|t| t.process == process);
        if siblings.count() == 1 {
            self.remove_process(process as u32);
        } else {
            self.rows.threads[place] = Thread::default();
            self.rows.thread_records.retain(|r| r.thread != id);
        }
        Ok(Answer::Done)
    }
}
