//! The tables for a reader.

use crate::common::*;
use rrezhbuta::limits::PROCESS_PLACES;
use rrezhbuta::{Action, SigSet, Signal, Tables, Target, ThreadId, Way};

#[test]
fn a_cleared_store_has_nothing_to_say() {
    assert_eq!(Tables::new().to_string(), "");
}

#[test]
fn processes_threads_and_what_is_pending() {
    let mut tables = two();
    let ignore = Action {
        handler: 1,
        ..Action::default()
    };
    let second = ThreadId(201);
    let to_second = Target::Thread(PROCESS, second);
    tables.add_thread(THREAD, second).unwrap();
    tables.end_process(ROOT).unwrap();
    tables.set_sigaction(PROCESS, Signal(1), ignore).unwrap();
    let action = handler(0, 0);
    tables.set_sigaction(PROCESS, Signal::INT, action).unwrap();
    tables.kill(PROCESS, TO_PROCESS, USR1).unwrap();
    tables.sigqueue(PROCESS, TO_PROCESS, RT, 7).unwrap();
    tables.sigqueue(PROCESS, to_second, Signal(64), 8).unwrap();
    tables.kill(PROCESS, to_second, Signal::INT).unwrap();
    tables.kill(PROCESS, TO_PROCESS, Signal::STOP).unwrap();
    let last = SigSet::of_signal(Signal(64));
    tables.set_sigmask(second, Way::Block, last).unwrap();
    let expected = "\
Pid:\t100
Uid:\t1000\t1000\t1000
Session:\t7
State:\tstopped
ShdPnd:\t0000008000000200
SigIgn:\t0000000000000001
SigCgt:\t0000000000000002
Queued:\t40 value 7 from 100 uid 1000
Tid:\t200
SigPnd:\t0000000000000000
SigBlk:\t0000000000000000
Tid:\t201
SigPnd:\t8000000000000002
SigBlk:\t8000000000000000
Queued:\t64 value 8 from 100 uid 1000
";
    assert_eq!(tables.to_string(), expected);
}

#[test]
fn tables_of_any_length_can_be_shown() {
    let mut tables = two();
    tables.processes_mut().fill(u64::MAX);
    tables.thread_buffer_mut().fill(0xFF);
    tables.process_buffer_mut().fill(0xFF);
    assert_eq!(tables.to_string().matches("Pid:").count(), PROCESS_PLACES);
    let odd = Tables::from_parts(vec![1; 7], vec![], vec![1; 33], vec![]);
    assert_eq!(odd.to_string(), "");
}
