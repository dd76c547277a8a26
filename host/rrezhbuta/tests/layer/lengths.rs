//! Every call on tables of other lengths is EFAULT and writes nothing.

use crate::common::*;
use rrezhbuta::{Action, Call, Errno, SigSet, Signal, Tables, Thread, ThreadId};

/// Every call, in the documented order.
pub fn calls() -> Vec<Call> {
    let thread = THREAD;
    let asking = [
        Call::Sigpending { thread },
        Call::Look { thread },
        Call::Who { process: PROCESS },
        Call::Take { thread },
        Call::Sigreturn {
            thread,
            mask: SigSet(1),
        },
    ];
    let sending = [kill(), sigqueue(), sigaction(), sigmask()];
    let adding = [
        Call::Clear,
        Call::AddProcess(user(300, 0, 300)),
        Call::AddThread {
            creator: thread,
            id: ThreadId(300),
        },
        Call::EndProcess { id: PROCESS },
        Call::EndThread { id: thread },
    ];
    [&adding[..], &sending[..], &asking[..]].concat()
}

fn kill() -> Call {
    Call::Kill {
        by: ROOT,
        to: TO_PROCESS,
        signal: Signal::KILL,
    }
}

fn sigqueue() -> Call {
    Call::Sigqueue {
        by: ROOT,
        to: TO_PROCESS,
        signal: RT,
        value: 1,
    }
}

fn sigaction() -> Call {
    Call::Sigaction {
        process: PROCESS,
        signal: USR1,
        new: Some(Action::default()),
    }
}

fn sigmask() -> Call {
    Call::Sigmask {
        thread: THREAD,
        way: 0,
        set: Some(SigSet(1)),
    }
}

/// One element more or less.
fn resized<T: Clone>(table: &[T], more: bool, extra: T) -> Vec<T> {
    let mut table = table.to_vec();
    if more {
        table.push(extra);
    } else {
        table.pop();
    }
    table
}

/// The tables with one of them longer or shorter, or all of them empty.
fn misfits() -> Vec<Tables<'static>> {
    let tables = two();
    let (p, t) = (tables.processes(), tables.threads());
    let (tb, pb) = (tables.thread_buffer(), tables.process_buffer());
    let mut all = vec![Tables::from_parts(vec![], vec![], vec![], vec![])];
    for more in [false, true] {
        let of = |p: Vec<u64>, t: Vec<Thread>, tb: Vec<u8>, pb: Vec<u8>| {
            Tables::from_parts(p, t, tb, pb)
        };
        let (p, t, tb, pb) = (p.to_vec(), t.to_vec(), tb.to_vec(), pb.to_vec());
        all.push(of(resized(&p, more, 0), t.clone(), tb.clone(), pb.clone()));
        let threads = resized(&t, more, Thread::FREE);
        all.push(of(p.clone(), threads, tb.clone(), pb.clone()));
        all.push(of(p.clone(), t.clone(), resized(&tb, more, 0), pb.clone()));
        all.push(of(p, t, tb, resized(&pb, more, 0)));
    }
    all
}

#[test]
fn other_lengths_are_efault() {
    for mut tables in misfits() {
        let before = tables.snapshot();
        for call in calls() {
            assert_eq!(tables.call(&call), Err(Errno::EFAULT), "{call:?}");
            assert!(tables == before, "{call:?} wrote");
        }
        assert!(tables.look_part(THREAD).is_empty());
    }
}

#[test]
fn there_is_one_call_of_each_kind() {
    let numbers: Vec<u32> = calls().iter().map(|call| call.numbers().number).collect();
    assert_eq!(numbers, Vec::from_iter(1..=14));
}

#[test]
fn the_same_calls_are_accepted_at_the_right_lengths() {
    for call in calls() {
        assert!(two().call(&call).is_ok(), "{call:?}");
    }
}
