//! Each errno by each method that gives it; no table changes by a bit.

use crate::common::*;
use rrezhbuta::limits::{LARGEST_ID, PROCESS_PLACES, RECORD_LIMIT, SA_SIGINFO, THREAD_PLACES};
use rrezhbuta::{Action, Call, Errno, NewProcess, ProcessId, SigSet, Signal, Tables};
use rrezhbuta::{Target, ThreadId, Way};
use std::fmt::Debug;

/// The call is refused so, and the tables are as before.
fn refused<T: Debug + PartialEq>(
    tables: &mut Tables<'static>,
    errno: Errno,
    call: impl FnOnce(&mut Tables<'static>) -> Result<T, Errno>,
) {
    let before = tables.snapshot();
    assert_eq!(call(tables), Err(errno));
    assert!(*tables == before, "a refusal wrote");
}

#[test]
fn einval() {
    let mut tables = two();
    let e = Errno::EINVAL;
    refused(&mut tables, e, |t| t.kill(ROOT, TO_PROCESS, Signal(65)));
    let most = Signal(u32::MAX);
    refused(&mut tables, e, |t| t.sigqueue(ROOT, TO_PROCESS, most, 1));
    refused(&mut tables, e, |t| t.sigaction(PROCESS, Signal(0)));
    refused(&mut tables, e, |t| {
        t.set_sigaction(PROCESS, Signal::KILL, Action::default())
    });
    refused(&mut tables, e, |t| t.add_process(user(0, 0, 300)));
    refused(&mut tables, e, |t| {
        t.add_process(user(300, 0, LARGEST_ID + 1))
    });
    refused(&mut tables, e, |t| t.add_thread(THREAD, ThreadId(0)));
    let way = Call::Sigmask {
        thread: THREAD,
        way: 3,
        set: Some(SigSet(1)),
    };
    refused(&mut tables, e, |t| t.call(&way));
}

#[test]
fn an_unknown_flag_is_einval_and_the_old_action_stays() {
    let mut tables = two();
    let old = handler(SA_SIGINFO, 2048);
    tables.set_sigaction(PROCESS, USR1, old).unwrap();
    // process 9 is not live, and EINVAL goes before ESRCH
    for process in [PROCESS, ProcessId(9)] {
        for flags in [8, SA_SIGINFO | 1 << 32, 1 << 63, u64::MAX] {
            refused(&mut tables, Errno::EINVAL, |t| {
                t.set_sigaction(process, USR1, handler(flags, 0))
            });
        }
    }
    assert_eq!(tables.sigaction(PROCESS, USR1), Ok(old));
}

#[test]
fn esrch() {
    let mut tables = two();
    let e = Errno::ESRCH;
    let (process, thread) = (ProcessId(9), NOBODY);
    let anothers = Target::Thread(PROCESS, ROOTS);
    refused(&mut tables, e, |t| t.kill(process, TO_PROCESS, USR1));
    refused(&mut tables, e, |t| t.sigqueue(ROOT, anothers, USR1, 1));
    refused(&mut tables, e, |t| t.end_process(process));
    refused(&mut tables, e, |t| t.end_thread(thread));
    refused(&mut tables, e, |t| t.add_thread(thread, ThreadId(300)));
    refused(&mut tables, e, |t| t.sigaction(process, USR1));
    refused(&mut tables, e, |t| {
        t.set_sigaction(process, USR1, Action::default())
    });
    refused(&mut tables, e, |t| t.sigmask(thread));
    refused(&mut tables, e, |t| {
        t.set_sigmask(thread, Way::Block, SigSet(1))
    });
    refused(&mut tables, e, |t| t.sigpending(thread));
    refused(&mut tables, e, |t| t.look(thread));
    refused(&mut tables, e, |t| t.who(process));
    refused(&mut tables, e, |t| t.take(thread));
    refused(&mut tables, e, |t| t.sigreturn(thread, SigSet(0)));
}

#[test]
fn eperm() {
    let mut tables = two();
    let (e, to) = (Errno::EPERM, Target::Process(ROOT));
    refused(&mut tables, e, |t| t.kill(PROCESS, to, USR1));
    refused(&mut tables, e, |t| t.sigqueue(PROCESS, to, Signal(0), 1));
}

#[test]
fn eexist() {
    let mut tables = two();
    let e = Errno::EEXIST;
    refused(&mut tables, e, |t| t.add_process(user(100, 0, 300)));
    refused(&mut tables, e, |t| t.add_process(user(300, 0, 200)));
    refused(&mut tables, e, |t| t.add_thread(THREAD, ROOTS));
}

#[test]
fn eagain_for_places() {
    let mut tables = Tables::new();
    for id in 1..=PROCESS_PLACES as u32 {
        tables.add_process(user(id, 0, id)).unwrap();
    }
    refused(&mut tables, Errno::EAGAIN, |t| {
        t.add_process(user(LARGEST_ID, 0, LARGEST_ID))
    });
    for id in PROCESS_PLACES + 1..=THREAD_PLACES {
        let id = ThreadId(id as u32);
        tables.add_thread(ThreadId(1), id).unwrap();
    }
    refused(&mut tables, Errno::EAGAIN, |t| {
        t.add_thread(ThreadId(1), ThreadId(LARGEST_ID))
    });
}

#[test]
fn eagain_for_records() {
    let mut tables = two();
    for value in 0..RECORD_LIMIT as u64 {
        tables.sigqueue(ROOT, TO_PROCESS, RT, value).unwrap();
    }
    refused(&mut tables, Errno::EAGAIN, |t| {
        t.sigqueue(ROOT, TO_THREAD, Signal(41), 0)
    });
}

#[test]
fn efault_for_tables_that_are_not_sound() {
    let mut tables = two();
    tables.threads_mut()[0].mask = SigSet::UNMASKABLE;
    let e = Errno::EFAULT;
    refused(&mut tables, e, |t| t.kill(ROOT, TO_PROCESS, Signal(65)));
    refused(&mut tables, e, |t| t.add_process(NewProcess::default()));
    refused(&mut tables, e, |t| t.add_thread(NOBODY, ThreadId(0)));
    refused(&mut tables, e, |t| {
        t.set_sigaction(PROCESS, USR1, handler(8, 0))
    });
    refused(&mut tables, e, |t| t.take(THREAD));
    refused(&mut tables, e, |t| t.sigmask(THREAD));
    assert!(tables.look_part(THREAD).is_empty());
    assert_eq!(tables.clear(), Ok(()));
    assert_eq!(tables, Tables::new());
}

#[test]
fn errnos_have_their_numbers_and_words() {
    let numbers = Errno::ALL.map(|e| e as u32);
    assert_eq!(numbers, [1, 3, 11, 14, 17, 22]);
    for errno in Errno::ALL {
        assert_eq!(Errno::from_number(errno as u64), Some(errno));
        assert!(errno.to_string().ends_with(&format!("({errno:?})")));
    }
    assert_eq!(Errno::from_number(2), None);
    let error: Box<dyn std::error::Error> = Box::new(Errno::EPERM);
    assert_eq!(
        error.to_string(),
        "the sender may not signal the target (EPERM)"
    );
}
