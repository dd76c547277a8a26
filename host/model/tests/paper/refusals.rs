//! Each errno, and which comes first.

use crate::common::*;
use rrezhbuta_model::errno::{EAGAIN, EEXIST, EINVAL, EPERM, ESRCH};
use rrezhbuta_model::signal::{IGNORE, NODEFER, RESETHAND, RESTART, SIGINFO};
use rrezhbuta_model::{Action, Answer, Call, Model, NewProcess, Set};
use rrezhbuta_model::{PROCESS_PLACES, THREAD_PLACES};

const LARGEST: u32 = 2_147_483_647;

fn send(by: u32, to: u32, thread: u32, signal: u32) -> Call {
    Call::Kill {
        by,
        to,
        thread,
        signal,
    }
}

fn thread(creator: u32, id: u32) -> Call {
    Call::AddThread { creator, id }
}

/// Processes 100 and 101 of users 1000 and 1001, the second in another session.
fn two() -> Model {
    let mut model = one(0);
    let other = Call::AddProcess(NewProcess {
        id: 101,
        real: 1001,
        effective: 1001,
        saved: 1001,
        session: 8,
        thread: 201,
        mask: 0,
    });
    assert_eq!(model.call(&other), Ok(Answer::Done));
    model
}

/// The call is refused so, and nothing changes.
fn refused(model: &mut Model, call: Call, errno: u32) {
    let before = model.clone();
    assert_eq!(model.call(&call), Err(errno), "{call:?}");
    assert_eq!(*model, before, "{call:?}");
}

#[test]
fn einval_comes_first() {
    let mut model = two();
    for signal in [65, u32::MAX] {
        refused(&mut model, send(999, 998, 997, signal), EINVAL);
        refused(&mut model, sigqueue(0, signal, 1), EINVAL);
    }
    for signal in [0, 65] {
        refused(&mut model, ask(signal), EINVAL);
        let action = Call::Sigaction {
            process: 999,
            signal,
            new: None,
        };
        refused(&mut model, action, EINVAL);
    }
    refused(&mut model, store(9, 0, 0, 0), EINVAL);
    refused(&mut model, store(19, 1, 0, 0), EINVAL);
    let nobodys_mask = Call::Sigmask {
        thread: 0,
        way: 3,
        set: Some(0),
    };
    refused(&mut model, nobodys_mask, EINVAL);
    for id in [0, LARGEST + 1] {
        refused(&mut model, process(id, 0, 200, 0), EINVAL);
        refused(&mut model, process(100, 0, id, 0), EINVAL);
        refused(&mut model, thread(999, id), EINVAL);
    }
    assert_eq!(
        model.call(&process(LARGEST, 0, LARGEST, 0)),
        Ok(Answer::Done)
    );
}

/// The bits of a flags word that are none of the four.
fn unknown_flags() -> impl Iterator<Item = u64> {
    let known = [2, 28, 30, 31];
    (0..64).filter(move |n| !known.contains(n)).map(|n| 1 << n)
}

#[test]
fn an_unknown_flag_is_einval_and_the_old_action_stays() {
    let mut model = one(0);
    let old = Action {
        handler: 5000,
        flags: SIGINFO,
        mask: Set(2048),
    };
    let begin = [
        store(10, 5000, SIGINFO, 2048),
        kill(0, 10),
        sigqueue(200, 10, 1),
    ];
    assert!(answers(&mut model, &begin).iter().all(Result::is_ok));
    for flag in unknown_flags() {
        for known in [0, SIGINFO, SIGINFO | RESTART | NODEFER | RESETHAND] {
            // this would discard what is pending
            refused(&mut model, store(10, IGNORE, known | flag, 0), EINVAL);
        }
    }
    refused(&mut model, store(10, IGNORE, u64::MAX, 0), EINVAL);
    assert_eq!(model.call(&ask(10)), Ok(Answer::OldAction(old)));
}

#[test]
fn an_unknown_flag_comes_before_esrch() {
    let mut model = two();
    for flags in unknown_flags().chain([u64::MAX]) {
        let new = Some(Action {
            flags,
            ..Action::DEFAULT
        });
        let nobodys = Call::Sigaction {
            process: 999,
            signal: 10,
            new,
        };
        refused(&mut model, nobodys, EINVAL);
    }
}

#[test]
fn esrch_for_who_is_not_live() {
    let mut model = two();
    for id in [0, 102, u32::MAX] {
        refused(&mut model, send(id, 100, 0, 10), ESRCH);
        refused(&mut model, send(100, id, 0, 10), ESRCH);
        refused(&mut model, Call::EndProcess { id }, ESRCH);
        refused(&mut model, Call::Who { process: id }, ESRCH);
        let (thread, mask) = (id, 0);
        refused(&mut model, Call::EndThread { id }, ESRCH);
        refused(&mut model, Call::Sigpending { thread }, ESRCH);
        refused(&mut model, Call::Look { thread }, ESRCH);
        refused(&mut model, Call::Take { thread }, ESRCH);
        refused(&mut model, Call::Sigreturn { thread, mask }, ESRCH);
        let (way, set) = (7, None);
        refused(&mut model, Call::Sigmask { thread, way, set }, ESRCH);
    }
    refused(&mut model, thread(999, 200), ESRCH);
    let action = Call::Sigaction {
        process: 999,
        signal: 9,
        new: None,
    };
    refused(&mut model, action, ESRCH);
    // a live thread, but of the other process, and before the permission
    refused(&mut model, send(100, 101, 200, 10), ESRCH);
    refused(&mut model, send(100, 101, 999, 10), ESRCH);
}

#[test]
fn eperm_for_a_stranger() {
    let mut model = two();
    refused(&mut model, send(100, 101, 0, 10), EPERM);
    refused(&mut model, send(100, 101, 201, 0), EPERM);
    refused(&mut model, send(100, 101, 0, 18), EPERM);
}

/// Whether a sender of these user ids may send CONT and another signal to a target of real 1, effective 2, saved 3 in
/// the same session.
fn may(real: u32, effective: u32) -> [bool; 2] {
    let mut model = Model::new();
    let user = |id, real, effective, saved| {
        Call::AddProcess(NewProcess {
            id,
            real,
            effective,
            saved,
            session: 7,
            thread: id,
            mask: 0,
        })
    };
    model.call(&user(100, 1, 2, 3)).unwrap();
    model.call(&user(101, real, effective, 1)).unwrap();
    [18, 10].map(|signal| model.call(&send(101, 100, 0, signal)).is_ok())
}

#[test]
fn who_may_signal() {
    assert_eq!(may(9, 0), [true, true]);
    assert_eq!(may(1, 9), [true, true]);
    assert_eq!(may(3, 9), [true, true]);
    assert_eq!(may(9, 1), [true, true]);
    assert_eq!(may(9, 3), [true, true]);
    assert_eq!(may(2, 2), [true, false]);
    assert_eq!(may(0, 9), [true, false]);
}

#[test]
fn eexist_before_eagain() {
    let mut model = two();
    refused(&mut model, process(100, 0, 300, 0), EEXIST);
    refused(&mut model, process(300, 0, 200, 0), EEXIST);
    refused(&mut model, thread(200, 201), EEXIST);
    let last = 100 + PROCESS_PLACES as u32 - 1;
    for id in 102..=last {
        assert_eq!(model.call(&process(id, 0, id, 0)), Ok(Answer::Done));
    }
    refused(&mut model, process(last, 0, 300, 0), EEXIST);
    refused(&mut model, process(300, 0, 300, 0), EAGAIN);
    for id in (1000..).take(THREAD_PLACES - PROCESS_PLACES) {
        assert_eq!(model.call(&thread(200, id)), Ok(Answer::Done));
    }
    refused(&mut model, thread(200, 1000), EEXIST);
    refused(&mut model, thread(200, 2000), EAGAIN);
    // a process place is free again, a thread place is not
    assert_eq!(model.call(&Call::EndProcess { id: last }), Ok(Answer::Done));
    assert_eq!(model.call(&thread(200, 2000)), Ok(Answer::Done));
    refused(&mut model, process(300, 0, 300, 0), EAGAIN);
}

/// Process 100 stopped, with 32 records.
fn full() -> Model {
    let mut model = one(0);
    for value in 0..31 {
        assert_eq!(model.call(&sigqueue(200, 34, value)), Ok(Answer::Kept));
    }
    let last = [kill(0, 19), sigqueue(0, 20, 1)];
    let expected = [Ok(Answer::Acted), Ok(Answer::Kept)];
    assert_eq!(answers(&mut model, &last), expected);
    model
}

#[test]
fn eagain_only_where_a_record_is_needed() {
    let mut model = full();
    refused(&mut model, sigqueue(0, 40, 1), EAGAIN);
    // CONT would make room by discarding TSTP, but the limit is judged before
    refused(&mut model, sigqueue(0, 18, 1), EAGAIN);
    use Answer::{Absorbed, Acted, Dropped, Marked, Tested};
    let others = [
        sigqueue(0, 0, 1),
        sigqueue(0, 17, 1),
        sigqueue(0, 20, 1),
        kill(0, 40),
        sigqueue(0, 19, 1),
        kill(0, 18),
    ];
    let expected = [Tested, Dropped, Absorbed, Marked, Acted, Marked].map(Ok);
    assert_eq!(answers(&mut model, &others), expected);
    // the plain CONT discarded TSTP's record, so there is room for one
    let sent = answers(&mut model, &[sigqueue(0, 40, 1), sigqueue(0, 40, 2)]);
    assert_eq!(sent, [Ok(Answer::Kept), Err(EAGAIN)]);
}
