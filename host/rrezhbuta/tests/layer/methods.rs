//! Each method, and each answer decoded.

use crate::common::*;
use rrezhbuta::limits::*;
use rrezhbuta::{Action, Delivery, Next, ProcessId, Sent, SessionId, SigSet, Siginfo, Signal};
use rrezhbuta::{Tables, Taken, Target, Thread, ThreadId, UserId, Way};

/// A record of process 100, queued by process 1.
fn record(target: Target, signal: Signal, value: u64) -> Siginfo {
    Siginfo {
        target,
        signal,
        code: -1,
        sender: ROOT,
        uid: UserId(0),
        value,
    }
}

/// Those of Linux on x86-64.
#[test]
fn signals_have_their_numbers() {
    let [int, ill, trap, kill] = [Signal::INT, Signal::ILL, Signal::TRAP, Signal::KILL];
    assert_eq!([int, ill, trap, kill].map(u64::from), [2, 4, 5, 9]);
    let stops = [Signal::STOP, Signal::TSTP, Signal::TTIN, Signal::TTOU];
    assert_eq!(stops.map(u64::from), [19, 20, 21, 22]);
    let others = [Signal::CHLD, Signal::CONT, Signal::URG, Signal::WINCH];
    assert_eq!(others.map(u64::from), [17, 18, 23, 28]);
}

#[test]
fn adding_ending_and_clearing() {
    let mut tables = two();
    let second = ThreadId(201);
    tables.add_thread(THREAD, second).unwrap();
    let ids: Vec<_> = tables.threads().iter().map(|t| t.id).take(4).collect();
    assert_eq!(ids, [2, 200, 201, 0]);
    assert_eq!(tables.threads()[2].process, 100);
    tables.end_thread(THREAD).unwrap();
    assert_eq!(tables.threads()[1], Thread::FREE);
    tables.end_thread(second).unwrap();
    assert_eq!(tables.processes()[PROCESS_WORDS], 0);
    tables.end_process(ROOT).unwrap();
    assert_eq!(tables, Tables::new());
    let mut tables = two();
    tables.clear().unwrap();
    assert_eq!(tables, Tables::new());
}

#[test]
fn a_process_is_laid_out_as_documented() {
    let mut tables = Tables::new();
    let mut process = user(100, 1, 200);
    (process.effective, process.saved) = (UserId(2), UserId(3));
    (process.session, process.mask) = (SessionId(4), SigSet(768));
    tables.add_process(process).unwrap();
    let action = handler(4, 2048);
    tables.set_sigaction(PROCESS, Signal(64), action).unwrap();
    tables.kill(PROCESS, TO_PROCESS, Signal::STOP).unwrap();
    tables.kill(PROCESS, TO_PROCESS, USR1).unwrap();
    let words = tables.processes();
    assert_eq!(words[..HEAD_WORDS], [100, 1, 2, 3, 4, 1, 512]);
    assert_eq!(words[PROCESS_WORDS - 3..PROCESS_WORDS], [HANDLER, 4, 2048]);
    assert_eq!(tables.threads()[0].mask, SigSet(512));
}

#[test]
fn every_answer_to_a_send() {
    let mut tables = two();
    let mut kill = |to, signal| tables.kill(ROOT, to, signal);
    assert_eq!(kill(TO_PROCESS, Signal(0)), Ok(Sent::Tested));
    assert_eq!(kill(TO_THREAD, Signal::STOP), Ok(Sent::Acted));
    assert_eq!(kill(TO_PROCESS, Signal::CHLD), Ok(Sent::Dropped));
    assert_eq!(kill(TO_PROCESS, USR1), Ok(Sent::Marked));
    assert_eq!(kill(TO_PROCESS, USR1), Ok(Sent::Absorbed));
    let mut sigqueue = |signal| tables.sigqueue(ROOT, TO_PROCESS, signal, 7);
    assert_eq!(sigqueue(Signal(0)), Ok(Sent::Tested));
    assert_eq!(sigqueue(Signal::URG), Ok(Sent::Dropped));
    assert_eq!(sigqueue(USR1), Ok(Sent::Absorbed));
    assert_eq!(sigqueue(RT), Ok(Sent::Kept));
    assert_eq!(sigqueue(Signal::KILL), Ok(Sent::Acted));
    assert_eq!(tables.process_buffer(), [0; BUFFER_BYTES]);
}

#[test]
fn actions() {
    let mut tables = two();
    let first = handler(KNOWN_FLAGS, u64::MAX);
    let old = tables.set_sigaction(PROCESS, RT, first);
    assert_eq!(old, Ok(Action::default()));
    let stored = handler(KNOWN_FLAGS, !262_400);
    assert_eq!(tables.sigaction(PROCESS, RT), Ok(stored));
    let old = tables.set_sigaction(PROCESS, RT, handler(0, 0));
    assert_eq!(old, Ok(stored));
    let fixed = tables.sigaction(PROCESS, Signal::KILL);
    assert_eq!(fixed, Ok(Action::default()));
}

#[test]
fn masks() {
    let mut tables = two();
    let old = tables.set_sigmask(THREAD, Way::Block, SigSet(u64::MAX));
    assert_eq!(old, Ok(SigSet::EMPTY));
    let all = SigSet(18446744073709289215);
    assert_eq!(tables.sigmask(THREAD), Ok(all));
    tables.set_sigmask(THREAD, Way::SetMask, SigSet(6)).unwrap();
    tables.set_sigmask(THREAD, Way::Unblock, SigSet(2)).unwrap();
    assert_eq!(tables.sigreturn(THREAD, SigSet(768)), Ok(SigSet(4)));
    assert_eq!(tables.sigmask(THREAD), Ok(SigSet(512)));
    assert_eq!(tables.sigmask(ROOTS), Ok(SigSet::EMPTY));
}

#[test]
fn the_pending_set() {
    let mut tables = two();
    tables.kill(ROOT, TO_PROCESS, USR1).unwrap();
    tables.sigqueue(ROOT, TO_THREAD, RT, 7).unwrap();
    assert_eq!(tables.sigpending(THREAD), Ok(SigSet::EMPTY));
    let all = SigSet(u64::MAX);
    tables.set_sigmask(THREAD, Way::SetMask, all).unwrap();
    let both = SigSet::of_signal(USR1).union(SigSet::of_signal(RT));
    assert_eq!(tables.sigpending(THREAD), Ok(both));
    assert!(both.has(RT) && !both.has(Signal(41)) && !both.has(Signal(0)));
}

#[test]
fn looks() {
    let mut tables = two();
    assert_eq!(tables.look(THREAD), Ok(Next::Nothing));
    assert!(tables.look_part(THREAD).is_empty());
    tables.sigqueue(ROOT, TO_PROCESS, Signal(41), 1).unwrap();
    tables.sigqueue(ROOT, TO_PROCESS, RT, 2).unwrap();
    let before = tables.snapshot();
    let next = record(TO_PROCESS, RT, 2);
    assert_eq!(tables.look(THREAD), Ok(Next::Record(next)));
    let part = tables.look_part(THREAD);
    assert_eq!(Siginfo::from_bytes(part), Some(next));
    let second = &tables.process_buffer()[RECORD_BYTES..2 * RECORD_BYTES];
    assert!(std::ptr::eq(part, second));
    tables.sigqueue(ROOT, TO_THREAD, RT, 3).unwrap();
    let first = &tables.thread_buffer()[..RECORD_BYTES];
    assert!(std::ptr::eq(tables.look_part(THREAD), first));
    assert_eq!(before.process_buffer(), tables.process_buffer());
}

#[test]
fn a_look_at_a_mark_or_for_nobody_is_empty() {
    let mut tables = two();
    tables.kill(ROOT, TO_THREAD, USR1).unwrap();
    let mark = Next::Mark {
        target: TO_THREAD,
        signal: USR1,
    };
    assert_eq!(tables.look(THREAD), Ok(mark));
    assert!(tables.look_part(THREAD).is_empty());
    assert!(tables.look_part(NOBODY).is_empty());
}

#[test]
fn who_can_take() {
    let mut tables = two();
    assert_eq!(tables.who(PROCESS), Ok(None));
    tables.kill(ROOT, TO_PROCESS, USR1).unwrap();
    assert_eq!(tables.who(PROCESS), Ok(Some(THREAD)));
}

#[test]
fn a_handler_for_a_record() {
    let mut tables = two();
    let action = handler(SA_SIGINFO | SA_RESETHAND, 2048);
    tables.set_sigaction(PROCESS, RT, action).unwrap();
    tables.set_sigmask(THREAD, Way::Block, SigSet(1)).unwrap();
    tables.sigqueue(ROOT, TO_THREAD, RT, u64::MAX).unwrap();
    let delivery = Delivery {
        handler: HANDLER,
        signal: RT,
        flags: SA_SIGINFO | SA_RESETHAND,
        saved: SigSet(1),
        info: record(TO_THREAD, RT, u64::MAX),
    };
    assert_eq!(tables.take(THREAD), Ok(Taken::Handler(delivery)));
    let mask = SigSet(1 | 2048 | 1 << 39);
    assert_eq!(tables.sigmask(THREAD), Ok(mask));
    let reset = Action {
        handler: SIG_DFL,
        flags: RESETHAND,
        mask: SigSet(2048),
    };
    assert_eq!(tables.sigaction(PROCESS, RT), Ok(reset));
}

#[test]
fn a_handler_for_a_mark() {
    let mut tables = two();
    tables.set_sigaction(PROCESS, USR1, handler(0, 0)).unwrap();
    tables.kill(ROOT, TO_PROCESS, USR1).unwrap();
    let Ok(Taken::Handler(delivery)) = tables.take(THREAD) else {
        panic!("a handler was expected");
    };
    let mark = Siginfo {
        code: 0,
        sender: ProcessId(0),
        ..record(TO_PROCESS, USR1, 0)
    };
    assert_eq!(delivery.info, mark);
}

#[test]
fn defaults_taken() {
    let mut tables = two();
    let (stop, cont) = (Signal::TSTP, Signal::CONT);
    assert_eq!(tables.take(THREAD), Ok(Taken::Nothing));
    tables.kill(ROOT, TO_PROCESS, cont).unwrap();
    assert_eq!(tables.take(THREAD), Ok(Taken::NoAction(cont)));
    tables.kill(ROOT, TO_PROCESS, stop).unwrap();
    assert_eq!(tables.take(THREAD), Ok(Taken::Stop(stop)));
    tables.kill(ROOT, TO_PROCESS, cont).unwrap();
    tables.kill(ROOT, TO_PROCESS, USR1).unwrap();
    assert_eq!(tables.take(THREAD), Ok(Taken::End(USR1)));
}

#[test]
fn a_host_may_keep_its_own_tables() {
    let mut words = vec![0; PROCESS_TABLE];
    let mut threads = [Thread::FREE; THREAD_PLACES];
    let mut buffers = [[0; BUFFER_BYTES]; 2];
    let [thread_buffer, process_buffer] = &mut buffers;
    let mut tables = Tables::from_parts(
        &mut words[..],
        &mut threads[..],
        &mut thread_buffer[..],
        &mut process_buffer[..],
    );
    tables.add_process(user(100, 1000, 200)).unwrap();
    tables.sigqueue(PROCESS, TO_PROCESS, RT, 7).unwrap();
    let copy = tables.snapshot();
    tables.sigqueue(PROCESS, TO_PROCESS, RT, 8).unwrap();
    assert_ne!(copy, tables);
    assert_eq!((words[0], threads[0].id), (100, 200));
    assert_eq!(Siginfo::from_bytes(&buffers[1][32..64]).unwrap().value, 8);
    assert_eq!(copy.process_buffer()[32..64], [0; 32]);
}
