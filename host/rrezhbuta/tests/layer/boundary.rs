//! The C boundary itself: numbers, the room for the answer, and what is written.

use crate::common::*;
use crate::lengths::calls;
use rrezhbuta::limits::*;
use rrezhbuta::raw::{call, look_slot, Numbers};
use rrezhbuta::{Answer, Call, NewProcess, ProcessId, Sent, SessionId, SigSet, Signal};
use rrezhbuta::{Tables, Target, ThreadId, UserId, Way};

const OLD: u64 = 0xA5A5;

fn numbered(number: u32) -> Numbers {
    Numbers {
        number,
        narrow: [100, 10, 0, 0, 0, 0],
        wide: [0; 3],
    }
}

/// The call returns that errno and writes neither to the tables nor to the answer.
fn refused(tables: &mut Tables<'_>, room: usize, numbers: &Numbers, errno: u32) {
    let before = tables.snapshot();
    let mut answer = vec![OLD; room];
    assert_eq!(call(tables, &mut answer, numbers), errno as u64);
    assert!(answer.iter().all(|&word| word == OLD));
    assert!(*tables == before);
}

#[test]
fn an_unknown_number_is_einval() {
    for number in [0, CALL_SIGRETURN + 1, u32::MAX] {
        refused(&mut two(), ANSWER_WORDS, &numbered(number), EINVAL);
    }
}

#[test]
fn no_room_for_the_answer_is_einval() {
    for number in CALL_CLEAR..=CALL_SIGRETURN {
        for room in [0, 1, ANSWER_WORDS - 1] {
            refused(&mut two(), room, &numbered(number), EINVAL);
        }
    }
}

#[test]
fn efault_goes_before_einval() {
    let mut tables = two();
    tables.processes_mut()[PROCESS_STOPPED] = 2;
    refused(&mut tables, ANSWER_WORDS, &numbered(0), EFAULT);
    for number in CALL_ADD_PROCESS..=CALL_SIGRETURN {
        refused(&mut tables, 0, &numbered(number), EFAULT);
        refused(&mut tables, ANSWER_WORDS, &numbered(number), EFAULT);
    }
    // clearing tests lengths only
    refused(&mut tables, 0, &numbered(CALL_CLEAR), EINVAL);
    let mut short = Tables::from_parts(vec![], vec![], vec![], vec![]);
    refused(&mut short, 0, &numbered(CALL_CLEAR), EFAULT);
    refused(&mut short, ANSWER_WORDS, &numbered(99), EFAULT);
}

#[test]
fn a_refused_call_writes_nothing() {
    let stranger = Call::Take { thread: NOBODY };
    refused(&mut two(), ANSWER_WORDS, &stranger.numbers(), ESRCH);
}

#[test]
fn an_answer_has_zeros_behind_it_and_the_rest_stays() {
    let mut answer = [OLD; ANSWER_WORDS + 3];
    let ask = numbered(CALL_SIGACTION);
    let mut tables = two();
    let action = handler(4, 2048);
    tables.set_sigaction(PROCESS, USR1, action).unwrap();
    assert_eq!(call(&mut tables, &mut answer, &ask), 0);
    assert_eq!(answer[..4], [ANSWER_OLD_ACTION, HANDLER, 4, 2048]);
    assert_eq!(answer[4..ANSWER_WORDS], [0; ANSWER_WORDS - 4]);
    assert_eq!(answer[ANSWER_WORDS..], [OLD; 3]);
}

#[test]
fn an_enquiry_looks_at_no_action() {
    let ask = Numbers {
        wide: [u64::MAX; 3],
        ..numbered(CALL_SIGACTION)
    };
    let mut tables = two();
    let action = handler(SA_SIGINFO, 2048);
    tables.set_sigaction(PROCESS, USR1, action).unwrap();
    let (before, mut answer) = (tables.snapshot(), [OLD; ANSWER_WORDS]);
    assert_eq!(call(&mut tables, &mut answer, &ask), 0);
    assert_eq!(Answer::from_words(&answer), Answer::OldAction(action));
    assert!(tables == before);
}

#[test]
fn every_answer_fills_the_same_words() {
    for made in calls() {
        let mut answer = [OLD; ANSWER_WORDS + 3];
        assert_eq!(call(&mut two(), &mut answer, &made.numbers()), 0);
        assert!(!answer[..ANSWER_WORDS].contains(&OLD), "{made:?}");
        assert_eq!(answer[ANSWER_WORDS..], [OLD; 3]);
    }
}

#[test]
fn the_longest_answer_fills_its_words() {
    let mut tables = two();
    tables.set_sigaction(PROCESS, RT, handler(4, 0)).unwrap();
    tables.set_sigmask(THREAD, Way::Block, SigSet(1)).unwrap();
    tables.sigqueue(ROOT, TO_THREAD, RT, 7).unwrap();
    let mut answer = [OLD; ANSWER_WORDS];
    let take = Call::Take { thread: THREAD }.numbers();
    assert_eq!(call(&mut tables, &mut answer, &take), 0);
    let record = [100, 200, 40, SI_QUEUE as u64, 1, 0, 7];
    assert_eq!(answer[..5], [ANSWER_HANDLER, HANDLER, 40, 4, 1]);
    assert_eq!(answer[5..], record);
}

/// Each argument has its place, in the documented order.
#[test]
fn every_argument_has_its_number() {
    let process = NewProcess {
        id: ProcessId(1),
        real: UserId(2),
        effective: UserId(3),
        saved: UserId(4),
        session: SessionId(5),
        thread: ThreadId(6),
        mask: SigSet(7),
    };
    let added = Call::AddProcess(process).numbers();
    assert_eq!((added.narrow, added.wide), ([1, 2, 3, 4, 5, 6], [7, 0, 0]));
    let [creator, id] = [1, 2].map(ThreadId);
    let thread = Call::AddThread { creator, id }.numbers();
    assert_eq!(thread.narrow[..2], [1, 2]);
    let to = Target::Thread(ProcessId(2), ThreadId(3));
    let (by, signal, value) = (ProcessId(1), Signal(4), 5);
    assert_eq!(
        Call::Kill { by, to, signal }.numbers().narrow[..4],
        [1, 2, 3, 4]
    );
    let to = Target::Process(ProcessId(2));
    let sent = Call::Sigqueue {
        by,
        to,
        signal,
        value,
    }
    .numbers();
    assert_eq!(
        (&sent.narrow[..4], sent.wide),
        (&[1, 2, 0, 4][..], [5, 0, 0])
    );
}

/// No thread has id 0, and a send to it is one to the process, as at the boundary.
#[test]
fn thread_0_is_the_process() {
    let mut tables = two();
    let zero = Target::Thread(PROCESS, ThreadId(0));
    assert_eq!(tables.kill(ROOT, zero, USR1), Ok(Sent::Marked));
    assert_eq!(tables.kill(ROOT, TO_PROCESS, USR1), Ok(Sent::Absorbed));
}

#[test]
fn a_look_numbers_the_slots_of_both_buffers() {
    let mut tables = two();
    assert_eq!(look_slot(&tables, 200), 0);
    tables.sigqueue(ROOT, TO_PROCESS, Signal(41), 1).unwrap();
    tables.sigqueue(ROOT, TO_PROCESS, Signal(40), 2).unwrap();
    assert_eq!(look_slot(&tables, 200), BUFFER_RECORDS as u64 + 2);
    tables.sigqueue(ROOT, TO_THREAD, Signal(39), 3).unwrap();
    assert_eq!(look_slot(&tables, 200), 1);
    tables.kill(ROOT, TO_THREAD, Signal(1)).unwrap();
    assert_eq!(look_slot(&tables, 200), 0);
    assert_eq!(look_slot(&tables, 999), 0);
    tables.threads_mut()[5].mask = SigSet(1);
    assert_eq!(look_slot(&tables, 200), 0);
}
