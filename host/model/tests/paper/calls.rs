//! What the calls do beyond document 01's numbers.

use crate::common::*;
use rrezhbuta_model::signal::{DEFAULT, FLAGS, IGNORE, NODEFER, RESETHAND, RESTART, SIGINFO};
use rrezhbuta_model::{
    Action, Answer, Buffer, Call, Model, NewProcess, Next, Process, Record, Set, Slot,
};

const ILL: u32 = 4;
const TRAP: u32 = 5;
const USR1: u32 = 10;
const TERM: u32 = 15;
const CHLD: u32 = 17;
const CONT: u32 = 18;
const STOP: u32 = 19;
const TSTP: u32 = 20;
const TTIN: u32 = 21;
const TTOU: u32 = 22;

fn bit(signal: u32) -> u64 {
    1 << (signal - 1)
}

fn handler(signal: u32) -> Call {
    store(signal, 5000, 0, 0)
}

fn thread(creator: u32, id: u32) -> Call {
    Call::AddThread { creator, id }
}

fn ids(model: &Model) -> (Vec<u64>, Vec<u64>) {
    let rows = model.rows();
    (
        rows.processes.iter().map(|p| p.id).take(4).collect(),
        rows.threads.iter().map(|t| t.id).take(6).collect(),
    )
}

#[test]
fn what_is_added_goes_to_the_lowest_free_place() {
    let mut model = one(0);
    let more = [
        process(101, 1, 201, 0),
        process(102, 1, 202, 0),
        thread(200, 203),
        Call::EndProcess { id: 101 },
        thread(202, 204),
        process(103, 1, 205, 0),
    ];
    assert_eq!(answers(&mut model, &more), [Ok(Answer::Done); 6]);
    let (processes, threads) = ids(&model);
    assert_eq!(processes, [100, 103, 102, 0]);
    assert_eq!(threads, [200, 204, 202, 203, 205, 0]);
}

#[test]
fn a_thread_has_its_creators_mask_and_nothing_pending() {
    let mut model = one(512 | 256);
    answers(&mut model, &[kill(200, USR1), thread(200, 201)]);
    let added = &model.rows().threads[1];
    assert_eq!((added.process, added.mask), (100, Set(512)));
    assert_eq!(added.marks, Set::EMPTY);
}

#[test]
fn the_end_of_a_thread_discards_its_queue_and_the_last_ends_the_process() {
    let mut model = one(0);
    answers(
        &mut model,
        &[
            thread(200, 201),
            sigqueue(200, 40, 1),
            sigqueue(201, 40, 2),
            sigqueue(0, 40, 3),
        ],
    );
    let end = Call::EndThread { id: 200 };
    assert_eq!(model.call(&end), Ok(Answer::Done));
    let left: Vec<_> = model
        .rows()
        .thread_records
        .iter()
        .map(|r| r.value)
        .collect();
    assert_eq!(left, [2]);
    assert_eq!(model.call(&Call::EndThread { id: 201 }), Ok(Answer::Done));
    assert_eq!(model, Model::new());
}

#[test]
fn records_of_a_buffer_stand_in_order_of_arrival() {
    let mut model = one(0);
    answers(
        &mut model,
        &[
            process(101, 1000, 201, 0),
            sigqueue(0, 41, 1),
            Call::Sigqueue {
                by: 100,
                to: 101,
                thread: 0,
                signal: 35,
                value: 2,
            },
            sigqueue(0, 40, 3),
            sigqueue(200, 40, 4),
        ],
    );
    let values = |records: &[Record]| records.iter().map(|r| r.value).collect::<Vec<_>>();
    assert_eq!(values(&model.rows().process_records), [1, 2, 3]);
    assert_eq!(values(&model.rows().thread_records), [4]);
    let last = model.rows().process_records[2];
    assert_eq!((last.sender, last.uid, last.code), (100, 1000, u32::MAX));
}

/// The marks of process 100 and of thread 200.
fn all_marks(model: &Model) -> (Set, Set) {
    let rows = model.rows();
    (rows.processes[0].marks, rows.threads[0].marks)
}

#[test]
fn stop_discards_cont_in_every_queue() {
    let mut model = one(0);
    let calls = [
        kill(0, CONT),
        thread(200, 201),
        kill(200, CONT),
        sigqueue(201, CONT, 1),
    ];
    answers(&mut model, &calls);
    assert_eq!(all_marks(&model), (Set(bit(CONT)), Set(bit(CONT))));
    assert_eq!(model.call(&kill(201, STOP)), Ok(Answer::Acted));
    assert_eq!(all_marks(&model), (Set::EMPTY, Set::EMPTY));
    assert!(model.rows().thread_records.is_empty());
    assert_eq!(model.rows().processes[0].stopped, 1);
}

#[test]
fn cont_discards_the_stop_signals_and_continues_even_where_it_is_ignored() {
    let mut model = one(0);
    let calls = [
        store(CONT, IGNORE, 0, 0),
        kill(0, STOP),
        kill(0, TTIN),
        kill(200, TTOU),
        sigqueue(200, TSTP, 1),
        sigqueue(0, TERM, 1),
    ];
    answers(&mut model, &calls);
    assert_eq!(all_marks(&model), (Set(bit(TTIN)), Set(bit(TTOU))));
    assert_eq!(model.call(&kill(0, CONT)), Ok(Answer::Dropped));
    assert_eq!(all_marks(&model), (Set::EMPTY, Set::EMPTY));
    assert!(model.rows().thread_records.is_empty());
    assert_eq!(model.rows().process_records.len(), 1);
    assert_eq!(model.rows().processes[0].stopped, 0);
}

#[test]
fn signal_31_is_standard_and_32_is_realtime() {
    let mut model = one(0);
    use Answer::{Absorbed, Kept};
    let calls = [31, 31, 32, 32].map(|signal| sigqueue(0, signal, 1));
    assert_eq!(
        answers(&mut model, &calls),
        [Kept, Absorbed, Kept, Kept].map(Ok)
    );
}

#[test]
fn three_signals_are_ignored_by_default() {
    let mut model = one(0);
    for signal in (1..=64).filter(|s| ![9, 18, 19].contains(s)) {
        let dropped = model.call(&kill(0, signal)) == Ok(Answer::Dropped);
        assert_eq!(dropped, [17, 23, 28].contains(&signal), "{signal}");
    }
}

#[test]
fn a_record_has_its_senders_real_user_id() {
    let mut model = one(0);
    let sender = Call::AddProcess(NewProcess {
        id: 101,
        real: 1000,
        effective: 0,
        saved: 3,
        session: 7,
        thread: 201,
        mask: 0,
    });
    let sigqueue = Call::Sigqueue {
        by: 101,
        to: 100,
        thread: 0,
        signal: 40,
        value: 9,
    };
    assert_eq!(
        answers(&mut model, &[sender, sigqueue]),
        [Ok(Answer::Done), Ok(Answer::Kept)]
    );
    let record = model.rows().process_records[0];
    assert_eq!((record.sender, record.uid, record.value), (101, 1000, 9));
}

#[test]
fn realtime_marks_and_records_stand_side_by_side() {
    let mut model = one(0);
    let sent = answers(
        &mut model,
        &[
            handler(40),
            kill(0, 40),
            sigqueue(0, 40, 1),
            kill(0, 40),
            sigqueue(0, 40, 2),
        ],
    );
    use Answer::{Absorbed, Kept, Marked};
    assert_eq!(sent[1..], [Marked, Kept, Absorbed, Kept].map(Ok));
    let codes: Vec<_> = (0..3).map(|_| taken(&mut model)).collect();
    let shape = codes.iter().map(|r| (r.value, r.code, r.sender));
    let expected = [(1, u32::MAX, 100), (2, u32::MAX, 100), (0, 0, 0)];
    assert!(shape.eq(expected));
    assert_eq!((codes[2].process, codes[2].thread), (100, 0));
}

#[test]
fn a_standard_signal_is_pending_once_in_a_queue_either_way() {
    let mut model = one(0);
    let calls = [sigqueue(0, USR1, 1), kill(0, USR1), kill(200, USR1)];
    let sent = answers(&mut model, &calls);
    use Answer::{Absorbed, Kept, Marked};
    assert_eq!(sent, [Kept, Absorbed, Marked].map(Ok));
    assert_eq!(model.call(&sigqueue(200, USR1, 2)), Ok(Answer::Absorbed));
}

#[test]
fn an_action_is_stored_as_given_but_for_9_and_19_in_its_mask() {
    let mut model = one(0);
    let each = [SIGINFO, RESTART, NODEFER, RESETHAND];
    for flags in [0, FLAGS].into_iter().chain(each) {
        let stored = Action {
            handler: 5000,
            flags,
            mask: Set(u64::MAX).less(Set::UNMASKABLE),
        };
        answers(&mut model, &[store(USR1, 5000, flags, u64::MAX)]);
        assert_eq!(model.call(&ask(USR1)), Ok(Answer::OldAction(stored)));
    }
}

#[test]
fn storing_ignore_discards_the_signal() {
    let mut model = one(0);
    let calls = [
        kill(0, USR1),
        sigqueue(200, USR1, 1),
        store(USR1, IGNORE, FLAGS, 0),
    ];
    answers(&mut model, &calls);
    assert!(model.rows().thread_records.is_empty());
    assert_eq!(model.rows().processes[0].marks, Set::EMPTY);
}

#[test]
fn default_for_an_ignoring_signal_discards_it_and_for_another_keeps_it() {
    let mut model = one(0);
    let calls = [
        handler(CHLD),
        kill(0, CHLD),
        kill(0, USR1),
        store(CHLD, DEFAULT, 0, 0),
        store(USR1, DEFAULT, 0, 0),
    ];
    answers(&mut model, &calls);
    assert_eq!(model.rows().processes[0].marks, Set(bit(USR1)));
}

#[test]
fn resethand_discards_what_the_default_ignores() {
    let mut model = one(0);
    let calls = [
        store(CHLD, 5000, RESETHAND | SIGINFO, 2048),
        kill(0, CHLD),
        sigqueue(200, CHLD, 1),
        TAKE,
        ask(CHLD),
    ];
    let told = answers(&mut model, &calls);
    let Ok(Answer::Handler { flags, record, .. }) = told[3] else {
        panic!("{:?}", told[3]);
    };
    assert_eq!((flags, record.value), (RESETHAND | SIGINFO, 1));
    let reset = Action {
        handler: DEFAULT,
        flags: RESETHAND,
        mask: Set(2048),
    };
    assert_eq!(told[4], Ok(Answer::OldAction(reset)));
    assert_eq!(model.rows().processes[0].marks, Set::EMPTY);
}

#[test]
fn resethand_spares_ill_and_trap() {
    for (signal, left) in [(ILL, 5000), (TRAP, 5000), (USR1, DEFAULT)] {
        let mut model = one(0);
        let stored = store(signal, 5000, RESETHAND, 0);
        answers(&mut model, &[stored, kill(0, signal), TAKE]);
        assert_eq!(model.rows().processes[0].action(signal).handler, left);
    }
}

#[test]
fn default_takes() {
    let mut model = one(0);
    let calls = [kill(0, CONT), TAKE, kill(0, TSTP), TAKE, TAKE];
    let told = answers(&mut model, &calls);
    assert_eq!(told[1], Ok(Answer::NoAction(CONT)));
    assert_eq!(told[3..], [Ok(Answer::Stop(TSTP)), Ok(Answer::Nothing)]);
    let told = answers(&mut model, &[kill(0, TERM), TAKE, kill(0, CONT), TAKE]);
    assert_eq!(told[1], Ok(Answer::Nothing));
    assert_eq!(told[3], Ok(Answer::End(TERM)));
    assert_eq!(model, Model::new());
}

#[test]
fn a_look_changes_nothing_and_says_where_the_record_lies() {
    let mut model = one(0);
    let look = Call::Look { thread: 200 };
    let nothing = Ok(Answer::Looked(Next::Nothing));
    assert_eq!(model.call(&look), nothing);
    answers(
        &mut model,
        &[sigqueue(0, 40, 1), sigqueue(200, 41, 2), sigqueue(0, 39, 3)],
    );
    let before = model.clone();
    let record = model.rows().process_records[1];
    assert_eq!(model.call(&look), Ok(Answer::Looked(Next::Record(record))));
    let slot = Slot {
        buffer: Buffer::Process,
        index: 1,
    };
    assert_eq!(model.look_slot(200), Some(slot));
    assert_eq!(model, before);
    answers(&mut model, &[kill(200, TERM)]);
    let mark = Next::Mark {
        process: 100,
        thread: 200,
        signal: TERM,
    };
    assert_eq!(model.call(&look), Ok(Answer::Looked(mark)));
    assert_eq!(model.look_slot(200), None);
    assert_eq!(model.look_slot(999), None);
}

#[test]
fn who_names_the_thread_in_the_lowest_place() {
    let mut model = one(0);
    let who = Call::Who { process: 100 };
    answers(&mut model, &[thread(200, 150), kill(0, USR1)]);
    assert_eq!(model.call(&who), Ok(Answer::CanTake(200)));
    answers(&mut model, &[sigmask(0, bit(USR1))]);
    assert_eq!(model.call(&who), Ok(Answer::CanTake(150)));
    assert_eq!(model.next_signal(150), Some(USR1));
    assert_eq!(model.next_signal(200), None);
    answers(&mut model, &[kill(0, STOP)]);
    assert_eq!(model.call(&who), Ok(Answer::NoneCan));
}

#[test]
fn a_model_from_its_own_rows_is_the_same() {
    let mut model = one(0);
    answers(&mut model, &[sigqueue(0, 40, 1), kill(200, USR1)]);
    assert_eq!(model.judge(), Ok(()));
    assert_eq!(Model::from_rows(model.rows().clone()), Ok(model));
    assert_eq!(Model::default().rows().processes[0], Process::FREE);
}
