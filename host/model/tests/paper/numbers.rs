//! Document 01's "Numbers to run against", and its "Readings that bit us".

use crate::common::*;
use rrezhbuta_model::errno::{EAGAIN, EINVAL};
use rrezhbuta_model::{Action, Answer, Call, Model, Set};

const HANDLER: u64 = 5000;
const INT: u32 = 2;
const USR1: u32 = 10;
const CHLD: u32 = 17;
const CONT: u32 = 18;
const STOP: u32 = 19;
const TSTP: u32 = 20;
const NODEFER: u64 = 0x4000_0000;
const RESETHAND: u64 = 0x8000_0000;
const ALL_BUT_KILL_AND_STOP: u64 = 18446744073709289215;

/// Process 100 with a flagless handler for each of the signals.
fn handling(signals: &[u32], mask: u64) -> Model {
    let mut model = one(mask);
    for &signal in signals {
        let old = model.call(&store(signal, HANDLER, 0, 0));
        assert_eq!(old, Ok(Answer::OldAction(Action::DEFAULT)));
    }
    model
}

fn values_taken(model: &mut Model, count: usize) -> Vec<u64> {
    (0..count).map(|_| taken(model).value).collect()
}

#[test]
fn case_1_blocking_everything() {
    let mut model = one(0);
    assert_eq!(
        model.call(&sigmask(0, u64::MAX)),
        Ok(Answer::OldMask(Set(0)))
    );
    assert_eq!(mask_now(&mut model), ALL_BUT_KILL_AND_STOP);
}

#[test]
fn case_2_unblocking() {
    let mut model = one(6);
    assert_eq!(model.call(&sigmask(1, 2)), Ok(Answer::OldMask(Set(6))));
    assert_eq!(mask_now(&mut model), 4);
}

#[test]
fn case_3_the_way_counts_only_with_a_set() {
    let mut model = one(6);
    let ask = Call::Sigmask {
        thread: 200,
        way: 7,
        set: None,
    };
    assert_eq!(model.call(&ask), Ok(Answer::OldMask(Set(6))));
    assert_eq!(model.call(&sigmask(7, 1)), Err(EINVAL));
    assert_eq!(mask_now(&mut model), 6);
}

/// The mask in the handler of signal 10.
fn handler_mask(flags: u64, action_mask: u64) -> u64 {
    let mut model = one(0);
    model
        .call(&store(USR1, HANDLER, flags, action_mask))
        .unwrap();
    model.call(&kill(0, USR1)).unwrap();
    model.call(&TAKE).unwrap();
    mask_now(&mut model)
}

#[test]
fn case_4_the_mask_in_a_handler() {
    assert_eq!(handler_mask(0, 2048), 2560);
    assert_eq!(handler_mask(NODEFER, 2048), 2048);
    assert_eq!(handler_mask(0, u64::MAX), ALL_BUT_KILL_AND_STOP);
}

#[test]
fn case_5_a_realtime_signal_in_order_of_arrival() {
    let mut model = handling(&[40], 1 << 39);
    for value in 1..=3 {
        assert_eq!(model.call(&sigqueue(0, 40, value)), Ok(Answer::Kept));
    }
    assert_eq!(model.call(&TAKE), Ok(Answer::Nothing));
    model.call(&sigmask(1, 1 << 39)).unwrap();
    assert_eq!(values_taken(&mut model, 3), [1, 2, 3]);
    assert_eq!(model.call(&TAKE), Ok(Answer::Nothing));
}

#[test]
fn case_6_the_lowest_number_and_then_the_thread() {
    let mut model = handling(&[34, 35], 0);
    answers(&mut model, &[sigqueue(0, 35, 1), sigqueue(0, 34, 2)]);
    assert_eq!(values_taken(&mut model, 2), [2, 1]);
    answers(&mut model, &[sigqueue(200, 35, 1), sigqueue(0, 34, 2)]);
    assert_eq!(values_taken(&mut model, 2), [2, 1]);
    answers(&mut model, &[sigqueue(0, 34, 1), sigqueue(200, 34, 2)]);
    assert_eq!(values_taken(&mut model, 2), [2, 1]);
}

#[test]
fn case_7_a_standard_signal_is_taken_once() {
    let mut model = handling(&[INT], 2);
    let sent = answers(&mut model, &[kill(0, INT), kill(0, INT)]);
    assert_eq!(sent, [Ok(Answer::Marked), Ok(Answer::Absorbed)]);
    model.call(&sigmask(1, 2)).unwrap();
    assert_eq!(taken(&mut model).signal, INT);
    assert_eq!(model.call(&TAKE), Ok(Answer::Nothing));
}

/// Process 100 with 32 records of 34.
fn full() -> Model {
    let mut model = handling(&[34], 0);
    for _ in 0..32 {
        assert_eq!(model.call(&sigqueue(0, 34, 7)), Ok(Answer::Kept));
    }
    assert_eq!(model.call(&sigqueue(0, 34, 8)), Err(EAGAIN));
    model
}

#[test]
fn case_8_the_limit() {
    let mut model = full();
    taken(&mut model);
    let sent = answers(&mut model, &[sigqueue(0, 34, 8), sigqueue(200, 34, 9)]);
    assert_eq!(sent, [Ok(Answer::Kept), Err(EAGAIN)]);
    assert_eq!(full().call(&kill(0, 9)), Ok(Answer::Acted));
    let mut model = full();
    assert_eq!(model.call(&sigqueue(0, 9, 1)), Ok(Answer::Acted));
    assert_eq!(model, Model::new());
}

#[test]
fn case_9_stopping_and_continuing() {
    let both = (1 << (TSTP - 1)) | (1 << (CONT - 1));
    for (first, second) in [(TSTP, CONT), (CONT, TSTP)] {
        let mut model = one(both);
        let sent = answers(&mut model, &[kill(0, first), kill(200, second)]);
        assert_eq!(sent, [Ok(Answer::Marked); 2]);
        let pending = model.call(&Call::Sigpending { thread: 200 });
        assert_eq!(pending, Ok(Answer::PendingSet(Set(1 << (second - 1)))));
    }
}

#[test]
fn case_10_defaults() {
    let mut model = one(0);
    assert_eq!(model.call(&kill(0, CHLD)), Ok(Answer::Dropped));
    let default = Ok(Answer::OldAction(Action::DEFAULT));
    assert_eq!(model.call(&ask(9)), default);
    assert_eq!(model.call(&store(9, HANDLER, 0, 0)), Err(EINVAL));
}

#[test]
fn unblocking_is_no_intersection() {
    let mut model = one(7);
    model.call(&sigmask(1, 3)).unwrap();
    assert_eq!(mask_now(&mut model), 4);
}

#[test]
fn cont_can_be_blocked_and_continues_all_the_same() {
    let blocked = 1 << (CONT - 1);
    let mut model = handling(&[CONT, USR1], blocked);
    let sent = answers(&mut model, &[kill(0, USR1), kill(0, STOP), TAKE]);
    assert_eq!(sent[2], Ok(Answer::Nothing));
    assert_eq!(model.call(&kill(0, CONT)), Ok(Answer::Marked));
    assert_eq!(taken(&mut model).signal, USR1);
    assert_eq!(model.call(&TAKE), Ok(Answer::Nothing));
    model.call(&sigmask(1, blocked)).unwrap();
    assert_eq!(taken(&mut model).signal, CONT);
}

#[test]
fn resethand_does_not_imply_nodefer() {
    assert_eq!(handler_mask(RESETHAND, 2048), 2560);
}
