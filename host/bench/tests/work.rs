//! The batches are what they are named for, and both sides agree on them.

use rrezhbuta_bench::timing::{accepted, time};
use rrezhbuta_bench::work::{batches, half_full, mix};
use rrezhbuta_compare::summary::{kind, CALLS};
use rrezhbuta_model::{Answer, Call, PROCESS_PLACES, RECORD_LIMIT, THREAD_PLACES};

#[test]
fn the_tables_are_half_full() {
    let model = half_full();
    let rows = model.rows();
    let processes = rows.processes.iter().filter(|p| p.id != 0).count();
    assert_eq!(processes, PROCESS_PLACES / 2);
    let threads = rows.threads.iter().filter(|t| t.id != 0).count();
    assert_eq!(threads, THREAD_PLACES / 2);
    let each = processes * RECORD_LIMIT / 4;
    let records = [&rows.thread_records, &rows.process_records];
    assert_eq!(records.map(Vec::len), [each; 2]);
    assert_eq!(rows.processes[1].id, 0);
    assert_eq!(model.judge(), Ok(()));
}

#[test]
fn there_is_a_batch_for_each_call_and_all_of_it_is_accepted() {
    let start = half_full();
    let batches = batches();
    assert_eq!(batches.len(), CALLS.len());
    for (number, batch) in batches.iter().enumerate() {
        assert_eq!(batch.name, CALLS[number]);
        assert!(batch.calls.iter().all(|call| kind(call) == number));
        assert_eq!(accepted(&start, batch), batch.calls.len(), "{}", batch.name);
    }
}

#[test]
fn takes_take_something() {
    let mut model = half_full();
    for call in &batches()[12].calls {
        let told = model.call(call);
        assert!(
            matches!(told, Ok(Answer::Handler { .. })),
            "{call:?} {told:?}"
        );
    }
}

#[test]
fn the_mix_is_mostly_accepted_and_has_every_call_but_clearing() {
    let mix = mix(1);
    let share = accepted(&half_full(), &mix) as f64 / mix.calls.len() as f64;
    assert!(share >= 0.7, "{share}");
    let kinds = 1..CALLS.len();
    let mut missing = kinds.filter(|&k| mix.calls.iter().all(|call| kind(call) != k));
    assert_eq!(missing.next(), None);
    assert!(!mix.calls.contains(&Call::Clear));
}

#[test]
fn times_are_taken_on_both_sides() {
    let times = time(&half_full(), &batches()[6], 3);
    assert!(times.proved > 0.0 && times.model > 0.0);
}
