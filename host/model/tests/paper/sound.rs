//! Each clause of soundness, broken by itself in rows that are sound but for it, and the edges that are sound.

use crate::common::*;
use rrezhbuta_model::{judge, Action, Process, Record, Rows, Set, Thread, Unsound};
use rrezhbuta_model::{BUFFER_RECORDS, PROCESS_PLACES, THREAD_PLACES};

const KILL: u64 = 1 << 8;
const STOP: u64 = 1 << 18;

/// Processes 100 and 101 with threads 200, 202 and 201, marks, handlers and records in both buffers.
fn rows() -> Rows {
    let mut model = one(0);
    let told = answers(
        &mut model,
        &[
            process(101, 1000, 201, 0),
            rrezhbuta_model::Call::AddThread {
                creator: 200,
                id: 202,
            },
            store(10, 5000, 4, 2048),
            sigqueue(0, 10, 1),
            sigqueue(200, 40, 2),
            sigqueue(202, 2, 3),
            kill(0, 12),
            kill(200, 10),
        ],
    );
    assert!(told.iter().all(|answer| answer.is_ok()));
    model.rows().clone()
}

fn broken(clause: Unsound, damage: impl FnOnce(&mut Rows)) {
    let mut rows = rows();
    assert_eq!(judge(&rows), Ok(()));
    damage(&mut rows);
    assert_eq!(judge(&rows), Err(clause));
}

fn sound(change: impl FnOnce(&mut Rows)) {
    let mut rows = rows();
    change(&mut rows);
    assert_eq!(judge(&rows), Ok(()));
}

#[test]
fn lengths() {
    broken(Unsound::Length, |r| r.processes.push(Process::FREE));
    broken(Unsound::Length, |r| r.threads.truncate(THREAD_PLACES - 1));
    let more = |records: &mut Vec<Record>| records.resize(BUFFER_RECORDS + 1, records[0]);
    broken(Unsound::Length, |r| more(&mut r.thread_records));
    broken(Unsound::Length, |r| more(&mut r.process_records));
}

#[test]
fn free_places_are_zero() {
    broken(Unsound::FreePlace, |r| r.processes[2].saved = 1);
    let last = PROCESS_PLACES - 1;
    broken(Unsound::FreePlace, |r| r.processes[last].stopped = 1);
    broken(Unsound::FreePlace, |r| {
        r.processes[last].actions[63].mask = Set(1)
    });
    broken(Unsound::FreePlace, |r| r.threads[3].process = 100);
    let last = THREAD_PLACES - 1;
    broken(Unsound::FreePlace, |r| r.threads[last].marks = Set(1));
}

/// A third process with a thread of its own.
fn third(rows: &mut Rows, id: u64, thread: u64) {
    rows.processes[2] = Process {
        id,
        ..Process::FREE
    };
    rows.threads[3] = Thread {
        id: thread,
        process: id,
        ..Thread::default()
    };
}

#[test]
fn ids_are_in_range_and_distinct_within_a_table() {
    sound(|r| third(r, 2_147_483_647, 2_147_483_647));
    sound(|r| third(r, 200, 100));
    broken(Unsound::Id, |r| third(r, 2_147_483_648, 300));
    broken(Unsound::Id, |r| third(r, 300, 2_147_483_648));
    broken(Unsound::Id, |r| third(r, (1 << 32) + 100, 300));
    broken(Unsound::SameId, |r| third(r, 100, 300));
    broken(Unsound::SameId, |r| third(r, 300, 202));
}

#[test]
fn fields_have_the_width_of_their_values() {
    sound(|r| r.processes[0].real = u32::MAX as u64);
    broken(Unsound::Width, |r| r.processes[0].real = 1 << 32);
    broken(Unsound::Width, |r| r.processes[0].effective = 1 << 32);
    broken(Unsound::Width, |r| r.processes[0].saved = u64::MAX);
    broken(Unsound::Width, |r| r.processes[0].session = 1 << 40);
    sound(|r| r.processes[0].stopped = 1);
    broken(Unsound::Width, |r| r.processes[0].stopped = 2);
}

#[test]
fn threads_and_processes_belong_together() {
    broken(Unsound::Owner, |r| r.threads[1].process = 102);
    broken(Unsound::Owner, |r| r.threads[1].process = 0);
    broken(Unsound::NoThread, |r| r.threads[1].process = 100);
    broken(Unsound::NoThread, |r| r.processes[2].id = 300);
}

#[test]
fn kill_and_stop_are_in_no_set_and_have_the_default_action() {
    broken(Unsound::Unmaskable, |r| r.threads[0].mask = Set(KILL));
    broken(Unsound::Unmaskable, |r| r.threads[0].marks = Set(STOP));
    broken(Unsound::Unmaskable, |r| r.processes[0].marks = Set(KILL));
    broken(Unsound::Unmaskable, |r| {
        r.processes[0].actions[9].mask = Set(STOP)
    });
    sound(|r| r.threads[0].mask = Set(!(KILL | STOP)));
    let change = |change: fn(&mut Action)| {
        broken(Unsound::FixedAction, |r| {
            change(&mut r.processes[0].actions[8])
        });
        broken(Unsound::FixedAction, |r| {
            change(&mut r.processes[1].actions[18])
        });
    };
    change(|a| a.handler = 1);
    change(|a| a.flags = 4);
    change(|a| a.mask = Set(1));
}

#[test]
fn flags_are_known() {
    let set = |r: &mut Rows, flags| r.processes[0].actions[9].flags = flags;
    sound(|r| set(r, 0xD000_0004));
    for flags in [1, 2, 8, 0x2000_0000, 1 << 32, 1 << 63] {
        broken(Unsound::Flags, |r| set(r, flags));
    }
}

#[test]
fn records_are_laid_out_and_name_a_signal() {
    for signal in [0, 9, 19, 65, u32::MAX] {
        broken(Unsound::Record, |r| r.thread_records[0].signal = signal);
        broken(Unsound::Record, |r| r.process_records[0].signal = signal);
    }
    broken(Unsound::Record, |r| r.thread_records[0].code = 0);
    broken(Unsound::Record, |r| r.process_records[0].code = 0xFFFF_FFFE);
    sound(|r| r.process_records[0].sender = u32::MAX);
    sound(|r| r.thread_records[0].uid = u32::MAX);
    // a free slot before a used one
    broken(Unsound::Record, |r| {
        r.thread_records.insert(0, Record::default())
    });
}

#[test]
fn records_name_a_live_target() {
    broken(Unsound::Target, |r| r.thread_records[0].process = 0);
    broken(Unsound::Target, |r| r.thread_records[0].process = 102);
    broken(Unsound::Target, |r| r.thread_records[0].process = 101);
    broken(Unsound::Target, |r| r.thread_records[0].thread = 0);
    broken(Unsound::Target, |r| r.thread_records[0].thread = 203);
    broken(Unsound::Target, |r| r.thread_records[0].thread = 201);
    broken(Unsound::Target, |r| r.process_records[0].process = 102);
    broken(Unsound::Target, |r| r.process_records[0].thread = 200);
}

#[test]
fn a_process_has_at_most_32_records() {
    let fill = |r: &mut Rows, count| {
        let record = r.thread_records[0];
        r.thread_records.extend(vec![record; count]);
    };
    sound(|r| fill(r, 29));
    broken(Unsound::Limit, |r| fill(r, 30));
}

#[test]
fn a_standard_signal_is_pending_once_in_a_queue() {
    broken(Unsound::Twice, |r| {
        r.process_records.push(r.process_records[0])
    });
    broken(Unsound::Twice, |r| r.processes[0].marks = Set(1 << 9));
    broken(Unsound::Twice, |r| r.threads[2].marks = Set(2));
    let twice = |r: &mut Rows, signal| {
        r.thread_records[0].signal = signal;
        r.thread_records.push(r.thread_records[0]);
    };
    broken(Unsound::Twice, |r| twice(r, 31));
    sound(|r| twice(r, 32));
    // in another queue, or realtime
    sound(|r| r.threads[0].marks = Set(1 << 9));
    sound(|r| r.threads[0].marks = Set(1 << 39));
    sound(|r| r.thread_records.push(r.thread_records[0]));
}

#[test]
fn nothing_pending_is_ignored() {
    let ignore = |r: &mut Rows, signal: usize| r.processes[0].actions[signal - 1].handler = 1;
    for signal in [2, 10, 12, 40] {
        broken(Unsound::Ignored, |r| ignore(r, signal));
    }
    sound(|r| ignore(r, 11));
    broken(Unsound::Ignored, |r| r.processes[0].marks = Set(1 << 16));
    broken(Unsound::Ignored, |r| r.threads[1].marks = Set(1 << 22));
    broken(Unsound::Ignored, |r| r.thread_records[0].signal = 28);
    sound(|r| r.threads[1].marks = Set(1 << 17));
}
