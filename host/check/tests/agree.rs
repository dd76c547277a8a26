//! The proved check and the plain one answer alike, on sound tables and on damaged ones.

use rrezhbuta_check::samples::Numbers;
use rrezhbuta_check::{is_sound, plain, Tables};

fn samples() -> [Tables; 3] {
    [Tables::empty(), Tables::half(), Tables::full()]
}

#[test]
fn sound_tables_are_sound() {
    for tables in samples() {
        assert!(is_sound(&tables));
        assert!(plain::is_sound(&tables));
    }
}

#[test]
fn a_table_one_short_or_one_long_is_not_sound() {
    for tables in samples() {
        for table in 0..4 {
            for longer in [false, true] {
                let mut other = tables.clone();
                match (table, longer) {
                    (0, false) => drop(other.processes.pop()),
                    (0, true) => other.processes.push(0),
                    (1, false) => drop(other.threads.pop()),
                    (1, true) => other.threads.push(0),
                    (2, false) => drop(other.thread_buffer.pop()),
                    (2, true) => other.thread_buffer.push(0),
                    (_, false) => drop(other.process_buffer.pop()),
                    (_, true) => other.process_buffer.push(0),
                }
                assert!(!is_sound(&other));
            }
        }
    }
}

#[test]
fn no_tables_at_all_are_not_sound() {
    let none = Tables {
        processes: vec![],
        threads: vec![],
        thread_buffer: vec![],
        process_buffer: vec![],
    };
    assert!(!is_sound(&none));
}

#[test]
fn damaged_tables_are_judged_alike() {
    let mut numbers = Numbers::new(20_261_115);
    let samples = samples();
    let (mut sound, mut not) = (0, 0);
    for round in 0..100_000 {
        let mut tables = samples[round % 3].clone();
        for _ in 0..1 + numbers.below(3) {
            tables.damage(&mut numbers);
        }
        let said = is_sound(&tables);
        assert_eq!(said, plain::is_sound(&tables), "round {round}");
        if said {
            sound += 1;
        } else {
            not += 1;
        }
    }
    // both answers are tried
    assert!(sound > 1_000 && not > 1_000, "{sound} sound, {not} not");
}
