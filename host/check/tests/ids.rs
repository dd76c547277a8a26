//! Tables whose ids meet in the slots of a search by hints: sound ones, ids that two places have, ids that nobody has.

use rrezhbuta_check::limits::*;
use rrezhbuta_check::samples::{get, put, used, Ids, Numbers};
use rrezhbuta_check::{is_sound, plain, Tables};
use rrezhbuta_ids::Family;

/// What both checks say, which must be the same.
fn judged(tables: &Tables, what: &str) -> bool {
    let said = is_sound(tables);
    assert_eq!(said, plain::is_sound(tables), "{what}");
    said
}

/// The ids of each pair of families, for the processes and for the threads, and those beside the numbers of places.
fn each_pair(mut with: impl FnMut(&Ids, &str)) {
    let mut numbers = Numbers::new(20_261_117);
    for processes in Family::ALL {
        for threads in Family::ALL {
            let ids = Ids::of(processes, threads, &mut numbers);
            with(&ids, &format!("{processes:?} and {threads:?}"));
        }
    }
    with(&Ids::beside_places(), "beside the numbers of places");
}

#[test]
fn tables_of_ids_that_meet_are_sound() {
    each_pair(|ids, which| {
        for (step, records) in [(1, RECORD_LIMIT), (2, RECORD_LIMIT / 2), (3, 1)] {
            let tables = Tables::filled(step, records, ids);
            assert!(judged(&tables, which), "{which}, one place in {step}");
        }
    });
}

#[test]
fn an_id_that_two_threads_have_is_found() {
    for family in Family::ALL {
        let ids = Ids::of(Family::Both, family, &mut Numbers::new(3));
        let tables = Tables::filled(1, 0, &ids);
        for at in 0..THREAD_PLACES {
            for from in (0..THREAD_PLACES).filter(|&from| from != at) {
                let mut twice = tables.clone();
                twice.threads[at * THREAD_WORDS] = ids.threads[from] as u64;
                assert!(!judged(&twice, "twice"), "{family:?}: {from} and {at}");
            }
        }
    }
}

#[test]
fn an_id_that_two_processes_have_is_found() {
    for family in Family::ALL {
        let ids = Ids::of(family, Family::Both, &mut Numbers::new(5));
        for at in 0..PROCESS_PLACES {
            for from in (0..PROCESS_PLACES).filter(|&from| from != at) {
                // without records nothing else is wrong with them
                let mut twice = Tables::filled(1, 0, &ids);
                twice.rename_process(ids.processes[at], ids.processes[from]);
                assert!(!judged(&twice, "twice"), "{family:?}: {from} and {at}");
            }
        }
    }
}

/// The change makes sound tables unsound.
fn not_found(sound: &Tables, which: &str, change: impl Fn(&mut Tables)) {
    let mut tables = sound.clone();
    change(&mut tables);
    assert!(!judged(&tables, which), "{which}");
}

#[test]
fn an_id_that_nobody_has_is_not_found() {
    each_pair(|ids, which| {
        let sound = Tables::filled(1, RECORD_LIMIT, ids);
        let (processes, threads) = ids.spare();
        for (n, &id) in processes.iter().enumerate() {
            let owner = (n * 7 + 1) % THREAD_PLACES * THREAD_WORDS + THREAD_PROCESS;
            not_found(&sound, which, |t| t.threads[owner] = id as u64);
            not_found(&sound, which, |t| {
                put(&mut t.process_buffer, 5 * n, RECORD_PROCESS, id)
            });
            not_found(&sound, which, |t| {
                put(&mut t.thread_buffer, 5 * n, RECORD_PROCESS, id)
            });
        }
        for (n, &id) in threads.iter().enumerate() {
            not_found(&sound, which, |t| {
                put(&mut t.thread_buffer, n, RECORD_THREAD, id)
            });
        }
    });
}

/// Neither slot tells an id from one with further bits.
#[test]
fn an_id_with_further_bits_is_not_found() {
    each_pair(|ids, which| {
        let sound = Tables::filled(1, RECORD_LIMIT, ids);
        for bit in 31..64 {
            for field in [THREAD_ID, THREAD_PROCESS] {
                let word = bit % THREAD_PLACES * THREAD_WORDS + field;
                not_found(&sound, which, |t| t.threads[word] |= 1 << bit);
            }
        }
        for slot in 0..RECORD_LIMIT / 2 {
            let further = |buffer: &mut [u8], field| {
                let id = get(buffer, slot, field);
                put(buffer, slot, field, id | 1 << 31);
            };
            not_found(&sound, which, |t| {
                further(&mut t.process_buffer, RECORD_PROCESS)
            });
            not_found(&sound, which, |t| {
                further(&mut t.thread_buffer, RECORD_PROCESS)
            });
            not_found(&sound, which, |t| {
                further(&mut t.thread_buffer, RECORD_THREAD)
            });
        }
    });
}

/// Somebody has another id of the families, everywhere or in one place alone.
fn change_an_id(tables: &mut Tables, ids: &Ids, numbers: &mut Numbers) {
    let (process, thread) = (numbers.pick(&ids.processes), numbers.pick(&ids.threads));
    let (spare_processes, spare_threads) = ids.spare();
    let place = numbers.below(PROCESS_PLACES) * PROCESS_WORDS;
    let thread_place = numbers.below(THREAD_PLACES) * THREAD_WORDS;
    let slots = [&tables.thread_buffer, &tables.process_buffer].map(|b| numbers.below(used(b)));
    match numbers.below(8) {
        0..=1 => tables.rename_process(process, numbers.pick(spare_processes)),
        2..=3 => tables.rename_thread(thread, numbers.pick(spare_threads)),
        4 => tables.processes[place] = process as u64,
        5 => tables.threads[thread_place + THREAD_PROCESS * numbers.below(2)] = process as u64,
        6 => put(&mut tables.thread_buffer, slots[0], RECORD_THREAD, thread),
        _ => put(
            &mut tables.process_buffer,
            slots[1],
            RECORD_PROCESS,
            process,
        ),
    }
}

#[test]
fn tables_with_changed_ids_are_judged_alike() {
    let mut numbers = Numbers::new(7);
    let (mut sound, mut not) = (0, 0);
    each_pair(|ids, which| {
        let start = Tables::filled(1 + numbers.below(2), RECORD_LIMIT / 2, ids);
        for _ in 0..400 {
            let mut tables = start.clone();
            for _ in 0..1 + numbers.below(3) {
                change_an_id(&mut tables, ids, &mut numbers);
            }
            if judged(&tables, which) {
                sound += 1;
            } else {
                not += 1;
            }
        }
    });
    // both answers are tried
    assert!(sound > 2_000 && not > 2_000, "{sound} sound, {not} not");
}
