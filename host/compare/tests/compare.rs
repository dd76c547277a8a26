//! The library against the model on a short run, and layers with a fault: found, and made as short as can be.

use rrezhbuta::limits::{PROCESS_STOPPED, PROCESS_WORDS, RECORD_BYTES};
use rrezhbuta::Tables;
use rrezhbuta_compare::edit::{Edit, Which};
use rrezhbuta_compare::generate::{Generator, Style};
use rrezhbuta_compare::image::{decode, encode};
use rrezhbuta_compare::layer::{Layer, Library};
use rrezhbuta_compare::random::Random;
use rrezhbuta_compare::run::{replay, run, shrunk, Options};
use rrezhbuta_compare::shrink::shrink;
use rrezhbuta_compare::step::{Place, Told};
use rrezhbuta_ids::Family;
use rrezhbuta_model::errno::{EAGAIN, EFAULT, EINVAL};
use rrezhbuta_model::signal::FLAGS;
use rrezhbuta_model::{Action, Answer, Buffer, Call, Model, NewProcess, Unsound};
use rrezhbuta_model::{BUFFER_RECORDS, PROCESS_PLACES, THREAD_PLACES};

const SHORT: Options = Options {
    calls: 80 * BUFFER_RECORDS as u64,
    damaged: 8 * BUFFER_RECORDS as u64,
    seed: 7,
};

#[test]
fn the_library_and_the_model_agree() {
    let summary = run(&mut Library::default(), &SHORT, |_| ()).unwrap_or_else(|f| panic!("{f}"));
    assert_eq!(summary.total(), SHORT.calls + SHORT.damaged);
    // clearing is refused for a wrong length alone, which a short run may not try
    let [clear, others @ ..] = summary.calls;
    assert!(clear[0] > 0, "{summary}");
    assert!(others.iter().flatten().all(|&n| n > 0), "{summary}");
    assert!(summary.answers.iter().all(|&n| n > 0), "{summary}");
    assert!(summary.errnos.iter().all(|&n| n > 0), "{summary}");
    assert!(summary.accepted_share() >= 70.0, "{summary}");
    let [processes, threads, records @ ..] = summary.most;
    assert_eq!([processes, threads], [PROCESS_PLACES, THREAD_PLACES]);
    let many = BUFFER_RECORDS * 7 / 8;
    assert!(records.iter().all(|&n| n > many), "{summary}");
    assert_eq!(summary.damaged(), SHORT.damaged);
    let tenth = SHORT.damaged / 10;
    assert!((tenth..9 * tenth).contains(&summary.unharmed), "{summary}");
    assert!(summary.broken.iter().all(|&n| n > 0), "{summary}");
}

/// A layer made of the model, which answers as the fault says where it says something.
struct Faulty {
    tables: Tables<'static>,
    fault: fn(&Model, &Call) -> Option<Told>,
    checks: bool,
}

fn faulty(fault: fn(&Model, &Call) -> Option<Told>) -> Faulty {
    Faulty {
        tables: Tables::new(),
        fault,
        checks: true,
    }
}

impl Faulty {
    fn model(&self) -> Option<Model> {
        let mut rows = decode(&self.tables)?;
        if !self.checks {
            rows.processes.iter_mut().for_each(|p| p.stopped &= 1);
        }
        Model::from_rows(rows).ok()
    }
}

impl Layer for Faulty {
    fn tables(&self) -> &Tables<'static> {
        &self.tables
    }

    fn load(&mut self, tables: Tables<'static>) {
        self.tables = tables;
    }

    fn call(&mut self, call: &Call) -> Told {
        let fits = decode(&self.tables).is_some();
        let Some(mut model) = self.model() else {
            if fits && *call == Call::Clear {
                self.tables = Tables::new();
                return Ok(Answer::Done);
            }
            return Err(EFAULT);
        };
        if let Some(told) = (self.fault)(&model, call) {
            return told;
        }
        let told = model.call(call);
        if told.is_ok() {
            encode(model.rows(), &mut self.tables);
        }
        told
    }

    fn look_part(&self, thread: u32) -> &[u8] {
        let slot = self.model().and_then(|model| model.look_slot(thread));
        match slot {
            None => &[],
            Some(slot) if slot.buffer == Buffer::Thread => {
                &self.tables.thread_buffer()[slot.index * RECORD_BYTES..][..RECORD_BYTES]
            }
            Some(slot) => {
                &self.tables.process_buffer()[slot.index * RECORD_BYTES..][..RECORD_BYTES]
            }
        }
    }
}

/// KILL is refused where a record is pending.
fn kill_needs_room(model: &Model, call: &Call) -> Option<Told> {
    let (Call::Kill { to, signal: 9, .. } | Call::Sigqueue { to, signal: 9, .. }) = *call else {
        return None;
    };
    let records = &model.rows().process_records;
    let full = records.iter().any(|r| r.process == to);
    full.then_some(Err(EAGAIN))
}

/// An end is answered well and nothing is written.
fn end_thread_writes_nothing(model: &Model, call: &Call) -> Option<Told> {
    let Call::EndThread { id } = *call else {
        return None;
    };
    let live = model.rows().threads.iter().any(|t| t.id == id as u64);
    live.then_some(Ok(Answer::Done))
}

/// A store is judged by the lower half of its flags.
fn upper_flags_are_dropped(model: &Model, call: &Call) -> Option<Told> {
    let mut cut = *call;
    let Call::Sigaction { new: Some(new), .. } = &mut cut else {
        return None;
    };
    new.flags &= u32::MAX as u64;
    let told = model.clone().call(&cut);
    (cut != *call && told.is_ok()).then_some(told)
}

/// Calls that the fault does not touch, from the generator.
fn noise(count: usize, is_noise: impl Fn(&Call) -> bool) -> Vec<Call> {
    let generator = Generator::new(Random::new(3), Style::Mixed, Family::Places);
    generated(generator, count, is_noise).0
}

/// So many calls of a kind that a generator makes, and the model after them.
fn generated(
    mut generator: Generator,
    count: usize,
    wanted: impl Fn(&Call) -> bool,
) -> (Vec<Call>, Model) {
    let mut model = Model::new();
    let mut calls = Vec::new();
    while calls.len() < count {
        let call = generator.call(&model);
        if wanted(&call) {
            let _ = model.call(&call);
            calls.push(call);
        }
    }
    (calls, model)
}

/// The calls that fill the tables with ids of the family, and the model after them.
fn crowded(family: Family) -> (Vec<Call>, Model) {
    let generator = Generator::new(Random::new(11), Style::Crowded, family);
    generated(generator, 4 * BUFFER_RECORDS, |call| *call != Call::Clear)
}

#[test]
fn the_library_and_the_model_agree_on_ids_of_each_family() {
    for family in Family::ALL {
        let (calls, model) = crowded(family);
        let rows = model.rows();
        let live = rows.threads.iter().filter(|t| t.id != 0).count();
        assert!(live > THREAD_PLACES * 7 / 8, "{family:?}: {live}");
        let difference = replay(&mut Library::default(), &calls);
        assert_eq!(difference, None, "{family:?}");
    }
}

#[test]
fn an_id_that_two_threads_have_is_efault_in_each_family() {
    for family in Family::ALL {
        let (_, model) = crowded(family);
        let mut live = (0..THREAD_PLACES).filter(|&n| model.rows().threads[n].id != 0);
        let (first, last) = (live.next(), live.next_back());
        let (first, last) = first.zip(last).expect("two threads");
        for (from, to) in [(first, last), (last, first)] {
            let mut rows = model.rows().clone();
            rows.threads[to].id = rows.threads[from].id;
            assert_eq!(Model::from_rows(rows.clone()), Err(Unsound::SameId));
            let (mut tables, mut library) = (Tables::new(), Library::default());
            encode(&rows, &mut tables);
            library.load(tables);
            let thread = rows.threads[from].id as u32;
            let told = library.call(&Call::Sigpending { thread });
            assert_eq!(told, Err(EFAULT), "{family:?}");
        }
    }
}

/// The three calls that show the fault of `kill_needs_room`, on a process that no other call names.
fn planted() -> [Call; 3] {
    let own = 1_234_567;
    let add = Call::AddProcess(NewProcess {
        id: own,
        real: 0,
        effective: 0,
        saved: 0,
        session: 0,
        thread: own,
        mask: 0,
    });
    let sigqueue = Call::Sigqueue {
        by: own,
        to: own,
        thread: 0,
        signal: 40,
        value: 1,
    };
    let kill = Call::Kill {
        by: own,
        to: own,
        thread: 0,
        signal: 9,
    };
    [add, sigqueue, kill]
}

#[test]
fn a_planted_fault_is_shrunk_to_its_calls() {
    let harmless = |call: &Call| {
        !matches!(
            call,
            Call::Clear | Call::Kill { signal: 9, .. } | Call::Sigqueue { signal: 9, .. }
        )
    };
    let mut calls = noise(900, harmless);
    for (call, at) in planted().iter().zip([0, 350, 700]) {
        calls.insert(at, *call);
    }
    let mut layer = faulty(kill_needs_room);
    let failure = shrunk(&mut layer, &calls).expect("the fault shows");
    assert_eq!(failure.calls, planted());
    assert_eq!(failure.difference.expected, Ok(Answer::Acted));
    assert_eq!(failure.difference.found, Err(EAGAIN));
    let page = failure.to_string();
    assert!(
        page.contains("Ok(Acted)") && page.contains("Err(11)"),
        "{page}"
    );
}

#[test]
fn a_fault_in_a_long_run_is_found_and_every_call_of_the_list_is_needed() {
    let mut layer = faulty(end_thread_writes_nothing);
    let failure = run(&mut layer, &SHORT, |_| ()).expect_err("the fault shows");
    let calls = &failure.calls;
    assert!(calls.len() <= 3, "{failure}");
    assert!(matches!(calls.last(), Some(Call::EndThread { .. })));
    assert!(!matches!(failure.difference.place, Place::Answer));
    for left_out in 0..calls.len() {
        let mut fewer = calls.clone();
        fewer.remove(left_out);
        assert_eq!(replay(&mut layer, &fewer), None);
    }
}

#[test]
fn a_flag_that_is_dropped_is_found() {
    let mut layer = faulty(upper_flags_are_dropped);
    let failure = run(&mut layer, &SHORT, |_| ()).expect_err("the fault shows");
    assert_eq!(failure.calls.len(), 2, "{failure}");
    assert_eq!(failure.difference.expected, Err(EINVAL));
    assert!(failure.difference.found.is_ok());
}

/// They are refused, so they are few; a single one is there in either half, alone and beside known ones.
#[test]
fn some_stores_have_an_unknown_flag() {
    let generator = Generator::new(Random::new(5), Style::Mixed, Family::Places);
    let (calls, _) = generated(generator, 20_000, |call| *call != Call::Clear);
    let flags = calls.iter().filter_map(|call| match *call {
        Call::Sigaction { new, .. } => new.map(|Action { flags, .. }| flags),
        _ => None,
    });
    let parts: Vec<_> = flags.map(|flags| (flags & FLAGS, flags & !FLAGS)).collect();
    let unknown = parts.iter().filter(|(_, unknown)| *unknown != 0);
    let often = parts.len() / unknown.clone().count();
    assert!((6..9).contains(&often), "one in {often}");
    let single = unknown.filter(|(_, unknown)| unknown.is_power_of_two());
    for wanted in [(false, false), (false, true), (true, false), (true, true)] {
        let kind = |(known, unknown): &(u64, u64)| (*known != 0, unknown >> 32 != 0);
        let count = single.clone().filter(|parts| kind(parts) == wanted).count();
        assert!(count > 10, "{wanted:?}: {count}");
    }
}

#[test]
fn a_clause_that_is_not_checked_is_found_in_damaged_tables() {
    let mut layer = faulty(|_, _| None);
    layer.checks = false;
    let options = Options {
        calls: 0,
        damaged: 60_000,
        seed: 5,
    };
    let failure = run(&mut layer, &options, |_| ()).expect_err("the fault shows");
    assert_eq!(failure.difference.expected, Err(EFAULT));
    assert!(failure.calls.len() <= 2, "{failure}");
    let [Edit::Set(Which::Processes, at, value)] = failure.damage[..] else {
        panic!("{failure}");
    };
    assert!(at % PROCESS_WORDS == PROCESS_STOPPED && value > 1);
}

#[test]
fn a_layer_without_a_fault_agrees() {
    let options = Options {
        calls: 3_000,
        damaged: 300,
        seed: 2,
    };
    let summary = run(&mut faulty(|_, _| None), &options, |_| ());
    assert_eq!(summary.map(|s| s.total()), Ok(3_300));
}

#[test]
fn shrinking_keeps_what_is_needed_in_its_order() {
    let list: Vec<u32> = (0..1000).collect();
    let needed = [3, 500, 501, 999];
    let found = shrink(&list, |list| needed.iter().all(|n| list.contains(n)));
    assert_eq!(found, needed);
    assert_eq!(shrink(&list, |list| list.len() >= 10).len(), 10);
    assert!(shrink(&list, |_| true).is_empty());
}

#[test]
fn tables_come_back_from_the_rows_that_they_say() {
    let (_, model) = crowded(Family::Places);
    let mut tables = Tables::new();
    encode(model.rows(), &mut tables);
    assert_eq!(decode(&tables).as_ref(), Some(model.rows()));
    let short = Tables::from_parts(vec![0; 3], vec![], vec![], vec![]);
    assert_eq!(decode(&short), None);
}
