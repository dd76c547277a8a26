//! The acts of a call, what an act does to the ledger, and what the acts of many calls come to.

mod beginning;
mod common;

use beginning::{begin, make_all, PROCESS, THREAD};
use common::{call, make};
use rrezhbuta_ledger::acts::{Act, Event};
use rrezhbuta_ledger::ledger::{Counts, Ledger};
use rrezhbuta_ledger::side::{Queue, Record};
use rrezhbuta_ledger::tally::disagreement;

const ENDS: Act = Act::Emptied(Event::ProcessEnds { process: 100 });
const STOP_SENT: Act = Act::Emptied(Event::StopSent { process: 100 });
const CONT_SENT: Act = Act::Emptied(Event::ContSent { process: 100 });

fn now_ignored(signal: u32) -> Act {
    Act::Emptied(Event::NowIgnored {
        process: 100,
        signal,
    })
}

fn marked(queue: Queue, signal: u32) -> Act {
    Act::Marked { queue, signal }
}

/// The record of a send by process 1, whose real user id is 5.
fn record(queue: Queue, signal: u32, value: u64) -> Record {
    Record {
        queue,
        signal,
        code: -1,
        sender: 1,
        uid: 5,
        value,
    }
}

fn took_send(queue: Queue, signal: u32, value: u64) -> Act {
    Act::TookSend {
        thread: 201,
        queue,
        signal,
        record: record(queue, signal, value),
    }
}

fn took_mark(queue: Queue, signal: u32) -> Act {
    Act::TookMark {
        thread: 201,
        queue,
        signal,
    }
}

/// What stands after the beginning and these calls, none of which is refused.
fn after(calls: &[&str]) -> Ledger {
    let mut ledger = begin();
    make_all(&mut ledger, calls);
    ledger
}

/// The acts of the last of the calls, as they are worked out and as they are entered.
fn last_acts(calls: &[&str]) -> Vec<Act> {
    let (last, before) = calls.split_last().expect("a call");
    let mut ledger = after(before);
    let acts = ledger.acts(&call(last));
    assert_eq!(ledger.enter(&call(last), false), acts, "{last}");
    acts
}

#[test]
fn a_send_is_kept_as_its_record() {
    for (thread, queue) in [(0, PROCESS), (200, THREAD)] {
        let send = format!("queue by=1 to=100 thread={thread} signal=40 value=7");
        let kept = Act::Kept(record(queue, 40, 7));
        assert_eq!(last_acts(&[&send]), [kept]);
        // a realtime signal each time anew, beside a mark too
        let mark = format!("kill by=1 to=100 thread={thread} signal=40");
        assert_eq!(last_acts(&[&mark, &send, &send]), [kept]);
    }
}

#[test]
fn a_plain_send_sets_its_mark() {
    let send = "kill by=1 to=100 thread=200 signal=40";
    assert_eq!(last_acts(&[send]), [marked(THREAD, 40)]);
    // beside records of a realtime signal, and beside what another queue has
    for before in [
        "queue by=1 to=100 thread=200 signal=40 value=1",
        "kill by=1 to=100 thread=0 signal=40",
    ] {
        assert_eq!(last_acts(&[before, send]), [marked(THREAD, 40)], "{before}");
    }
}

#[test]
fn absorbed_sends_have_no_act() {
    let plain = "kill by=1 to=100 thread=0 signal=2";
    let queued = "queue by=1 to=100 thread=0 signal=2 value=1";
    for first in [plain, queued] {
        for second in [plain, queued] {
            let mut ledger = after(&[first]);
            assert_eq!(ledger.acts(&call(second)), [], "{first}, {second}");
            assert_eq!(make(&mut ledger, second), "absorbed");
        }
    }
    let realtime = "kill by=1 to=100 thread=0 signal=40";
    assert_eq!(last_acts(&[realtime, realtime]), []);
}

#[test]
fn dropped_sends_and_tests_have_no_act() {
    for send in [
        "kill by=1 to=100 thread=0 signal=17",
        "queue by=1 to=100 thread=200 signal=28 value=1",
        "kill by=1 to=100 thread=0 signal=0",
        "queue by=1 to=100 thread=0 signal=0 value=1",
    ] {
        assert_eq!(last_acts(&[send]), [], "{send}");
    }
    let ignore = "action process=100 signal=40 handler=1 flags=0 mask=0";
    let send = "queue by=1 to=100 thread=0 signal=40 value=1";
    assert_eq!(last_acts(&[ignore, send]), []);
}

#[test]
fn kill_stop_and_cont_are_events() {
    for (signal, acts) in [
        (9, vec![ENDS]),
        (19, vec![STOP_SENT]),
        (18, vec![CONT_SENT, marked(PROCESS, 18)]),
        (20, vec![STOP_SENT, marked(PROCESS, 20)]),
        (21, vec![STOP_SENT, marked(PROCESS, 21)]),
        (22, vec![STOP_SENT, marked(PROCESS, 22)]),
        (15, vec![marked(PROCESS, 15)]),
    ] {
        let send = format!("kill by=1 to=100 thread=0 signal={signal}");
        assert_eq!(last_acts(&[&send]), acts, "{send}");
    }
    // by a queued send to a thread the process is meant all the same
    for (signal, acts) in [
        (9, vec![ENDS]),
        (19, vec![STOP_SENT]),
        (18, vec![CONT_SENT, Act::Kept(record(THREAD, 18, 1))]),
        (20, vec![STOP_SENT, Act::Kept(record(THREAD, 20, 1))]),
    ] {
        let send = format!("queue by=1 to=100 thread=200 signal={signal} value=1");
        assert_eq!(last_acts(&[&send]), acts, "{send}");
    }
}

#[test]
fn absorbed_and_dropped_stop_signals_and_conts_are_events_still() {
    for (signal, event) in [(18, CONT_SENT), (20, STOP_SENT)] {
        let send = format!("kill by=1 to=100 thread=0 signal={signal}");
        assert_eq!(last_acts(&[&send, &send]), [event], "{send}");
        let ignore = format!("action process=100 signal={signal} handler=1 flags=0 mask=0");
        assert_eq!(last_acts(&[&ignore, &send]), [event], "{send}");
    }
}

#[test]
fn the_last_threads_end_is_the_process_s() {
    let thread_ends = |thread| Act::Emptied(Event::ThreadEnds { thread });
    assert_eq!(last_acts(&["end_thread id=200"]), [thread_ends(200)]);
    assert_eq!(last_acts(&["end_thread id=201"]), [thread_ends(201)]);
    let both = ["end_thread id=201", "end_thread id=200"];
    assert_eq!(last_acts(&both), [ENDS]);
    assert_eq!(last_acts(&["end_process id=100"]), [ENDS]);
    assert_eq!(last_acts(&["clear"]), [Act::Emptied(Event::AllCleared)]);
}

#[test]
fn storing_an_ignoring_action_is_an_event() {
    for (signal, handler, acts) in [
        (40, 1, vec![now_ignored(40)]),
        (17, 0, vec![now_ignored(17)]),
        (23, 0, vec![now_ignored(23)]),
        (28, 0, vec![now_ignored(28)]),
        (40, 0, vec![]),
        (17, 5000, vec![]),
        (18, 0, vec![]),
    ] {
        let store = format!("action process=100 signal={signal} handler={handler} flags=0 mask=0");
        assert_eq!(last_acts(&[&store]), acts, "{store}");
    }
    assert_eq!(last_acts(&["action process=100 signal=17"]), []);
}

#[test]
fn a_take_takes_the_oldest_send_or_the_mark() {
    let handle = "action process=100 signal=40 handler=5000 flags=1073741824 mask=0";
    let calls = [
        handle,
        "kill by=1 to=100 thread=0 signal=40",
        "queue by=1 to=100 thread=0 signal=40 value=1",
        "queue by=1 to=100 thread=0 signal=40 value=2",
        "take thread=201",
        "take thread=201",
        "take thread=201",
        "take thread=201",
    ];
    let taken = [
        vec![took_send(PROCESS, 40, 1)],
        vec![took_send(PROCESS, 40, 2)],
        vec![took_mark(PROCESS, 40)],
        vec![],
    ];
    for (at, acts) in taken.into_iter().enumerate() {
        assert_eq!(last_acts(&calls[..5 + at]), acts);
    }
    // thread 200 blocks it, and a stopped process takes nothing
    assert_eq!(last_acts(&[calls[2], "take thread=200"]), []);
    let stop = "kill by=1 to=100 thread=0 signal=19";
    assert_eq!(last_acts(&[calls[2], stop, "take thread=201"]), []);
}

#[test]
fn a_reset_to_an_ignoring_default_is_an_event() {
    const RESETHAND: u64 = 0x8000_0000;
    const RESTART: u64 = 0x1000_0000;
    for (signal, flags, event) in [
        (17, RESETHAND, Some(now_ignored(17))),
        (28, RESETHAND | RESTART, Some(now_ignored(28))),
        (17, RESTART, None),
        (17, 0, None),
        // the default of these ignores nothing
        (10, RESETHAND, None),
        (40, RESETHAND, None),
        (4, RESETHAND, None),
    ] {
        let handle =
            format!("action process=100 signal={signal} handler=5000 flags={flags} mask=0");
        let send = format!("queue by=1 to=100 thread=0 signal={signal} value=1");
        let acts = last_acts(&[&handle, &send, "take thread=201"]);
        let expected: Vec<Act> = [took_send(PROCESS, signal, 1)]
            .into_iter()
            .chain(event)
            .collect();
        assert_eq!(acts, expected, "{handle}");
    }
}

#[test]
fn a_default_take_sets_off_the_end_or_nothing() {
    for (signal, event) in [(15, Some(ENDS)), (40, Some(ENDS)), (18, None), (20, None)] {
        let send = format!("kill by=1 to=100 thread=0 signal={signal}");
        let expected: Vec<Act> = [took_mark(PROCESS, signal)]
            .into_iter()
            .chain(event)
            .collect();
        assert_eq!(last_acts(&[&send, "take thread=201"]), expected, "{send}");
    }
}

#[test]
fn other_calls_have_no_act() {
    let send = "queue by=1 to=100 thread=0 signal=40 value=1";
    for text in [
        "add_process id=101 real=0 effective=0 saved=0 session=1 thread=300 mask=0",
        "add_thread creator=200 id=202",
        "mask thread=201 way=0 set=18446744073709551615",
        "mask thread=201 way=0",
        "pending thread=200",
        "look thread=201",
        "who process=100",
        "return thread=201 mask=0",
    ] {
        assert_eq!(last_acts(&[send, text]), [], "{text}");
    }
}

#[test]
fn a_refused_call_has_no_act() {
    for text in [
        "clear",
        "queue by=1 to=100 thread=0 signal=40 value=1",
        "kill by=1 to=100 thread=0 signal=9",
    ] {
        let mut ledger = after(&[]);
        assert_ne!(ledger.acts(&call(text)), [], "{text}");
        assert_eq!(ledger.enter(&call(text), true), [], "{text}");
    }
}

#[test]
fn what_an_event_empties() {
    let other = Queue {
        process: 1,
        thread: 2,
    };
    let process = 100;
    let signal = 40;
    // of each queue: CONT 18, STOP 19, the stop signals 20 to 22, 40
    for (event, process_s, thread_s, other_s) in [
        (Event::AllCleared, [true; 6], [true; 6], [true; 6]),
        (
            Event::StopSent { process },
            [true, false, false, false, false, false],
            [true, false, false, false, false, false],
            [false; 6],
        ),
        (
            Event::ContSent { process },
            [false, false, true, true, true, false],
            [false, false, true, true, true, false],
            [false; 6],
        ),
        (
            Event::NowIgnored { process, signal },
            [false, false, false, false, false, true],
            [false, false, false, false, false, true],
            [false; 6],
        ),
        (
            Event::ThreadEnds { thread: 200 },
            [false; 6],
            [true; 6],
            [false; 6],
        ),
        (
            Event::ThreadEnds { thread: 201 },
            [false; 6],
            [false; 6],
            [false; 6],
        ),
        (
            Event::ProcessEnds { process },
            [true; 6],
            [true; 6],
            [false; 6],
        ),
    ] {
        for (queue, expected) in [(PROCESS, process_s), (THREAD, thread_s), (other, other_s)] {
            let emptied = [18, 19, 20, 21, 22, 40].map(|s| event.empties(queue, s));
            assert_eq!(emptied, expected, "{event}: {queue}");
        }
    }
}

#[test]
fn what_an_act_does() {
    let mut ledger = Ledger::default();
    let mut then = |act: Act, pending: &[u64], mark: bool, counts: [usize; 3]| {
        ledger.play(&act);
        let side = ledger.side();
        let records = side.records.get(&(PROCESS, 40)).cloned();
        let values: Vec<u64> = records.iter().flatten().map(|r| r.value).collect();
        assert_eq!(values, pending, "{act}");
        assert_eq!(side.marks.contains_key(&PROCESS), mark, "{act}");
        let [kept, taken, discarded] = counts;
        let counts = Counts {
            kept,
            taken,
            discarded,
        };
        let counted = ledger.counts().get(&(PROCESS, 40)).copied();
        assert_eq!(counted.unwrap_or_default(), counts, "{act}");
    };
    then(marked(PROCESS, 40), &[], true, [0, 0, 0]);
    for value in 1..=4 {
        let pending: Vec<u64> = (1..=value).collect();
        let kept = Act::Kept(record(PROCESS, 40, value));
        then(kept, &pending, true, [value as usize, 0, 0]);
    }
    then(took_send(PROCESS, 40, 1), &[2, 3, 4], true, [4, 1, 0]);
    then(took_mark(PROCESS, 40), &[2, 3, 4], false, [4, 1, 0]);
    then(took_send(PROCESS, 40, 2), &[3, 4], false, [4, 2, 0]);
    then(marked(PROCESS, 40), &[3, 4], true, [4, 2, 0]);
    then(CONT_SENT, &[3, 4], true, [4, 2, 0]);
    then(marked(THREAD, 40), &[3, 4], true, [4, 2, 0]);
    then(now_ignored(40), &[], false, [4, 2, 2]);
    then(ENDS, &[], false, [4, 2, 2]);
}

/// A history with every kind of act but clearing in it.
const CALLS: [&str; 26] = [
    "action process=100 signal=40 handler=5000 flags=1073741824 mask=0",
    "action process=100 signal=17 handler=5000 flags=2147483648 mask=0",
    "queue by=1 to=100 thread=0 signal=40 value=1",
    "queue by=1 to=100 thread=200 signal=40 value=2",
    "queue by=1 to=100 thread=0 signal=40 value=3",
    "kill by=1 to=100 thread=0 signal=40",
    "take thread=201",
    "queue by=1 to=100 thread=0 signal=17 value=4",
    "queue by=1 to=100 thread=200 signal=17 value=5",
    "take thread=201",
    "kill by=1 to=100 thread=200 signal=20",
    "queue by=1 to=100 thread=0 signal=18 value=6",
    "kill by=1 to=100 thread=0 signal=19",
    "queue by=1 to=100 thread=201 signal=18 value=7",
    "take thread=201",
    "take thread=201",
    "take thread=201",
    "queue by=1 to=100 thread=0 signal=40 value=8",
    "action process=100 signal=40 handler=1 flags=0 mask=0",
    "action process=100 signal=40 handler=0 flags=0 mask=0",
    "queue by=1 to=100 thread=200 signal=40 value=9",
    "end_thread id=200",
    "queue by=1 to=100 thread=0 signal=40 value=10",
    "queue by=1 to=100 thread=0 signal=41 value=11",
    "take thread=201",
    "queue by=1 to=1 thread=0 signal=41 value=12",
];

/// The calls made, and all their acts.
fn history() -> (Ledger, Vec<Act>) {
    let (mut ledger, mut done) = (begin(), vec![]);
    for text in CALLS {
        let call = call(text);
        let answer = ledger.answer(&call);
        assert!(!answer.starts_with("refused"), "{text}: {answer}");
        done.extend(ledger.enter(&call, false));
    }
    (ledger, done)
}

#[test]
fn the_lists_are_what_the_acts_make_of_them() {
    let (ledger, done) = history();
    let mut replayed = Ledger::default();
    for act in &done {
        replayed.play(act);
    }
    let (side, again) = (ledger.side(), replayed.side());
    assert!(!side.records.is_empty());
    assert_eq!((&again.records, &again.marks), (&side.records, &side.marks));
    assert_eq!(replayed.counts(), ledger.counts());
    assert!(again.processes.is_empty() && again.threads.is_empty());
}

#[test]
fn the_acts_come_to_what_is_pending_and_to_the_counts() {
    let (mut ledger, mut done) = (begin(), vec![]);
    for text in CALLS {
        done.extend(ledger.enter(&call(text), false));
        let wrong = disagreement(&done, &ledger.counts(), &ledger.side());
        assert_eq!(wrong, None, "{text}");
    }
}

/// What is said where the acts are these, of a ledger and of tables that are as they are.
fn wrong(acts: &[Act]) -> String {
    let (ledger, _) = history();
    let why = disagreement(acts, &ledger.counts(), &ledger.side());
    why.expect("a disagreement")
}

#[test]
fn an_act_too_few_is_reported() {
    let (_, done) = history();
    let without = |at: usize| [&done[..at], &done[at + 1..]].concat();
    for (at, act) in done.iter().enumerate() {
        if matches!(act, Act::Kept(_) | Act::TookSend { .. }) {
            wrong(&without(at));
        }
    }
    // the end of the process discards a send of 41
    let end = done.iter().position(|&act| act == ENDS).expect("an end");
    let why = wrong(&without(end));
    assert!(
        why.starts_with("signal 41 of process 100: the acts leave"),
        "{why}"
    );
}

#[test]
fn an_act_too_many_is_reported() {
    let (_, done) = history();
    let operator = Queue {
        process: 1,
        thread: 0,
    };
    let and = |act| [&done[..], &[act]].concat();
    let why = wrong(&and(Act::Kept(record(operator, 41, 13))));
    assert!(
        why.starts_with("signal 41 of process 1: the acts leave"),
        "{why}"
    );
    let why = wrong(&and(took_send(operator, 41, 12)));
    assert!(
        why.starts_with("signal 41 of process 1: the acts leave []"),
        "{why}"
    );
    let why = wrong(&and(took_send(PROCESS, 40, 1)));
    assert_eq!(why, "signal 40 of process 100: 1 were taken of 0 kept");
    let why = wrong(&and(Act::Emptied(Event::AllCleared)));
    assert!(
        why.starts_with("signal 41 of process 1: the acts leave []"),
        "{why}"
    );
}

#[test]
fn another_order_is_reported() {
    let (mut ledger, mut done) = (after(&[]), vec![]);
    for value in 1..=3 {
        let text = format!("queue by=1 to=100 thread=0 signal=40 value={value}");
        done.extend(ledger.enter(&call(&text), false));
    }
    let says = |acts: &[Act]| disagreement(acts, &ledger.counts(), &ledger.side());
    assert_eq!(says(&done), None);
    done.swap(0, 1);
    let why = says(&done).expect("a disagreement");
    assert!(why.contains("the acts leave"), "{why}");
}

#[test]
fn counts_that_are_no_tallies_are_reported() {
    let (ledger, done) = history();
    let key = (PROCESS, 40);
    let counts = ledger.counts();
    let change = |change: fn(&mut Counts)| {
        let mut changed = counts.clone();
        change(changed.get_mut(&key).expect("counts"));
        disagreement(&done, &changed, &ledger.side())
    };
    assert_eq!(change(|_| ()), None);
    for why in [
        change(|counts| counts.kept += 1),
        change(|counts| counts.taken += 1),
        change(|counts| counts.taken -= 1),
    ] {
        let why = why.expect("a disagreement");
        assert!(why.contains("the acts keep 4 and take 3"), "{why}");
    }
    // counts of a queue and signal without any act
    let mut more = counts.clone();
    let kept = Counts {
        kept: 1,
        ..Counts::default()
    };
    more.insert((THREAD, 60), kept);
    let why = disagreement(&done, &more, &ledger.side()).expect("a disagreement");
    assert!(
        why.starts_with("signal 60 of thread 200: the acts keep 0"),
        "{why}"
    );
}
