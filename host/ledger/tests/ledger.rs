//! What document 01 says of the ledger: sends kept, taken and discarded, and what a refused call leaves.

mod beginning;
mod common;

use beginning::{begin, make_all, PROCESS, THREAD};
use common::{call, make};
use rrezhbuta_ledger::ledger::{Counts, Ledger};
use rrezhbuta_ledger::side::{Queue, Side};

fn counts(ledger: &Ledger, queue: Queue, signal: u32) -> Counts {
    ledger
        .counts()
        .get(&(queue, signal))
        .copied()
        .unwrap_or_default()
}

fn values(ledger: &Ledger, queue: Queue, signal: u32) -> Vec<u64> {
    let side = ledger.side();
    let records = side.records.get(&(queue, signal));
    records.map_or(vec![], |records| records.iter().map(|r| r.value).collect())
}

#[test]
fn it_starts_empty() {
    assert_eq!(Ledger::default().side(), Side::default());
    assert!(Ledger::default().counts().is_empty());
}

/// What is pending before the event, the event, and the queue and signal that it empties.
struct Event {
    before: &'static [&'static str],
    event: &'static str,
    queue: Queue,
    signal: u32,
    discarded: usize,
}

const EVENTS: [Event; 14] = [
    Event {
        before: &[
            "queue by=1 to=100 thread=0 signal=40 value=1",
            "queue by=1 to=100 thread=0 signal=40 value=2",
        ],
        event: "clear",
        queue: PROCESS,
        signal: 40,
        discarded: 2,
    },
    Event {
        before: &["queue by=1 to=100 thread=200 signal=40 value=1"],
        event: "kill by=1 to=100 thread=0 signal=9",
        queue: THREAD,
        signal: 40,
        discarded: 1,
    },
    Event {
        before: &["queue by=1 to=100 thread=200 signal=18 value=1"],
        event: "queue by=1 to=100 thread=201 signal=19 value=2",
        queue: THREAD,
        signal: 18,
        discarded: 1,
    },
    Event {
        before: &["queue by=1 to=100 thread=200 signal=18 value=1"],
        event: "kill by=1 to=100 thread=0 signal=20",
        queue: THREAD,
        signal: 18,
        discarded: 1,
    },
    Event {
        before: &["queue by=1 to=100 thread=0 signal=20 value=1"],
        event: "kill by=1 to=100 thread=200 signal=18",
        queue: PROCESS,
        signal: 20,
        discarded: 1,
    },
    Event {
        before: &["queue by=1 to=100 thread=0 signal=21 value=1"],
        event: "kill by=1 to=100 thread=0 signal=18",
        queue: PROCESS,
        signal: 21,
        discarded: 1,
    },
    Event {
        before: &["queue by=1 to=100 thread=0 signal=22 value=1"],
        event: "kill by=1 to=100 thread=0 signal=18",
        queue: PROCESS,
        signal: 22,
        discarded: 1,
    },
    // an ignored CONT discards all the same
    Event {
        before: &[
            "action process=100 signal=18 handler=1 flags=0 mask=0",
            "queue by=1 to=100 thread=0 signal=20 value=1",
        ],
        event: "queue by=1 to=100 thread=0 signal=18 value=2",
        queue: PROCESS,
        signal: 20,
        discarded: 1,
    },
    Event {
        before: &[
            "queue by=1 to=100 thread=200 signal=40 value=1",
            "queue by=1 to=100 thread=200 signal=40 value=2",
            "kill by=1 to=100 thread=200 signal=40",
        ],
        event: "action process=100 signal=40 handler=1 flags=0 mask=0",
        queue: THREAD,
        signal: 40,
        discarded: 2,
    },
    Event {
        before: &[
            "action process=100 signal=17 handler=5000 flags=0 mask=0",
            "queue by=1 to=100 thread=0 signal=17 value=1",
        ],
        event: "action process=100 signal=17 handler=0 flags=0 mask=0",
        queue: PROCESS,
        signal: 17,
        discarded: 1,
    },
    // the reset of RESETHAND, whose own send is taken and not discarded
    Event {
        before: &[
            "action process=100 signal=17 handler=5000 flags=2147483648 mask=0",
            "queue by=1 to=100 thread=200 signal=17 value=1",
            "queue by=1 to=100 thread=0 signal=17 value=2",
        ],
        event: "take thread=201",
        queue: THREAD,
        signal: 17,
        discarded: 1,
    },
    Event {
        before: &["queue by=1 to=100 thread=200 signal=40 value=1"],
        event: "end_thread id=200",
        queue: THREAD,
        signal: 40,
        discarded: 1,
    },
    Event {
        before: &[
            "queue by=1 to=100 thread=0 signal=40 value=1",
            "end_thread id=201",
        ],
        event: "end_thread id=200",
        queue: PROCESS,
        signal: 40,
        discarded: 1,
    },
    // an end by default, set off by the take of another signal
    Event {
        before: &[
            "queue by=1 to=100 thread=0 signal=40 value=1",
            "kill by=1 to=100 thread=0 signal=15",
        ],
        event: "take thread=201",
        queue: PROCESS,
        signal: 40,
        discarded: 1,
    },
];

#[test]
fn each_emptying_event_discards_and_counts() {
    for Event {
        before,
        event,
        queue,
        signal,
        discarded,
    } in EVENTS
    {
        let mut ledger = begin();
        make_all(&mut ledger, before);
        assert_eq!(values(&ledger, queue, signal).len(), discarded, "{event}");
        make_all(&mut ledger, &[event]);
        assert!(values(&ledger, queue, signal).is_empty(), "{event}");
        let marks = ledger.side().marks;
        let marked = marks.get(&queue).is_some_and(|m| m.contains(&signal));
        assert!(!marked, "{event}");
        let expected = Counts {
            kept: discarded,
            taken: 0,
            discarded,
        };
        assert_eq!(counts(&ledger, queue, signal), expected, "{event}");
    }
}

#[test]
fn an_emptying_event_spares_the_rest() {
    let mut ledger = begin();
    make_all(
        &mut ledger,
        &[
            "queue by=1 to=100 thread=0 signal=40 value=1",
            "queue by=1 to=1 thread=2 signal=20 value=2",
            "queue by=1 to=100 thread=0 signal=20 value=3",
            "kill by=1 to=100 thread=0 signal=18",
        ],
    );
    let operator = Queue {
        process: 1,
        thread: 2,
    };
    assert_eq!(values(&ledger, PROCESS, 40), [1]);
    assert_eq!(values(&ledger, operator, 20), [2]);
    assert_eq!(counts(&ledger, PROCESS, 40).discarded, 0);
    assert_eq!(counts(&ledger, operator, 20).discarded, 0);
}

#[test]
fn a_take_takes_the_oldest_then_the_mark() {
    let mut ledger = begin();
    make_all(
        &mut ledger,
        &[
            "action process=100 signal=40 handler=5000 flags=0 mask=0",
            "kill by=1 to=100 thread=0 signal=40",
            "queue by=1 to=100 thread=0 signal=40 value=7",
            "queue by=100 to=100 thread=0 signal=40 value=8",
        ],
    );
    let takes = [
        "handler 5000 signal 40 record (100 0 40 -1 1 5 7) flags 0 saved 0",
        "handler 5000 signal 40 record (100 0 40 -1 100 1000 8) flags 0 saved 0",
        "handler 5000 signal 40 record (100 0 40 0 0 0 0) flags 0 saved 0",
    ];
    let left: [&[u64]; 3] = [&[8], &[], &[]];
    for (taken, left) in takes.into_iter().zip(left) {
        assert_eq!(make(&mut ledger, "take thread=201"), taken);
        assert_eq!(values(&ledger, PROCESS, 40), left);
        make_all(&mut ledger, &["return thread=201 mask=0"]);
    }
    assert_eq!(make(&mut ledger, "take thread=201"), "nothing");
    // the mark was no send
    let expected = Counts {
        kept: 2,
        taken: 2,
        discarded: 0,
    };
    assert_eq!(counts(&ledger, PROCESS, 40), expected);
}

#[test]
fn an_absorbed_and_a_dropped_send_are_not_kept() {
    let mut ledger = begin();
    make_all(
        &mut ledger,
        &["queue by=1 to=100 thread=0 signal=2 value=1"],
    );
    assert_eq!(
        make(&mut ledger, "queue by=1 to=100 thread=0 signal=2 value=2"),
        "absorbed"
    );
    assert_eq!(
        make(&mut ledger, "queue by=1 to=100 thread=0 signal=17 value=3"),
        "dropped"
    );
    assert_eq!(values(&ledger, PROCESS, 2), [1]);
    assert_eq!(counts(&ledger, PROCESS, 2).kept, 1);
    assert_eq!(counts(&ledger, PROCESS, 17).kept, 0);
}

#[test]
fn a_refused_call_leaves_it_alone() {
    let mut ledger = begin();
    make_all(
        &mut ledger,
        &["queue by=1 to=100 thread=0 signal=40 value=1"],
    );
    let (side, counts) = (ledger.side(), ledger.counts());
    for text in [
        "clear",
        "add_thread creator=200 id=202",
        "end_process id=100",
        "kill by=1 to=100 thread=0 signal=9",
        "queue by=1 to=100 thread=0 signal=40 value=2",
        "action process=100 signal=40 handler=1 flags=0 mask=0",
        "mask thread=201 way=0 set=1",
        "take thread=201",
        "return thread=200 mask=0",
    ] {
        ledger.enter(&call(text), true);
        assert_eq!(ledger.side(), side, "{text}");
        assert_eq!(ledger.counts(), counts, "{text}");
    }
}

#[test]
fn counts_outlive_clearing_and_an_id_that_is_used_again() {
    let mut ledger = begin();
    make_all(
        &mut ledger,
        &[
            "queue by=1 to=100 thread=0 signal=40 value=1",
            "clear",
            "add_process id=100 real=1 effective=1 saved=1 session=1 thread=200 mask=0",
            "queue by=100 to=100 thread=0 signal=40 value=2",
        ],
    );
    let expected = Counts {
        kept: 2,
        taken: 0,
        discarded: 1,
    };
    assert_eq!(counts(&ledger, PROCESS, 40), expected);
    assert_eq!(values(&ledger, PROCESS, 40), [2]);
}

#[test]
fn a_process_has_room_for_32_sends() {
    let mut ledger = begin();
    for value in 0..32 {
        let thread = [0, 200][value % 2];
        let text = format!("queue by=1 to=100 thread={thread} signal=34 value={value}");
        assert_eq!(make(&mut ledger, &text), "kept");
    }
    let one_more = "queue by=1 to=100 thread=201 signal=40 value=7";
    assert_eq!(make(&mut ledger, one_more), "refused 11");
    make_all(
        &mut ledger,
        &[
            "action process=100 signal=34 handler=5000 flags=0 mask=0",
            "take thread=201",
        ],
    );
    assert_eq!(make(&mut ledger, one_more), "kept");
    let kill = "queue by=1 to=100 thread=0 signal=9 value=0";
    assert_eq!(make(&mut ledger, kill), "acted");
    assert_eq!(counts(&ledger, THREAD, 34).discarded, 16);
    assert_eq!(counts(&ledger, PROCESS, 34).taken, 1);
}

#[test]
fn a_handler_has_its_mask_and_the_signal_unless_nodefer() {
    for (flags, mask, expected) in [
        (0u64, 2048u64, 2560u64),
        (0x4000_0000, 2048, 2048),
        (0, u64::MAX, 18_446_744_073_709_289_215),
        // RESETHAND does not imply NODEFER
        (0x8000_0000, 2048, 2560),
    ] {
        let mut ledger = begin();
        let action = format!("action process=100 signal=10 handler=5000 flags={flags} mask={mask}");
        make_all(
            &mut ledger,
            &[
                &action,
                "kill by=1 to=100 thread=0 signal=10",
                "take thread=201",
            ],
        );
        assert_eq!(ledger.side().threads[&201].mask, expected, "{action}");
    }
}

#[test]
fn a_reset_leaves_ill_and_trap() {
    for (signal, handler) in [(4, 5000), (5, 5000), (6, 0)] {
        let mut ledger = begin();
        let action = format!("process=100 signal={signal}");
        make_all(
            &mut ledger,
            &[
                &format!("action {action} handler=5000 flags=2147483652 mask=0"),
                &format!("kill by=1 to=100 thread=0 signal={signal}"),
                "take thread=201",
            ],
        );
        let flags = if handler == 0 {
            2147483648u64
        } else {
            2147483652
        };
        assert_eq!(
            make(&mut ledger, &format!("action {action}")),
            format!("old action handler={handler} flags={flags} mask=0")
        );
    }
}

#[test]
fn an_unknown_flag_is_refused_and_the_old_action_stays() {
    let mut ledger = begin();
    let store = |process: u32, flags: u64| {
        format!("action process={process} signal=10 handler=5000 flags={flags} mask=0")
    };
    make(&mut ledger, &store(100, 4));
    for bit in (0..64).filter(|n| ![2, 28, 30, 31].contains(n)) {
        for process in [100, 999] {
            let call = store(process, 4 | 1 << bit);
            assert_eq!(make(&mut ledger, &call), "refused 22", "{call}");
        }
    }
    let answer = make(&mut ledger, "action process=100 signal=10");
    assert_eq!(answer, "old action handler=5000 flags=4 mask=0");
}

#[test]
fn who_may_signal_whom() {
    let mut ledger = begin();
    make_all(
        &mut ledger,
        &[
            // saved id 1000, and one of session 7
            "add_process id=101 real=1001 effective=1001 saved=1000 session=8 thread=300 mask=0",
            "add_process id=102 real=1002 effective=1002 saved=1002 session=7 thread=301 mask=0",
            // effective id 1002
            "add_process id=103 real=1003 effective=1002 saved=1003 session=9 thread=302 mask=0",
        ],
    );
    for (by, to, signal, answer) in [
        (100, 101, 10, "marked"),
        (101, 100, 10, "refused 1"),
        (100, 102, 10, "refused 1"),
        (100, 102, 18, "marked"),
        (101, 102, 18, "refused 1"),
        (103, 102, 10, "marked"),
        (102, 103, 10, "refused 1"),
        (1, 103, 10, "marked"),
    ] {
        let text = format!("kill by={by} to={to} thread=0 signal={signal}");
        assert_eq!(make(&mut ledger, &text), answer, "{text}");
    }
}

#[test]
fn ids_that_cannot_be_added() {
    let mut ledger = begin();
    for (id, thread, answer) in [
        (0u32, 300u32, "refused 22"),
        (101, 0, "refused 22"),
        (101, 2147483648, "refused 22"),
        (100, 300, "refused 17"),
        (101, 201, "refused 17"),
        (101, 2147483647, "done"),
    ] {
        let text = format!(
            "add_process id={id} real=0 effective=0 saved=0 session=1 thread={thread} mask=0"
        );
        assert_eq!(make(&mut ledger, &text), answer, "{text}");
    }
}
