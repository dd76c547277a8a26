//! Process 1 of user 0 with thread 2; process 100 of user 1000 with threads 200, which blocks everything, and 201.

use crate::common::make;
use rrezhbuta_ledger::ledger::Ledger;
use rrezhbuta_ledger::side::Queue;

/// The queues of process 100 and of its thread 200.
pub const PROCESS: Queue = Queue {
    process: 100,
    thread: 0,
};
pub const THREAD: Queue = Queue {
    process: 100,
    thread: 200,
};

const CALLS: [&str; 5] = [
    "clear",
    "add_process id=1 real=5 effective=0 saved=0 session=1 thread=2 mask=0",
    "add_process id=100 real=1000 effective=1000 saved=1000 session=7 thread=200 mask=18446744073709551615",
    "add_thread creator=200 id=201",
    "mask thread=201 way=2 set=0",
];

pub fn begin() -> Ledger {
    let mut ledger = Ledger::default();
    make_all(&mut ledger, &CALLS);
    ledger
}

/// Calls none of which is refused.
pub fn make_all(ledger: &mut Ledger, calls: &[&str]) {
    for text in calls {
        let answer = make(ledger, text);
        assert!(!answer.starts_with("refused"), "{text}: {answer}");
    }
}
