//! The history that the program wrote, as it is and with one thing wrong in it.

use rrezhbuta_ledger::ledger::Counts;
use rrezhbuta_ledger::side::Queue;
use rrezhbuta_ledger::{history, page};
use std::collections::BTreeMap;
use std::io::Write;
use std::process::{Command, Output, Stdio};

const WRITTEN: &str = include_str!("../../../crates/worked/stdout");

fn page_of(text: &str) -> Result<String, String> {
    page::page(&history::parse(text)?)
}

#[test]
fn the_two_sides_agree_after_every_call() {
    let page = page_of(WRITTEN).expect("a page");
    let calls = WRITTEN.lines().filter(|l| l.starts_with("call ")).count();
    assert!(calls >= 20, "{calls} calls");
    assert_eq!(page.matches("\n## ").count(), calls);
    assert_eq!(page.matches("\n| | ledger | tables |\n").count(), calls);
    assert!(page.contains(
        "| count of 40 for process 100 | kept 3 = taken 1 + discarded 2 + pending 0 | pending 0 |"
    ));
}

/// The rows of the n-th call's table.
fn rows(page: &str, n: usize) -> Vec<&str> {
    let section = page.split("\n## ").nth(n).expect("a section");
    section.lines().filter(|l| l.starts_with("| ")).collect()
}

#[test]
fn each_call_has_its_acts_in_order() {
    let page = page_of(WRITTEN).expect("a page");
    for (call, acts) in [
        (1, "emptied: all is cleared"),
        (7, "40:1 is kept for process 100"),
        (10, "the mark of 2 is set for process 100"),
        (
            13,
            "emptied: a stop signal is sent to process 100; 20:4 is kept for thread 201",
        ),
        (
            14,
            "emptied: CONT is sent to process 100; the mark of 18 is set for process 100",
        ),
        (15, "emptied: a stop signal is sent to process 100"),
        (19, "thread 200 takes the mark of 18 for process 100"),
        (21, "thread 201 takes the oldest send for process 100, 40:1"),
        (23, "emptied: process 100 now ignores 40"),
        (26, "emptied: process 100 ends"),
    ] {
        let row = format!("| acts | {acts} | - |");
        assert_eq!(rows(&page, call)[1], row, "call {call}");
    }
    // one that is absorbed, one that is refused, one that takes nothing, one that only asks
    for call in [11, 12, 16, 25] {
        let rows = rows(&page, call);
        assert!(!rows.iter().any(|row| row.contains("acts")), "call {call}");
    }
}

/// What is wrong, what stands in its place, and what is said of it.
const WRONGS: [(&str, &str, &str); 17] = [
    // the tables
    ("stopped=1", "stopped=0", "process 100"),
    ("stopped=0 marks 2\n", "stopped=0 marks\n", "the marks of"),
    ("stopped=0 marks 2\n", "stopped=0 marks 2 15\n", "the marks of"),
    ("thread id=201 process=100 mask=0x2", "thread id=201 process=100 mask=0x3", "thread 201"),
    ("thread id=2 process=1 mask=0x0 marks\n", "", "thread 2"),
    ("effective=1000 saved=1000 session=7 stopped", "effective=0 saved=1000 session=7 stopped", "process 100"),
    ("handler=5000 flags=4 mask=0x0", "handler=5000 flags=0 mask=0x0", "process 100"),
    ("uid=1000 value=1\n", "uid=1000 value=9\n", "the records of"),
    ("sender=1 uid=0 value=2\n", "sender=1 uid=1 value=2\n", "the records of"),
    ("record process=100 thread=201 signal=20 code=-1 sender=1 uid=0 value=4\n", "", "the records of"),
    (
        "record process=100 thread=0 signal=40 code=-1 sender=100 uid=1000 value=1\n\
         record process=100 thread=0 signal=40 code=-1 sender=1 uid=0 value=2\n",
        "record process=100 thread=0 signal=40 code=-1 sender=1 uid=0 value=2\n\
         record process=100 thread=0 signal=40 code=-1 sender=100 uid=1000 value=1\n",
        "the records of",
    ),
    // more than the ledger has
    (
        "thread id=2 process=1 mask=0x0 marks\n",
        "thread id=2 process=1 mask=0x0 marks\nthread id=3 process=1 mask=0x0 marks\n",
        "thread 3",
    ),
    (
        "thread id=2 process=1 mask=0x0 marks\n",
        "thread id=2 process=1 mask=0x0 marks\nrecord process=1 thread=0 signal=40 code=-1 sender=1 uid=0 value=1\n",
        "the records of",
    ),
    // the answers and the refusals
    ("answer absorbed", "answer marked", "the ledger answers absorbed"),
    ("answer refused 1\n", "answer marked\n", "the ledger answers refused 1"),
    ("answer acted", "answer refused 11", "the ledger answers acted"),
    ("answer can take 200", "answer can take 201", "the ledger answers can take 200"),
];

#[test]
fn one_thing_wrong_is_reported() {
    for (right, wrong, said) in WRONGS {
        let text = WRITTEN.replacen(right, wrong, 1);
        assert_ne!(text, WRITTEN, "{right}");
        let why = page_of(&text).expect_err(wrong);
        assert!(why.contains(said), "{wrong}: {why}");
    }
}

#[test]
fn a_take_that_drains_the_queue_is_reported() {
    let (before, after) = WRITTEN.split_once("call return").expect("a return");
    let (kept, last) = before.rsplit_once("\ncall take").expect("a take");
    let drained: Vec<&str> = last.lines().filter(|l| !l.starts_with("record")).collect();
    let drained = drained.join("\n");
    let why = page_of(&format!("{kept}\ncall take{drained}\ncall return{after}"));
    let why = why.expect_err("drained");
    // by the ledger's list, by the acts and by the count
    for said in [
        "take thread=201",
        "the records of",
        "signal 40 of process 100: the acts leave",
        "signal 40 of process 100 does not balance",
    ] {
        assert!(why.contains(said), "{said}: {why}");
    }
}

#[test]
fn counts_that_do_not_balance_are_reported() {
    let queue = Queue {
        process: 100,
        thread: 0,
    };
    let steps = history::parse(WRITTEN).expect("a history");
    // after three queued sends
    let tables = &steps[8].tables;
    assert_eq!(tables.pending(queue, 40), 3);
    let with = |kept, taken, discarded| {
        let counts = Counts {
            kept,
            taken,
            discarded,
        };
        page::imbalance(&BTreeMap::from([((queue, 40), counts)]), tables)
    };
    assert_eq!(with(3, 0, 0), None);
    assert_eq!(with(5, 1, 1), None);
    for why in [with(4, 0, 0), with(3, 1, 0), with(3, 0, 1), with(2, 0, 0)] {
        let why = why.expect("an imbalance");
        assert!(why.starts_with("signal 40 of process 100"), "{why}");
    }
    // what is pending and was never kept
    assert!(page::imbalance(&BTreeMap::new(), tables).is_some());
}

const BAD: [(&str, &str); 19] = [
    ("", "there is no call"),
    ("call clear", "the last call has no answer"),
    ("call clear\ncall clear\nanswer done", "line 2"),
    ("call flush\nanswer done", "line 1: `flush` is no call"),
    ("call take\nanswer nothing", "line 1: thread= is missing"),
    ("call kill by=1 to=1 signal=2 thread=0\nanswer marked", "line 1: `signal=2`"),
    ("call take thread=1 now\nanswer nothing", "line 1: `now`"),
    ("call take  thread=1\nanswer nothing", "line 1"),
    ("call take thread=4294967296\nanswer nothing", "line 1: `4294967296`"),
    ("call take thread=-1\nanswer nothing", "line 1: `-1`"),
    ("call clear\nanswer", "line 2"),
    ("call clear\nanswer done\nanswer done", "line 3"),
    ("answer done", "line 1: no call"),
    ("process id=1", "line 1: no call"),
    (
        "call clear\nanswer done\nprocess id=1 real=0 effective=0 saved=0 session=0 stopped=2 marks",
        "line 3: stopped is 2",
    ),
    ("call clear\nanswer done\nprocess id=1 real=0 effective=0 saved=0 session=0 stopped=0", "line 3: the word marks"),
    ("call clear\nanswer done\nthread id=1 process=1 mask=2 marks", "line 3: `2`"),
    (
        "call clear\nanswer done\nthread id=1 process=1 mask=0x0 marks\nthread id=1 process=1 mask=0x0 marks",
        "line 4: thread 1 stands twice",
    ),
    ("call clear\nanswer done\naction process=1 signal=2 handler=1 flags=0 mask=0x0", "line 3: no such process"),
];

#[test]
fn a_bad_line_is_refused() {
    for (text, said) in BAD {
        let why = page_of(text).expect_err(text);
        assert!(why.contains(said), "{text}: {why}");
    }
}

fn run(text: &str) -> Output {
    let mut child = Command::new(env!("CARGO_BIN_EXE_history"))
        .stdin(Stdio::piped())
        .stdout(Stdio::piped())
        .stderr(Stdio::piped())
        .spawn()
        .expect("the program history");
    let mut stdin = child.stdin.take().expect("its input");
    stdin.write_all(text.as_bytes()).expect("its input");
    drop(stdin);
    child.wait_with_output().expect("its output")
}

#[test]
fn the_program_says_so_and_fails() {
    let good = run(WRITTEN);
    assert!(good.status.success());
    assert_eq!(
        String::from_utf8(good.stdout),
        Ok(page_of(WRITTEN).expect("a page"))
    );
    let bad = run(&WRITTEN.replacen("stopped=1", "stopped=0", 1));
    assert!(!bad.status.success());
    assert!(bad.stdout.is_empty());
    let said = String::from_utf8(bad.stderr).expect("text");
    assert!(
        said.starts_with("history: 15. `kill") && said.contains("process 100"),
        "{said}"
    );
}
