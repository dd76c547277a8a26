//! Every example of docs/CALLS.md, made on both sides: the answers are those on the page.

use rrezhbuta::Tables;
use rrezhbuta_compare::layer::{Layer, Library};
use rrezhbuta_compare::step::{Expectation, Told};
use rrezhbuta_model::{Action, Answer, Call, NewProcess, Next, Record, Set};
use std::collections::HashMap;

const PAGE: &str = include_str!("../../../docs/CALLS.md");

/// The arguments of a call by their names.
struct Arguments<'a>(HashMap<&'a str, u64>);

impl Arguments<'_> {
    fn low(&self, name: &str) -> u32 {
        u32::try_from(self.0[name]).expect("a 32-bit number")
    }

    fn action(&self) -> Option<Action> {
        let handler = *self.0.get("handler")?;
        Some(Action {
            handler,
            flags: self.0["flags"],
            mask: Set(self.0["mask"]),
        })
    }
}

fn call(text: &str) -> Call {
    let mut words = text.split_whitespace();
    let name = words.next().expect("a call");
    let pairs = words.map(|word| word.split_once('=').expect("name=number"));
    let a = Arguments(pairs.map(|(n, v)| (n, v.parse().expect(v))).collect());
    let thread = || a.low("thread");
    match name {
        "clear" => Call::Clear,
        "add_process" => add_process(&a),
        "add_thread" => Call::AddThread {
            creator: a.low("creator"),
            id: a.low("id"),
        },
        "end_process" => Call::EndProcess { id: a.low("id") },
        "end_thread" => Call::EndThread { id: a.low("id") },
        "kill" | "queue" => send(&a),
        "action" => Call::Sigaction {
            process: a.low("process"),
            signal: a.low("signal"),
            new: a.action(),
        },
        "mask" => mask(&a),
        "pending" => Call::Sigpending { thread: thread() },
        "look" => Call::Look { thread: thread() },
        "who" => Call::Who {
            process: a.low("process"),
        },
        "take" => Call::Take { thread: thread() },
        "return" => Call::Sigreturn {
            thread: thread(),
            mask: a.0["mask"],
        },
        other => panic!("no call {other}"),
    }
}

fn add_process(a: &Arguments) -> Call {
    Call::AddProcess(NewProcess {
        id: a.low("id"),
        real: a.low("real"),
        effective: a.low("effective"),
        saved: a.low("saved"),
        session: a.low("session"),
        thread: a.low("thread"),
        mask: a.0["mask"],
    })
}

/// A value makes it a queued send.
fn send(a: &Arguments) -> Call {
    let [by, to, thread, signal] = ["by", "to", "thread", "signal"].map(|name| a.low(name));
    match a.0.get("value") {
        None => Call::Kill {
            by,
            to,
            thread,
            signal,
        },
        Some(&value) => Call::Sigqueue {
            by,
            to,
            thread,
            signal,
            value,
        },
    }
}

fn mask(a: &Arguments) -> Call {
    Call::Sigmask {
        thread: a.low("thread"),
        way: a.low("way"),
        set: a.0.get("set").copied(),
    }
}

fn record(r: &Record) -> String {
    let code = r.code as i32;
    let Record {
        process,
        thread,
        signal,
        sender,
        uid,
        value,
        ..
    } = r;
    format!("({process} {thread} {signal} {code} {sender} {uid} {value})")
}

/// What a call told, in the page's words.
fn words(told: &Told) -> String {
    let answer = match told {
        Err(errno) => return format!("refused {errno}"),
        Ok(answer) => answer,
    };
    match answer {
        Answer::OldAction(Action {
            handler,
            flags,
            mask,
        }) => format!("old action handler={handler} flags={flags} mask={}", mask.0),
        Answer::OldMask(mask) => format!("old mask {}", mask.0),
        Answer::PendingSet(set) => format!("pending set {}", set.0),
        Answer::Looked(next) => format!("looked {}", next_words(next)),
        Answer::CanTake(thread) => format!("can take {thread}"),
        Answer::NoneCan => "none can".to_string(),
        Answer::Handler {
            handler,
            signal,
            record: taken,
            flags,
            saved,
        } => {
            let taken = record(taken);
            format!(
                "handler {handler} signal {signal} record {taken} flags {flags} saved {}",
                saved.0
            )
        }
        Answer::End(signal) => format!("end {signal}"),
        Answer::Stop(signal) => format!("stop {signal}"),
        Answer::NoAction(signal) => format!("no action {signal}"),
        plain => format!("{plain:?}").to_lowercase(),
    }
}

fn next_words(next: &Next) -> String {
    match next {
        Next::Nothing => "nothing".to_string(),
        Next::Mark {
            process,
            thread,
            signal,
        } => format!("mark of {signal} in queue {process} {thread}"),
        Next::Record(r) => format!("record {}", record(r)),
    }
}

/// Both sides from cleared tables.
struct Story {
    library: Library,
    side: Expectation,
}

impl Story {
    fn new() -> Story {
        let mut library = Library::default();
        library.load(Tables::new());
        Story {
            library,
            side: Expectation::default(),
        }
    }

    fn make(&mut self, call: &Call) -> Told {
        let told = self.side.step(&mut self.library, call);
        told.unwrap_or_else(|difference| panic!("{call:?}\n{difference}"))
    }

    /// Process 100 alone, with 32 records of 34 pending.
    fn beside() -> Story {
        let mut story = Story::new();
        let add =
            "add_process id=100 real=1000 effective=1000 saved=1000 session=7 thread=200 mask=0";
        assert_eq!(story.make(&call(add)), Ok(Answer::Done));
        for _ in 0..32 {
            let queue = call("queue by=100 to=100 thread=0 signal=34 value=7");
            assert_eq!(story.make(&queue), Ok(Answer::Kept));
        }
        story
    }
}

#[test]
fn the_page_tells_what_both_sides_do() {
    let mut story = Story::new();
    let mut beside = Story::beside();
    let (mut in_block, mut is_beside, mut rows) = (false, false, 0);
    for line in PAGE.lines() {
        if line.starts_with("```") {
            in_block = !in_block;
            is_beside &= in_block;
        } else if let (true, Some((made, told))) = (in_block, line.split_once(" → ")) {
            let story = if is_beside { &mut beside } else { &mut story };
            assert_eq!(words(&story.make(&call(made))), told, "{made}");
            rows += 1;
        } else if line.starts_with("Beside the story") {
            is_beside = true;
        }
    }
    assert!(rows > 70, "only {rows} examples were found");
}
