//! The history that the program `worked` writes: for each call a line with it, a line with its answer, and the lines of
//! the tables after it.

use crate::call::{number, Call, Words};
use crate::side::{Action, Process, Queue, Record, Side, Thread};
use std::collections::{BTreeMap, BTreeSet};

/// A call, what it answered, and what the tables say after it.
#[derive(Clone, Debug)]
pub struct Step {
    pub text: String,
    pub call: Call,
    pub answer: String,
    pub tables: Side,
}

impl Step {
    pub fn is_refused(&self) -> bool {
        self.answer.starts_with("refused ")
    }
}

pub fn parse(text: &str) -> Result<Vec<Step>, String> {
    let mut steps = vec![];
    for (at, line) in text.lines().enumerate() {
        read(&mut steps, line).map_err(|why| format!("line {}: {why}", at + 1))?;
    }
    match steps.last() {
        None => Err("there is no call".into()),
        Some(step) if step.answer.is_empty() => Err("the last call has no answer".into()),
        Some(_) => Ok(steps),
    }
}

fn read(steps: &mut Vec<Step>, line: &str) -> Result<(), String> {
    let (kind, rest) = line.split_once(' ').unwrap_or((line, ""));
    if kind == "call" {
        if steps.last().is_some_and(|step| step.answer.is_empty()) {
            return Err("the call before has no answer".into());
        }
        steps.push(Step {
            text: rest.into(),
            call: Call::parse(rest)?,
            answer: String::new(),
            tables: Side::default(),
        });
        return Ok(());
    }
    let step = steps.last_mut().ok_or("no call stands before it")?;
    match (kind, step.answer.is_empty()) {
        ("answer", true) if !rest.is_empty() => {
            step.answer = rest.into();
            Ok(())
        }
        ("process" | "action" | "thread" | "record", false) => {
            let mut words = Words::of(rest);
            note(&mut step.tables, kind, &mut words)?;
            words.end()
        }
        _ => Err(format!("`{line}` should not stand here")),
    }
}

fn note(tables: &mut Side, kind: &str, words: &mut Words) -> Result<(), String> {
    match kind {
        "process" => note_process(tables, words),
        "action" => note_action(tables, words),
        "thread" => note_thread(tables, words),
        _ => note_record(tables, words),
    }
}

fn note_process(tables: &mut Side, words: &mut Words) -> Result<(), String> {
    let process = Process {
        id: words.number("id")?,
        real: words.number("real")?,
        effective: words.number("effective")?,
        saved: words.number("saved")?,
        session: words.number("session")?,
        stopped: match words.number("stopped")? {
            0u64 => false,
            1 => true,
            other => return Err(format!("stopped is {other}, neither 0 nor 1")),
        },
        actions: BTreeMap::new(),
    };
    let queue = Queue {
        process: process.id,
        thread: 0,
    };
    note_marks(tables, queue, words)?;
    match tables.processes.insert(process.id, process) {
        None => Ok(()),
        Some(other) => Err(format!("process {} stands twice", other.id)),
    }
}

fn note_action(tables: &mut Side, words: &mut Words) -> Result<(), String> {
    let process = words.number("process")?;
    let signal = words.number("signal")?;
    let action = Action {
        handler: words.number("handler")?,
        flags: words.number("flags")?,
        mask: words.hex("mask")?,
    };
    let process = tables
        .processes
        .get_mut(&process)
        .ok_or("no such process stands before it")?;
    match process.actions.insert(signal, action) {
        None => Ok(()),
        Some(_) => Err(format!("the action of {signal} stands twice")),
    }
}

fn note_thread(tables: &mut Side, words: &mut Words) -> Result<(), String> {
    let thread = Thread {
        id: words.number("id")?,
        process: words.number("process")?,
        mask: words.hex("mask")?,
    };
    let queue = Queue {
        process: thread.process,
        thread: thread.id,
    };
    note_marks(tables, queue, words)?;
    match tables.threads.insert(thread.id, thread) {
        None => Ok(()),
        Some(other) => Err(format!("thread {} stands twice", other.id)),
    }
}

/// The word `marks` and the signals after it, to the end of the line.
fn note_marks(tables: &mut Side, queue: Queue, words: &mut Words) -> Result<(), String> {
    words.word("marks")?;
    let mut marks = BTreeSet::new();
    while let Some(signal) = words.next() {
        marks.insert(number(signal)?);
    }
    if !marks.is_empty() {
        tables.marks.insert(queue, marks);
    }
    Ok(())
}

fn note_record(tables: &mut Side, words: &mut Words) -> Result<(), String> {
    let record = Record {
        queue: Queue {
            process: words.number("process")?,
            thread: words.number("thread")?,
        },
        signal: words.number("signal")?,
        code: words.number("code")?,
        sender: words.number("sender")?,
        uid: words.number("uid")?,
        value: words.number("value")?,
    };
    let queued = tables.records.entry((record.queue, record.signal));
    queued.or_default().push(record);
    Ok(())
}
