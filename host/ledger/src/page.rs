//! The page: every call with the ledger and the tables after it. There is none where the two do not agree.

use crate::acts::Act;
use crate::history::Step;
use crate::ledger::{Counts, Ledger};
use crate::side::{difference, members, Process, Queue, Record, Side, Thread};
use crate::tally::disagreement;
use std::collections::{BTreeMap, BTreeSet};
use std::fmt::Write;

const INTRODUCTION: &str = "\
# A worked history

This page is written by a program and not by hand. `crates/worked` makes the calls below through the dispatcher, one
after the other, and after each writes the call, its answer and what the four tables say. `host/ledger` reads that and
writes the page; `.ci/history` does it again and compares. The page is written only where all of this holds after every
call. Both columns agree in everything they show, and also in user ids, sessions and the other fields of a record. Every
answer, refusals too, is the one that the ledger gives. What the tables have queued of a signal in a queue is, in order,
what was kept there since that queue was last emptied of that signal, less as many of the oldest as were taken since,
and never were more taken than kept; that is worked out from the list of all acts so far. The counts of kept and taken
sends are the tallies of those acts. Every count balances, kept = taken + discarded + pending, with the tables' pending.

The ledger is the one of document 01's demand 3. It starts empty. Of a call it gets the arguments and whether it was
refused, and nothing of the tables: what its column says it has worked out from the calls above. It holds processes with
their actions, threads with their masks, and for each queue and signal the queued sends, the oldest first, and the mark,
with counts of the sends kept, taken and discarded. A refused call leaves it alone. Of any other it works out the acts,
from the arguments and from what it holds, and only these change its lists, marks and counts. There are four kinds of
them: a send is kept in its queue; a mark is set; a thread takes the oldest send of a signal in a queue or, with none,
the mark; an event empties queues. Events are clearing, a stop signal sent (it empties the queues of the process of
CONT), CONT sent (it empties them of the stop signals), a signal now ignored, the end of a thread and the end of a
process. Sends that an event removes are discarded.

Each call stands with its answer. Under it are its acts in order, where it has any, and what each side has after the
call. The left column says of what, the middle one is the ledger's, the right one is read from the words and bytes of
the tables, which have no acts. A mask is in hexadecimal, signal s being bit s-1, and its signals follow. A queued send
is signal:value. A count is of one queue and signal over the whole history, and the tables' share in it is what they
have pending.
";

/// The ledger with the acts of all calls so far.
#[derive(Default)]
struct Book {
    ledger: Ledger,
    done: Vec<Act>,
}

pub fn page(steps: &[Step]) -> Result<String, String> {
    let mut page = String::from(INTRODUCTION);
    let mut book = Book::default();
    for (at, step) in steps.iter().enumerate() {
        let heading = format!("{}. `{}` → {}", at + 1, step.text, step.answer);
        let acts = enter(&mut book, step).map_err(|why| format!("{heading}: {why}"))?;
        let table = table(&acts, &book.ledger, &step.tables);
        page += &format!("\n## {heading}\n\n{table}");
    }
    Ok(page)
}

/// The call in the ledger, and its acts; an error where the two sides then differ.
fn enter(book: &mut Book, step: &Step) -> Result<Vec<Act>, String> {
    let Book { ledger, done } = book;
    let answer = ledger.answer(&step.call);
    if answer != step.answer {
        return Err(format!("the ledger answers {answer}"));
    }
    let acts = ledger.enter(&step.call, step.is_refused());
    done.extend(&acts);
    let counts = ledger.counts();
    let wrong = [
        difference(&ledger.side(), &step.tables),
        disagreement(done, &counts, &step.tables),
        imbalance(&counts, &step.tables),
    ];
    let said = joined(wrong.into_iter().flatten(), "; ");
    if said.is_empty() {
        Ok(acts)
    } else {
        Err(said)
    }
}

/// A queue and signal of which the tables do not have pending what was kept and neither taken nor discarded.
pub fn imbalance(counts: &BTreeMap<(Queue, u32), Counts>, tables: &Side) -> Option<String> {
    let keys: BTreeSet<_> = counts.keys().chain(tables.records.keys()).collect();
    keys.into_iter().find_map(|&(queue, signal)| {
        let counts = counts.get(&(queue, signal)).copied().unwrap_or_default();
        let pending = tables.pending(queue, signal);
        let balanced = counts.kept == counts.taken + counts.discarded + pending;
        let sum = sum(counts, pending);
        (!balanced).then(|| format!("signal {signal} of {queue} does not balance: {sum}"))
    })
}

fn sum(counts: Counts, pending: usize) -> String {
    let Counts {
        kept,
        taken,
        discarded,
    } = counts;
    format!("kept {kept} = taken {taken} + discarded {discarded} + pending {pending}")
}

/// The rows of one call.
struct Rows(String);

impl Rows {
    fn row(&mut self, what: &str, ledger: &str, tables: &str) {
        writeln!(self.0, "| {what} | {ledger} | {tables} |").expect("a string takes any text");
    }

    /// A row for each key that either side has.
    fn both<K: Ord, V>(
        &mut self,
        ledger: &BTreeMap<K, V>,
        tables: &BTreeMap<K, V>,
        what: impl Fn(&K) -> String,
        says: impl Fn(&V) -> String,
    ) {
        let keys: BTreeSet<&K> = ledger.keys().chain(tables.keys()).collect();
        for key in keys {
            let [here, there] =
                [ledger, tables].map(|side| side.get(key).map_or("-".into(), &says));
            self.row(&what(key), &here, &there);
        }
    }

    fn counts(&mut self, ledger: &Ledger, here: &Side, tables: &Side) {
        let mut total = Counts::default();
        for ((queue, signal), counts) in ledger.counts() {
            total.kept += counts.kept;
            total.taken += counts.taken;
            total.discarded += counts.discarded;
            self.row(
                &format!("count of {signal} for {queue}"),
                &sum(counts, here.pending(queue, signal)),
                &format!("pending {}", tables.pending(queue, signal)),
            );
        }
        self.row(
            "count of all",
            &sum(total, here.all_pending()),
            &format!("pending {}", tables.all_pending()),
        );
    }
}

fn table(acts: &[Act], ledger: &Ledger, tables: &Side) -> String {
    let here = ledger.side();
    let mut rows = Rows("| | ledger | tables |\n|---|---|---|\n".into());
    if !acts.is_empty() {
        rows.row("acts", &joined(acts.iter().map(Act::to_string), "; "), "-");
    }
    rows.both(
        &here.processes,
        &tables.processes,
        |id| format!("process {id}"),
        process,
    );
    rows.both(
        &here.threads,
        &tables.threads,
        |id| format!("thread {id}"),
        thread,
    );
    rows.both(
        &here.marks,
        &tables.marks,
        |queue| format!("marks of {queue}"),
        numbers,
    );
    rows.both(
        &here.records,
        &tables.records,
        |(queue, _): &(Queue, u32)| format!("queued for {queue}"),
        |records: &Vec<Record>| queued(records),
    );
    rows.counts(ledger, &here, tables);
    rows.0
}

fn process(process: &Process) -> String {
    let mut said = String::from(if process.stopped {
        "stopped"
    } else {
        "running"
    });
    for (signal, action) in &process.actions {
        said += &format!("; action {signal}: {action}");
    }
    said
}

fn thread(thread: &Thread) -> String {
    let blocked = numbers(&members(thread.mask).collect());
    format!(
        "of process {}, mask {:#x}: {blocked}",
        thread.process, thread.mask
    )
}

fn numbers(signals: &BTreeSet<u32>) -> String {
    if signals.is_empty() {
        return "none".into();
    }
    joined(signals.iter().map(u32::to_string), " ")
}

fn queued(records: &[Record]) -> String {
    joined(records.iter().map(Record::short), " ")
}

fn joined(said: impl Iterator<Item = String>, between: &str) -> String {
    said.collect::<Vec<String>>().join(between)
}
