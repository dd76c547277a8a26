//! What the acts of all calls so far come to, from the acts alone. A list of acts has the oldest first.

use crate::acts::Act;
use crate::ledger::Counts;
use crate::side::{Queue, Record, Side};
use std::collections::{BTreeMap, BTreeSet};

type Key = (Queue, u32);

/// The queue and signal of which an act keeps a send.
fn keeps_at(act: &Act) -> Option<Key> {
    match act {
        Act::Kept(record) => Some((record.queue, record.signal)),
        _ => None,
    }
}

/// And of which it takes one.
fn takes_at(act: &Act) -> Option<Key> {
    match *act {
        Act::TookSend { queue, signal, .. } => Some((queue, signal)),
        _ => None,
    }
}

/// What of the acts comes after the last event that empties the queue of the signal.
fn since_emptied(done: &[Act], (queue, signal): Key) -> &[Act] {
    let empties = |act: &Act| matches!(act, Act::Emptied(event) if event.empties(queue, signal));
    let start = done.iter().rposition(empties).map_or(0, |last| last + 1);
    &done[start..]
}

/// The sends kept there since, in order.
fn kept_since(done: &[Act], key: Key) -> Vec<Record> {
    since_emptied(done, key)
        .iter()
        .filter_map(|act| match act {
            Act::Kept(record) if keeps_at(act) == Some(key) => Some(*record),
            _ => None,
        })
        .collect()
}

/// How many sends threads have taken there since.
fn taken_since(done: &[Act], key: Key) -> usize {
    since_emptied(done, key)
        .iter()
        .filter(|act| takes_at(act) == Some(key))
        .count()
}

/// Where the acts come to something else than the counts, or leave something else pending than the tables have.
pub fn disagreement(done: &[Act], counts: &BTreeMap<Key, Counts>, tables: &Side) -> Option<String> {
    let acted = done.iter().flat_map(|act| [keeps_at(act), takes_at(act)]);
    let counted = counts.keys().chain(tables.records.keys()).copied();
    let keys: BTreeSet<Key> = acted.flatten().chain(counted).collect();
    keys.into_iter().find_map(|key| {
        let counts = counts.get(&key).copied().unwrap_or_default();
        let pending = tables.records.get(&key).map_or(&[][..], Vec::as_slice);
        let why = differs_at(done, key, counts, pending)?;
        let (queue, signal) = key;
        Some(format!("signal {signal} of {queue}: {why}"))
    })
}

fn differs_at(done: &[Act], key: Key, counts: Counts, pending: &[Record]) -> Option<String> {
    let (kept, taken) = (kept_since(done, key), taken_since(done, key));
    if taken > kept.len() {
        let kept = kept.len();
        return Some(format!("{taken} were taken of {kept} kept"));
    }
    if kept[taken..] != *pending {
        let left = &kept[taken..];
        return Some(format!(
            "the acts leave {left:?} pending, the tables have {pending:?}"
        ));
    }
    let kept = done.iter().filter(|act| keeps_at(act) == Some(key)).count();
    let taken = done.iter().filter(|act| takes_at(act) == Some(key)).count();
    ((counts.kept, counts.taken) != (kept, taken))
        .then(|| format!("the acts keep {kept} and take {taken}, the ledger counts {counts:?}"))
}
