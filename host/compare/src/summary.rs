//! How often each call, answer and errno came up.

use crate::step::Told;
use rrezhbuta_model::{Answer, Call, Next, Rows, Unsound};
use std::fmt;

/// The calls in the documented order.
pub const CALLS: [&str; 14] = [
    "clear",
    "add_process",
    "add_thread",
    "end_process",
    "end_thread",
    "kill",
    "sigqueue",
    "sigaction",
    "sigmask",
    "sigpending",
    "look",
    "who",
    "take",
    "sigreturn",
];

/// The answers.
pub const ANSWERS: [&str; 20] = [
    "done",
    "tested",
    "acted",
    "dropped",
    "absorbed",
    "marked",
    "kept",
    "old action",
    "old mask",
    "pending set",
    "looked nothing",
    "looked mark",
    "looked record",
    "can take",
    "none can",
    "nothing",
    "handler",
    "end",
    "stop",
    "no action",
];

/// The errnos in the order of the table of refusals.
pub const ERRNOS: [u32; 6] = [14, 22, 3, 1, 17, 11];

/// The place of a call in `CALLS`.
pub fn kind(call: &Call) -> usize {
    match call {
        Call::Clear => 0,
        Call::AddProcess(_) => 1,
        Call::AddThread { .. } => 2,
        Call::EndProcess { .. } => 3,
        Call::EndThread { .. } => 4,
        Call::Kill { .. } => 5,
        Call::Sigqueue { .. } => 6,
        Call::Sigaction { .. } => 7,
        Call::Sigmask { .. } => 8,
        Call::Sigpending { .. } => 9,
        Call::Look { .. } => 10,
        Call::Who { .. } => 11,
        Call::Take { .. } => 12,
        Call::Sigreturn { .. } => 13,
    }
}

fn answer_kind(answer: &Answer) -> usize {
    match answer {
        Answer::Done => 0,
        Answer::Tested => 1,
        Answer::Acted => 2,
        Answer::Dropped => 3,
        Answer::Absorbed => 4,
        Answer::Marked => 5,
        Answer::Kept => 6,
        Answer::OldAction(_) => 7,
        Answer::OldMask(_) => 8,
        Answer::PendingSet(_) => 9,
        Answer::Looked(Next::Nothing) => 10,
        Answer::Looked(Next::Mark { .. }) => 11,
        Answer::Looked(Next::Record(_)) => 12,
        Answer::CanTake(_) => 13,
        Answer::NoneCan => 14,
        Answer::Nothing => 15,
        Answer::Handler { .. } => 16,
        Answer::End(_) => 17,
        Answer::Stop(_) => 18,
        Answer::NoAction(_) => 19,
    }
}

/// The counts, and how full the tables were at most.
#[derive(Clone, Debug, Default, PartialEq, Eq)]
pub struct Summary {
    /// For each call, how often it was accepted and how often refused.
    pub calls: [[u64; 2]; CALLS.len()],
    /// For each answer.
    pub answers: [u64; ANSWERS.len()],
    /// For each errno.
    pub errnos: [u64; ERRNOS.len()],
    /// Calls on damaged tables that were sound all the same.
    pub unharmed: u64,
    /// For each clause of soundness, calls on damaged tables that broke it, as the first that the model met.
    pub broken: [u64; Unsound::ALL.len()],
    /// The most processes, threads, records aimed at a thread and records aimed at a process at once.
    pub most: [usize; 4],
}

impl Summary {
    /// Counts a call.
    pub fn count(&mut self, call: &Call, told: &Told) {
        self.calls[kind(call)][told.is_err() as usize] += 1;
        match told {
            Ok(answer) => self.answers[answer_kind(answer)] += 1,
            Err(errno) => {
                let row = ERRNOS.iter().position(|e| e == errno);
                self.errnos[row.expect("an errno of the table")] += 1;
            }
        }
    }

    /// Counts a call on damaged tables.
    pub fn count_damaged(&mut self, call: &Call, told: &Told, broken: Option<Unsound>) {
        self.count(call, told);
        match broken.and_then(|clause| Unsound::ALL.iter().position(|&c| c == clause)) {
            None => self.unharmed += 1,
            Some(clause) => self.broken[clause] += 1,
        }
    }

    /// Calls on damaged tables.
    pub fn damaged(&self) -> u64 {
        self.unharmed + self.broken.iter().sum::<u64>()
    }

    /// Notes how full the tables are.
    pub fn measure(&mut self, rows: &Rows) {
        let full = [
            rows.processes.iter().filter(|p| p.id != 0).count(),
            rows.threads.iter().filter(|t| t.id != 0).count(),
            rows.thread_records.len(),
            rows.process_records.len(),
        ];
        for (most, now) in self.most.iter_mut().zip(full) {
            *most = now.max(*most);
        }
    }

    /// How many calls were made.
    pub fn total(&self) -> u64 {
        self.calls.iter().flatten().sum()
    }

    /// The share of calls on tables that were not damaged which was accepted, in percent.
    pub fn accepted_share(&self) -> f64 {
        let refused: u64 = self.errnos[1..].iter().sum();
        let accepted: u64 = self.answers.iter().sum();
        100.0 * accepted as f64 / (accepted + refused).max(1) as f64
    }
}

/// Two columns under a heading.
fn write_counts<T: fmt::Display>(
    f: &mut fmt::Formatter<'_>,
    heading: &str,
    rows: impl Iterator<Item = (T, u64)>,
) -> fmt::Result {
    writeln!(f, "\n{heading:<16}{:>10}", "times")?;
    for (name, times) in rows {
        writeln!(f, "{:<16}{times:>10}", name.to_string())?;
    }
    Ok(())
}

impl fmt::Display for Summary {
    fn fmt(&self, f: &mut fmt::Formatter<'_>) -> fmt::Result {
        let [processes, threads, to_threads, to_processes] = self.most;
        let (total, share) = (self.total(), self.accepted_share());
        let (damaged, unharmed) = (self.damaged(), self.unharmed);
        writeln!(f, "{total} calls, no difference")?;
        writeln!(f, "{share:.1} % accepted where the tables were sound")?;
        writeln!(
            f,
            "{damaged} on damaged tables, {unharmed} of these sound all the same"
        )?;
        write!(
            f,
            "at once up to {processes} processes, {threads} threads, "
        )?;
        writeln!(
            f,
            "{to_threads} records aimed at a thread, {to_processes} at a process"
        )?;
        writeln!(f, "\n{:<16}{:>10}{:>10}", "call", "accepted", "refused")?;
        for (name, [accepted, refused]) in CALLS.iter().zip(self.calls) {
            writeln!(f, "{name:<16}{accepted:>10}{refused:>10}")?;
        }
        write_counts(f, "answer", ANSWERS.iter().zip(self.answers))?;
        write_counts(f, "errno", ERRNOS.iter().zip(self.errnos))?;
        let clauses = Unsound::ALL.map(|clause| format!("{clause:?}"));
        write_counts(f, "clause broken", clauses.iter().zip(self.broken))
    }
}
