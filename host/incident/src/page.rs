//! The report for a reader: one page.

use crate::flood::{Counts, FACET};
use crate::replay::{Report, NEXT_VIEWER};
use crate::room::{user_of, EVERYONE, LOADER, OPERATOR, TECHNICIANS, VIEWER};
use rrezhbuta::limits::{BUFFER_RECORDS, EAGAIN, PROCESS_PLACES, RECORD_LIMIT};
use rrezhbuta::{ProcessId, Tables};
use std::fmt;

/// The fields that begin a row; the others stand beside them.
const ROW_STARTS: [&str; 4] = ["Pid:", "ShdPnd:", "Tid:", "Queued:"];
/// A queue of more rows is cut.
const LONGEST_QUEUE: usize = 3;

/// Writes the page. A replay ends at the first claim that is not so; there is a report only where no technician was
/// refused and KILL has acted each time.
pub fn write(f: &mut fmt::Formatter<'_>, report: &Report) -> fmt::Result {
    write_room(f, report)?;
    write_tables(f, "Before", &report.before, &[LOADER, VIEWER])?;
    write_flood(f, report)?;
    write_tables(f, "While it loads", &report.flooded, &[VIEWER])?;
    write_kill(f)?;
    write_tables(f, "After it, all who are left", &report.killed, &EVERYONE)?;
    write_work_after(f, report)?;
    write_contrast(f)
}

fn write_room(f: &mut fmt::Formatter<'_>, report: &Report) -> fmt::Result {
    let [first, .., last] = TECHNICIANS;
    let users = [first, last].map(user_of);
    let claimed = grouped(report.claimed.into());
    write!(f, "The room: operator {OPERATOR} (user 0), technicians ")?;
    writeln!(f, "{first} to {last} (users {} to {}).", users[0], users[1])?;
    write!(f, "Technician {first} has started loader {LOADER}, ")?;
    writeln!(f, "which reads a mesh file for viewer {VIEWER}.")?;
    write!(f, "The file has {} bytes. ", report.file_bytes)?;
    writeln!(f, "Its header claims {claimed} facets.\n")
}

fn write_tables(
    f: &mut fmt::Formatter<'_>,
    when: &str,
    tables: &Tables<'_>,
    processes: &[ProcessId],
) -> fmt::Result {
    writeln!(f, "{when}:")?;
    for row in rows(tables, processes) {
        writeln!(f, "  {row}")?;
    }
    writeln!(f)
}

fn write_flood(f: &mut fmt::Formatter<'_>, report: &Report) -> fmt::Result {
    let Counts {
        sent,
        kept,
        refused,
    } = report.counts;
    let [sent, kept, refused] = [sent, kept, refused].map(grouped);
    let [sends, takes] = [report.work.sends, report.work.takes].map(grouped);
    let seconds = report.time.as_secs_f64();
    write!(f, "The loader believes it and queues signal {FACET} ")?;
    writeln!(f, "to the viewer, once a facet. In {seconds:.1} seconds:")?;
    write!(f, "  sent {sent}, kept {kept}, ")?;
    writeln!(f, "refused {refused} (errno {EAGAIN} each time)")?;
    writeln!(f, "The technicians among themselves, in between:")?;
    writeln!(f, "  queued sends {sends}, takes {takes}, refused 0\n")
}

fn write_kill(f: &mut fmt::Formatter<'_>) -> fmt::Result {
    writeln!(f, "The operator's KILL, with the viewer's queue full:")?;
    writeln!(f, "  viewer by sigqueue: acted; loader by kill: acted")?;
    write!(
        f,
        "  on a copy, viewer by kill: acted; loader by sigqueue: acted; "
    )?;
    writeln!(f, "the same tables\n")
}

fn write_work_after(f: &mut fmt::Formatter<'_>, report: &Report) -> fmt::Result {
    let [sends, takes] = [report.work_after.sends, report.work_after.takes].map(grouped);
    write!(f, "The room goes on: queued sends {sends}, takes {takes}, ")?;
    writeln!(
        f,
        "refused 0; viewer {NEXT_VIEWER} is started and signalled.\n"
    )
}

fn write_contrast(f: &mut fmt::Formatter<'_>) -> fmt::Result {
    write!(
        f,
        "In the old room the flood filled the table for everyone, "
    )?;
    writeln!(f, "and the operator's kill found no free record.")?;
    write!(f, "Here a process has {RECORD_LIMIT} records at most, ")?;
    write!(f, "so {PROCESS_PLACES} of them cannot want more ")?;
    writeln!(
        f,
        "than the {BUFFER_RECORDS} there are;\nand KILL needs none."
    )
}

/// The tables as the crate shows them: those processes alone, a few fields to a row, long queues cut.
pub fn rows(tables: &Tables<'_>, processes: &[ProcessId]) -> Vec<String> {
    let mut rows = Vec::new();
    let mut is_shown = false;
    for line in tables.to_string().lines() {
        if let Some(id) = line.strip_prefix("Pid:\t") {
            is_shown = processes.iter().any(|process| process.to_string() == id);
        }
        if is_shown {
            add_line(&mut rows, &line.replace('\t', " "));
        }
    }
    rows.chunk_by(|a, b| is_queued(a) && is_queued(b))
        .flat_map(cut)
        .collect()
}

fn add_line(rows: &mut Vec<String>, line: &str) {
    let starts = ROW_STARTS.iter().any(|start| line.starts_with(start));
    match rows.last_mut() {
        Some(row) if !starts => {
            row.push_str("  ");
            row.push_str(line);
        }
        _ => rows.push(line.to_string()),
    }
}

fn is_queued(row: &str) -> bool {
    row.starts_with("Queued:")
}

fn cut(queue: &[String]) -> Vec<String> {
    match queue {
        [first, .., last] if queue.len() > LONGEST_QUEUE => {
            let more = format!("... {} more ...", queue.len() - 2);
            vec![first.clone(), more, last.clone()]
        }
        _ => queue.to_vec(),
    }
}

/// A number with a comma before each three digits.
pub fn grouped(number: u64) -> String {
    let digits = number.to_string();
    let mut said = String::new();
    for (place, digit) in digits.chars().enumerate() {
        if place > 0 && (digits.len() - place).is_multiple_of(3) {
            said.push(',');
        }
        said.push(digit);
    }
    said
}
