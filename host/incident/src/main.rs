//! Replays the incident and prints the page: `incident`. Ends with status 1 where something that it claims is not so.

use rrezhbuta_incident::flood::{Bounds, Counts};
use rrezhbuta_incident::page::grouped;
use rrezhbuta_incident::replay::replay;
use std::io::{stderr, stdout, IsTerminal, Write};
use std::process::ExitCode;
use std::time::{Duration, Instant};

const BOUNDS: Bounds = Bounds {
    sends: 2_000_000,
    time: Duration::from_millis(2500),
};

/// A line on a terminal is written over ten times a second; elsewhere there is one a second.
struct Progress {
    terminal: bool,
    pause: Duration,
    due: Instant,
}

impl Progress {
    fn new() -> Progress {
        let terminal = stderr().is_terminal();
        Progress {
            terminal,
            pause: Duration::from_millis(if terminal { 100 } else { 1000 }),
            due: Instant::now(),
        }
    }

    fn show(&mut self, counts: &Counts) {
        if Instant::now() < self.due {
            return;
        }
        self.due += self.pause;
        let [sent, kept, refused] = [counts.sent, counts.kept, counts.refused].map(grouped);
        let line = format!("sent {sent}, kept {kept}, refused {refused}");
        // nothing depends on whether anyone sees this
        let _ = if self.terminal {
            write!(stderr(), "\r{line}")
        } else {
            writeln!(stderr(), "{line}")
        };
    }

    fn end(&self) {
        if self.terminal {
            let _ = writeln!(stderr());
        }
    }
}

fn main() -> ExitCode {
    let mut progress = Progress::new();
    let replayed = replay(&BOUNDS, |counts| progress.show(counts));
    progress.end();
    match replayed {
        Ok(report) if write!(stdout(), "{report}").is_ok() => ExitCode::SUCCESS,
        Ok(_) => ExitCode::FAILURE,
        Err(failure) => {
            eprintln!("incident: {failure}");
            ExitCode::FAILURE
        }
    }
}
