//! Runs the comparison: `compare [--calls N] [--seed S] [--damaged N]`.

use rrezhbuta_compare::layer::Library;
use rrezhbuta_compare::run::{run, Options};
use std::io::{stderr, IsTerminal, Write};
use std::process::ExitCode;

const USAGE: &str = "usage: compare [--calls N] [--seed S] [--damaged N]";

fn options(mut args: impl Iterator<Item = String>) -> Option<Options> {
    let mut options = Options::default();
    while let Some(name) = args.next() {
        let number = args.next()?.parse().ok()?;
        match name.as_str() {
            "--calls" => options.calls = number,
            "--seed" => options.seed = number,
            "--damaged" => options.damaged = number,
            _ => return None,
        }
    }
    Some(options)
}

/// A line on a terminal is written over; elsewhere there is one for each tenth.
struct Progress {
    all: u64,
    tenths: u64,
    terminal: bool,
}

impl Progress {
    fn new(options: &Options) -> Progress {
        Progress {
            all: (options.calls + options.damaged).max(1),
            tenths: 0,
            terminal: stderr().is_terminal(),
        }
    }

    fn show(&mut self, done: u64) {
        let all = self.all;
        // nothing depends on whether anyone sees this
        if self.terminal {
            let _ = write!(stderr(), "\r{done} of {all} calls");
        } else if done * 10 / all > self.tenths {
            self.tenths = done * 10 / all;
            let _ = writeln!(stderr(), "{done} of {all} calls");
        }
    }

    fn end(&self) {
        if self.terminal {
            let _ = writeln!(stderr());
        }
    }
}

fn main() -> ExitCode {
    let Some(options) = options(std::env::args().skip(1)) else {
        eprintln!("{USAGE}");
        return ExitCode::from(2);
    };
    let mut progress = Progress::new(&options);
    let told = run(&mut Library::default(), &options, |done| {
        progress.show(done)
    });
    progress.end();
    match told {
        Ok(summary) => {
            println!("seed {}: {summary}", options.seed);
            ExitCode::SUCCESS
        }
        Err(failure) => {
            println!("seed {}: {failure}", options.seed);
            ExitCode::FAILURE
        }
    }
}

#[cfg(test)]
mod tests {
    use super::{options, Options};

    fn read(text: &str) -> Option<Options> {
        options(text.split_whitespace().map(String::from))
    }

    #[test]
    fn options_are_read() {
        assert_eq!(read(""), Some(Options::default()));
        let all = Options {
            calls: 5,
            seed: 6,
            damaged: 7,
        };
        assert_eq!(read("--seed 6 --damaged 7 --calls 5"), Some(all));
    }

    #[test]
    fn other_words_are_refused() {
        for text in ["--calls", "--calls x", "--seed -1", "--help 1", "5"] {
            assert_eq!(read(text), None, "{text}");
        }
    }
}
