//! Reads what the program `worked` wrote, from a file or from standard input, and writes the page with the ledger
//! beside it.

use rrezhbuta_ledger::{history, page};
use std::process::ExitCode;
use std::{env, fs, io};

fn run() -> Result<String, String> {
    let (name, text) = match env::args().nth(1) {
        Some(path) => (path.clone(), fs::read_to_string(path)),
        None => ("standard input".into(), io::read_to_string(io::stdin())),
    };
    let text = text.map_err(|why| format!("{name}: {why}"))?;
    page::page(&history::parse(&text)?)
}

fn main() -> ExitCode {
    match run() {
        Ok(page) => {
            print!("{page}");
            ExitCode::SUCCESS
        }
        Err(why) => {
            eprintln!("history: {why}");
            ExitCode::FAILURE
        }
    }
}
