//! Makes checks for a tool to count their instructions, and prints how many: `count proved|plain FILLING`. Or names the
//! fillings: `count names`.

use rrezhbuta_check::samples::FILLINGS;
use rrezhbuta_check::{is_sound, plain, Tables};
use std::hint::black_box;
use std::process::ExitCode;

const CHECKS: usize = 10;

fn asked(args: &[String]) -> Option<(fn(&Tables) -> bool, Tables)> {
    let [side, filling] = args else { return None };
    let check: fn(&Tables) -> bool = match side.as_str() {
        "proved" => is_sound,
        "plain" => plain::is_sound,
        _ => return None,
    };
    let (_, filled) = FILLINGS.iter().find(|(name, _)| name == filling)?;
    Some((check, filled()))
}

fn main() -> ExitCode {
    let args: Vec<String> = std::env::args().skip(1).collect();
    if args == ["names"] {
        FILLINGS.iter().for_each(|(name, _)| println!("{name}"));
        return ExitCode::SUCCESS;
    }
    let Some((check, tables)) = asked(&args) else {
        eprintln!("usage: count proved|plain FILLING, or count names");
        return ExitCode::from(2);
    };
    for _ in 0..CHECKS {
        assert!(black_box(check)(&tables));
    }
    println!("{CHECKS}");
    ExitCode::SUCCESS
}
