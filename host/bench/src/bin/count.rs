//! Makes a batch of calls for a tool to count their instructions, and prints how many there are: `count proved|model
//! BATCH`. Or names the batches: `count names`.

use rrezhbuta_bench::timing::make;
use rrezhbuta_bench::work::{all, half_full, Batch};
use std::process::ExitCode;

/// The batch, and whether the library makes it.
fn asked(args: &[String]) -> Option<(Batch, bool)> {
    let [side, name] = args else { return None };
    let on_library = match side.as_str() {
        "proved" => true,
        "model" => false,
        _ => return None,
    };
    let batch = all().find(|batch| batch.name == name)?;
    Some((batch, on_library))
}

fn main() -> ExitCode {
    let args: Vec<String> = std::env::args().skip(1).collect();
    if args == ["names"] {
        all().for_each(|batch| println!("{}", batch.name));
        return ExitCode::SUCCESS;
    }
    let Some((batch, on_library)) = asked(&args) else {
        eprintln!("usage: count proved|model BATCH, or count names");
        return ExitCode::from(2);
    };
    make(&half_full(), &batch, on_library);
    println!("{}", batch.calls.len());
    ExitCode::SUCCESS
}
