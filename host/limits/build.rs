//! Writes limits.rs: crates/limits/src/lib.rt without its attributes, which only the prover reads.

use std::path::Path;

fn main() {
    let numbers = Path::new(env!("CARGO_MANIFEST_DIR")).join("../../crates/limits/src/lib.rt");
    println!("cargo:rerun-if-changed={}", numbers.display());
    let text = std::fs::read_to_string(&numbers).expect("crates/limits/src/lib.rt is read");
    let items: Vec<&str> = text
        .lines()
        .filter(|line| !line.starts_with("#!["))
        .collect();
    let out = std::env::var_os("OUT_DIR").expect("cargo gives OUT_DIR");
    std::fs::write(Path::new(&out).join("limits.rs"), items.join("\n"))
        .expect("limits.rs is written");
}
