//! Links libsound.a, which `./staticlib sound` writes.

fn main() {
    let root = std::path::Path::new(env!("CARGO_MANIFEST_DIR")).join("../../target/staticlib");
    println!("cargo:rustc-link-search=native={}", root.display());
    println!("cargo:rustc-link-lib=static=sound");
    println!(
        "cargo:rerun-if-changed={}",
        root.join("libsound.a").display()
    );
}
