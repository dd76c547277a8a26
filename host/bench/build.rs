//! Links libsigset.a, which `./staticlib sigset` writes.

fn main() {
    let root = std::path::Path::new(env!("CARGO_MANIFEST_DIR")).join("../../target/staticlib");
    println!("cargo:rustc-link-search=native={}", root.display());
    println!("cargo:rustc-link-lib=static=sigset");
    println!(
        "cargo:rerun-if-changed={}",
        root.join("libsigset.a").display()
    );
}
