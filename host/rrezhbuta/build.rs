//! Links librrezhbuta.a, which `./staticlib rrezhbuta` writes.

fn main() {
    let root = std::path::Path::new(env!("CARGO_MANIFEST_DIR")).join("../../target/staticlib");
    println!("cargo:rustc-link-search=native={}", root.display());
    println!("cargo:rustc-link-lib=static=rrezhbuta");
    println!(
        "cargo:rerun-if-changed={}",
        root.join("librrezhbuta.a").display()
    );
}
