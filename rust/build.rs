//! Says where the archives that `rust/archives` writes are.

fn main() {
    let archives = concat!(env!("CARGO_MANIFEST_DIR"), "/../target/staticlib");
    println!("cargo:rustc-link-search=native={archives}");
    println!("cargo:rerun-if-changed={archives}");
}
