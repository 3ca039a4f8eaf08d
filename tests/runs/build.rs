//! Links the library that `tests/library` built.

fn main() {
    let top = std::env::var("CARGO_MANIFEST_DIR").expect("set by cargo");
    println!("cargo:rustc-link-search=native={top}/../../target/staticlib");
    println!("cargo:rustc-link-lib=static=aklcheck");
    println!("cargo:rerun-if-changed={top}/../../target/staticlib/libaklcheck.a");
}
