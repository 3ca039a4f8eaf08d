//! Links the reader that `tests/archive read_bench` built.

fn main() {
    let top = std::env::var("CARGO_MANIFEST_DIR").expect("set by cargo");
    println!("cargo:rustc-link-search=native={top}/../../target/staticlib");
    println!("cargo:rustc-link-lib=static=read_bench");
    println!("cargo:rerun-if-changed={top}/../../target/staticlib/libread_bench.a");
}
