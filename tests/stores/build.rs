//! Links the check that `tests/archive check_call` built.

fn main() {
    let top = std::env::var("CARGO_MANIFEST_DIR").expect("set by cargo");
    println!("cargo:rustc-link-search=native={top}/../../target/staticlib");
    println!("cargo:rustc-link-lib=static=check_call");
    println!("cargo:rerun-if-changed={top}/../../target/staticlib/libcheck_call.a");
}
