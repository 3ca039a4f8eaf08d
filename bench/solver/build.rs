//! Links the solver that `tests/archive work_bench` built.

fn main() {
    let top = std::env::var("CARGO_MANIFEST_DIR").expect("set by cargo");
    println!("cargo:rustc-link-search=native={top}/../../target/staticlib");
    println!("cargo:rustc-link-lib=static=work_bench");
    println!("cargo:rerun-if-changed={top}/../../target/staticlib/libwork_bench.a");
}
