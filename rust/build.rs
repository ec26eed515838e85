//! Links the proved library of this repository.

use std::path::PathBuf;

fn main() {
    let package = PathBuf::from(std::env::var("CARGO_MANIFEST_DIR").expect("cargo sets this"));
    let directory = package.join("../target/staticlib");
    let library = directory.join("libbench_c.a");
    println!("cargo::rerun-if-changed=build.rs");
    println!("cargo::rerun-if-changed={}", library.display());
    if library.exists() {
        println!("cargo::rustc-link-search=native={}", directory.display());
        println!("cargo::rustc-link-lib=static=bench_c");
    } else {
        println!(
            "cargo::error=the proved library is not built: run `tests/library` at the top of \
             the repository, it writes target/staticlib/libbench_c.a"
        );
    }
}
