//! Links the proved library, unless the stand-in takes its place.

use std::path::PathBuf;

fn main() {
    let package = PathBuf::from(std::env::var("CARGO_MANIFEST_DIR").expect("cargo sets this"));
    let directory = package.join("../../target/staticlib");
    let library = directory.join("libbench_c.a");
    println!("cargo:rerun-if-changed=build.rs");
    println!("cargo:rerun-if-changed={}", library.display());
    if std::env::var_os("CARGO_FEATURE_SELF_TEST").is_some() {
        return;
    }
    if !library.exists() {
        // The model's sheet needs no library, so this stops nothing by itself; the tests then fail to
        // link.
        println!(
            "cargo:warning={} is missing: run `tests/library` at the repository root",
            library.display()
        );
        return;
    }
    println!("cargo:rustc-link-search=native={}", directory.display());
    println!("cargo:rustc-link-lib=static=bench_c");
}
