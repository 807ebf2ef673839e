//! Links libonerom.a from the folder that ONEROM_LIB names; by default crates/onerom_c/out, where tests/library puts it. For the benchmark it also
//! compiles the loop in C.

use std::process::Command;

/// The loop in C, as an object in an archive.
fn bytes(here: &str) {
    let out = std::env::var("OUT_DIR").expect("cargo sets it");
    let run = |program: &str, words: &[&str]| {
        assert!(Command::new(program).args(words).status().is_ok_and(|s| s.success()), "{program} failed");
    };
    run("cc", &["-O2", "-c", "-I", &format!("{here}/../../../include"), &format!("{here}/src/bytes.c"), "-o", &format!("{out}/bytes.o")]);
    run("ar", &["rcs", &format!("{out}/libbytes.a"), &format!("{out}/bytes.o")]);
    println!("cargo:rustc-link-search=native={out}");
    println!("cargo:rustc-link-lib=static=bytes");
    println!("cargo:rerun-if-changed={here}/src/bytes.c");
}

fn main() {
    let here = std::env::var("CARGO_MANIFEST_DIR").expect("cargo sets it");
    println!("cargo:rerun-if-env-changed=ONEROM_BENCH");
    if std::env::var("ONEROM_BENCH").is_ok() {
        bytes(&here);
    }
    let lib = std::env::var("ONEROM_LIB").unwrap_or(format!("{here}/../../../crates/onerom_c/out"));
    println!("cargo:rustc-link-search=native={lib}");
    println!("cargo:rustc-link-lib=static=onerom");
    println!("cargo:rerun-if-changed={lib}/libonerom.a");
    println!("cargo:rerun-if-env-changed=ONEROM_LIB");
}
