//! With the feature `exports`, links the tests against the static library of the C exports:
//! the file named by INKROWAN_LIB, else crates/gateway/out/libgateway.a.

use std::env;
use std::path::PathBuf;

fn main() {
    println!("cargo:rerun-if-changed=build.rs");
    println!("cargo:rerun-if-env-changed=INKROWAN_LIB");
    if env::var_os("CARGO_FEATURE_EXPORTS").is_none() {
        return;
    }
    let archive = match env::var_os("INKROWAN_LIB") {
        Some(path) => PathBuf::from(path),
        None => PathBuf::from(env::var_os("CARGO_MANIFEST_DIR").unwrap())
            .join("../crates/gateway/out/libgateway.a"),
    };
    println!("cargo:rerun-if-changed={}", archive.display());
    assert!(
        archive.is_file(),
        "no archive at {}: make it with `rt lib` in crates/gateway, or name one in INKROWAN_LIB",
        archive.display()
    );
    let archive = archive.canonicalize().unwrap();
    println!("cargo:rustc-link-arg-tests={}", archive.display());
    println!("cargo:rustc-env=INKROWAN_ARCHIVE={}", archive.display());
}
