//! include/inkrowan.h compiles as C99 without a warning and takes answers apart as it says. With
//! the feature `exports` the C program also makes each call once.

use std::path::Path;
use std::process::Command;

#[test]
fn the_header_serves_a_c_program() {
    let here = Path::new(env!("CARGO_MANIFEST_DIR"));
    let program = Path::new(env!("CARGO_TARGET_TMPDIR")).join("header");
    let mut compile = Command::new("cc");
    compile.args(["-std=c99", "-pedantic", "-Wall", "-Wextra", "-Werror", "-I"]);
    compile.arg(here.join("../include")).arg(here.join("tests/header.c"));
    if let Some(archive) = option_env!("INKROWAN_ARCHIVE") {
        compile.arg("-DINKROWAN_LINKED").arg(archive);
    }
    compile.arg("-o").arg(&program);
    assert!(compile.status().expect("cc").success());
    let output = Command::new(&program).output().expect("the program runs");
    assert!(output.status.success(), "{}", String::from_utf8_lossy(&output.stderr));
    assert_eq!(output.stdout, b"good\n");
}
