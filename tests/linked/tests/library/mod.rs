//! What `library/build` writes, and the C compiler. Each file of tests uses a part of it.

#![allow(dead_code)]

use std::env;
use std::path::{Path, PathBuf};
use std::process::Command;

/// The directory of libwarblehay.a and warblehay.h: WARBLEHAY_LIB_DIR or that of the repository.
pub fn directory() -> PathBuf {
    env::var_os("WARBLEHAY_LIB_DIR").map_or_else(|| repository("target/library"), PathBuf::from)
}

pub fn repository(path: &str) -> PathBuf {
    Path::new(env!("CARGO_MANIFEST_DIR"))
        .join("../..")
        .join(path)
}

/// CC or `cc`, with the header, as strict as it gets.
pub fn compiler() -> Command {
    let mut compiler = Command::new(env::var_os("CC").unwrap_or_else(|| "cc".into()));
    compiler
        .args(["-std=c11", "-Wall", "-Wextra", "-Werror", "-pedantic", "-I"])
        .arg(directory());
    compiler
}

pub const SANITISED: [&str; 4] = [
    "-g",
    "-O1",
    "-fsanitize=address,undefined",
    "-fno-sanitize-recover=all",
];

pub const PLAIN: [&str; 1] = ["-O2"];

/// Compiles a program of `c/` into the directory of the test.
pub fn compile(test: &str, program: &str, flags: &[&str]) -> PathBuf {
    let source = Path::new(env!("CARGO_MANIFEST_DIR")).join(format!("c/{program}.c"));
    let compiled = scratch(test).join(format!("{program}{}", flags[0]));
    assert_succeeds(
        compiler()
            .args(flags)
            .arg(source)
            .arg(directory().join("libwarblehay.a"))
            .arg("-o")
            .arg(&compiled),
    );
    compiled
}

pub fn assert_succeeds(command: &mut Command) -> String {
    let output = command.output().expect("the command starts");
    let errors = String::from_utf8_lossy(&output.stderr);
    assert!(output.status.success(), "{command:?}: {errors}");
    assert_eq!(errors, "", "{command:?}");
    String::from_utf8_lossy(&output.stdout).into_owned()
}

/// A new directory for the files of a test.
pub fn scratch(test: &str) -> PathBuf {
    let directory = Path::new(env!("CARGO_TARGET_TMPDIR")).join(test);
    std::fs::create_dir_all(&directory).expect("a directory for the files");
    directory
}
