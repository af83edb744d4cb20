//! Links the proved library and makes the numbers from its header. `bash library/build` writes
//! both.

use std::path::{Path, PathBuf};
use std::process::exit;
use std::{env, fs};

/// A directory to take libwarblehay.a and warblehay.h from instead of the repository's.
const LIB_DIR: &str = "WARBLEHAY_LIB_DIR";

fn main() {
    let target = env::var("CARGO_CFG_TARGET_ARCH").expect("cargo sets it for build scripts");
    if target != "x86_64" {
        fail(&format!("the library is for x86_64, not for {target}"));
    }
    println!("cargo:rerun-if-env-changed={LIB_DIR}");
    let directory = env::var_os(LIB_DIR).map_or_else(repository_directory, PathBuf::from);
    if directory.is_relative() {
        fail(&format!("{LIB_DIR} is to be an absolute path"));
    }
    let [archive, header] = ["libwarblehay.a", "warblehay.h"].map(|name| directory.join(name));
    for file in [&archive, &header] {
        println!("cargo:rerun-if-changed={}", file.display());
        require(file);
    }
    write_numbers(&header);
    println!("cargo:rustc-link-search=native={}", directory.display());
    println!("cargo:rustc-link-lib=static=warblehay");
}

fn require(file: &Path) {
    if !file.is_file() {
        fail(&format!(
            "{} is missing: run `bash library/build` in Warblehay's repository, or set {LIB_DIR} to \
             the directory that libwarblehay.a and warblehay.h were installed in",
            file.display()
        ));
    }
}

fn repository_directory() -> PathBuf {
    let package = env::var_os("CARGO_MANIFEST_DIR").expect("cargo sets it for build scripts");
    Path::new(&package).join("../../target/library")
}

fn fail(message: &str) -> ! {
    eprintln!("warblehay: {message}");
    exit(1)
}

fn write_numbers(header: &Path) {
    let header = fs::read_to_string(header).expect("the header is text");
    let numbers =
        numbers(&header).unwrap_or_else(|line| fail(&format!("cannot read of the header: {line}")));
    let directory = env::var_os("OUT_DIR").expect("cargo sets it for build scripts");
    fs::write(Path::new(&directory).join("numbers.rs"), numbers)
        .expect("the output directory can be written");
}

/// `#define WARBLEHAY_NONE UINT32_C(4194303)` becomes a constant, documented by the comment above
/// its group. A line that cannot be read is the error.
fn numbers(header: &str) -> Result<String, &str> {
    let mut constants = String::new();
    let mut comment = String::new();
    for line in header.lines() {
        if let Some(start) = line.strip_prefix("/* ") {
            comment = start.to_string();
        } else if let Some(more) = line.strip_prefix(" * ") {
            comment = comment + " " + more;
        } else if let Some(definition) = line
            .strip_prefix("#define WARBLEHAY_")
            .filter(|rest| *rest != "H")
        {
            let (name, kind, number) = parts(definition).ok_or(line)?;
            let group = comment.trim_end_matches("*/").trim();
            constants += &format!("#[doc = {group:?}]\npub const {name}: {kind} = {number};\n");
        }
    }
    Ok(constants)
}

/// The name, type and number of a definition.
fn parts(definition: &str) -> Option<(&str, &str, &str)> {
    let (name, literal) = definition.split_once(' ')?;
    let (macro_name, number) = literal.strip_suffix(')')?.split_once('(')?;
    let kind = match macro_name {
        "UINT8_C" => "u8",
        "UINT16_C" => "u16",
        "UINT32_C" => "u32",
        "UINT64_C" => "usize",
        _ => return None,
    };
    Some((name, kind, number))
}
