//! The package `warblehay` as a panel maker takes it: from a package of their own, with the library installed elsewhere.

mod library;

use std::fs;
use std::path::{Path, PathBuf};
use std::process::Command;
use warblehay::numbers::*;
use warblehay::{place_of_credential, place_of_point, place_of_zone, Place, TurnedBack};

const MAIN: &str = r#"
fn main() {
    let arguments: Vec<String> = std::env::args().collect();
    let site = std::fs::read(&arguments[1]).expect("the site is there");
    let place = warblehay::place_of_credential(&site, 6);
    let begins = place.map(|place| (place.site * warblehay::numbers::RECORD_SIZE, place.state));
    println!("{:?} {begins:?}", warblehay::check_site(&site));
}
"#;

/// A package with the dependency line of the README, and a directory that the library was installed in.
fn makers_package(test: &str) -> (PathBuf, PathBuf) {
    let directory = library::scratch(test);
    let (package, installed) = (directory.join("panel"), directory.join("installed"));
    let path = library::repository("library/rust").display().to_string();
    let manifest = format!(
        "[package]\nname = \"panel\"\nversion = \"0.1.0\"\nedition = \"2021\"\n\n[dependencies]\nwarblehay = {{ path = {path:?} }}\n\n[workspace]\n"
    );
    fs::create_dir_all(package.join("src")).expect("a directory for the package");
    fs::create_dir_all(&installed).expect("a directory for the library");
    fs::write(package.join("Cargo.toml"), manifest).expect("the manifest is written");
    fs::write(package.join("src/main.rs"), MAIN).expect("the program is written");
    (package, installed)
}

fn cargo(command: &str, manifest: PathBuf, test: &str) -> Command {
    let mut cargo = Command::new(env!("CARGO"));
    cargo
        .args([command, "--quiet", "--offline", "--manifest-path"])
        .arg(manifest);
    cargo
        .arg("--target-dir")
        .arg(library::scratch(test).join("target"));
    cargo
}

#[test]
fn a_package_of_the_makers_own_links_an_installed_library() {
    let test = "package_installed";
    let (package, installed) = makers_package(test);
    for file in ["libwarblehay.a", "warblehay.h"] {
        fs::copy(library::directory().join(file), installed.join(file))
            .expect("the library is installed");
    }
    let mut run = cargo("run", package.join("Cargo.toml"), test);
    run.env("WARBLEHAY_LIB_DIR", installed).arg("--");
    run.arg(library::repository("crates/print_journal/data/site"));
    assert_eq!(
        library::assert_succeeds(&mut run),
        "Ok(()) Some((128, 96))\n"
    );
}

/// What cargo says where the maker's package cannot be built.
fn build_failure(test: &str, lib_dir: &Path) -> String {
    let (package, _) = makers_package(test);
    let mut build = cargo("build", package.join("Cargo.toml"), test);
    let output = build
        .env("WARBLEHAY_LIB_DIR", lib_dir)
        .output()
        .expect("cargo starts");
    assert!(!output.status.success());
    String::from_utf8_lossy(&output.stderr).into_owned()
}

#[test]
fn a_missing_library_says_what_to_run() {
    let test = "package_missing";
    let message = build_failure(test, &library::scratch(test));
    assert!(message.contains("run `bash library/build`"), "{message}");
    assert!(message.contains("set WARBLEHAY_LIB_DIR"), "{message}");
}

#[test]
fn a_relative_directory_is_refused() {
    let message = build_failure("package_relative", Path::new("target/library"));
    assert!(message.contains("is to be an absolute path"), "{message}");
}

/// The examples in the package's documentation.
#[test]
fn the_documentation_runs() {
    let mut test = cargo(
        "test",
        library::repository("library/rust/Cargo.toml"),
        "package_documentation",
    );
    let printed = library::assert_succeeds(test.arg("--doc"));
    assert!(printed.contains("4 passed; 0 failed"), "{printed}");
}

/// Every number that a call returns but 0 is a case of the enum.
#[test]
fn every_outcome_is_a_case() {
    let numbers: Vec<u32> = TurnedBack::ALL
        .into_iter()
        .map(TurnedBack::number)
        .collect();
    assert_eq!(numbers, [1, 2, 3, 4, 5, 6, 10, 11, 17]);
    for outcome in TurnedBack::ALL {
        let words = outcome.to_string();
        assert!(
            words.starts_with(&format!("turned back with {}: ", outcome.number())),
            "{words}"
        );
    }
}

#[test]
fn lookups_find_the_first_record_or_nothing() {
    let site = fs::read(library::repository("crates/print_journal/data/site"))
        .expect("the example is there");
    let place = |site, state| Some(Place { site, state });
    assert_eq!(place_of_zone(&site, 23), place(0, 0));
    assert_eq!(place_of_point(&site, 2), place(1, 32));
    assert_eq!(place_of_credential(&site, 5), place(2, 64));
    assert_eq!(place_of_credential(&site, 6), place(4, 96));
    let again = [&site[..], &site[..RECORD_SIZE]].concat();
    assert_eq!(place_of_zone(&again, 23), place(0, 0));
    assert_eq!(place_of_zone(&site, 2), None);
    assert_eq!(place_of_point(&site, 23), None);
    assert_eq!(place_of_credential(&[], NONE), None);
}
