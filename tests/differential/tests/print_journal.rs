//! The printing program, beside what the reference prints.

use differential::settings;
use reference::generate::{case, large_site, Case, Random};
use reference::numbers::{ENTRY_LENGTH, MOST_JOURNAL_BYTES, MOST_SITE_BYTES, RECORD_LENGTH};
use reference::print::print_journal;
use reference::scenarios::paper_cases::{printed_journal, printed_site, PRINTED};
use std::env;
use std::ffi::OsStr;
use std::fs;
use std::path::{Path, PathBuf};
use std::process::{Command, Output};

/// The program that `rt ci` and `rt run` leave in its crate, or the one in WARBLEHAY_BIN_DIR.
fn program() -> PathBuf {
    let of_repository =
        || Path::new(env!("CARGO_MANIFEST_DIR")).join("../../crates/print_journal/out");
    let directory = env::var_os("WARBLEHAY_BIN_DIR").map_or_else(of_repository, PathBuf::from);
    let program = directory.join("print_journal");
    assert!(
        program.is_file(),
        "{} is missing: `rt run` in crates/print_journal first",
        program.display()
    );
    program
}

fn run(program: &Path, arguments: &[&OsStr]) -> Output {
    let output = Command::new(program).args(arguments).output();
    output.expect("the program starts")
}

/// A site file and a journal file of one test.
struct Files {
    site: PathBuf,
    journal: PathBuf,
}

impl Files {
    fn new(test: &str) -> Files {
        let directory = Path::new(env!("CARGO_TARGET_TMPDIR")).join(test);
        fs::create_dir_all(&directory).expect("a directory for the files");
        Files {
            site: directory.join("site"),
            journal: directory.join("journal"),
        }
    }

    fn write(&self, site: &[u8], journal: &[u8]) {
        fs::write(&self.site, site).expect("the site file is written");
        fs::write(&self.journal, journal).expect("the journal file is written");
    }

    /// The program prints what the reference does, and complains of nothing.
    fn assert_printed(&self, program: &Path, site: &[u8], journal: &[u8]) -> String {
        self.write(site, journal);
        let output = run(program, &[self.site.as_ref(), self.journal.as_ref()]);
        let printed = String::from_utf8_lossy(&output.stdout).into_owned();
        assert_eq!(printed, print_journal(site, journal));
        assert_eq!(String::from_utf8_lossy(&output.stderr), "");
        assert!(output.status.success());
        printed
    }
}

/// The program complains on standard error alone.
fn assert_complains(program: &Path, arguments: &[&OsStr]) {
    let output = run(program, arguments);
    assert_eq!(String::from_utf8_lossy(&output.stdout), "");
    assert!(!output.stderr.is_empty(), "{arguments:?}: no message");
}

#[test]
fn the_example_of_the_paper() {
    let program = program();
    let files = Files::new("example");
    let printed = files.assert_printed(&program, &printed_site(), &printed_journal());
    assert_eq!(printed, PRINTED);
}

#[test]
fn inputs_turned_back() {
    let program = program();
    let files = Files::new("turned_back");
    let (site, journal) = (printed_site(), printed_journal());
    let twice = [&site[..], &site[..RECORD_LENGTH]].concat();
    let mut spare = site.clone();
    spare[RECORD_LENGTH - 1] = 1;
    let printed = [
        files.assert_printed(&program, &site[1..], &journal),
        files.assert_printed(&program, &spare, &journal),
        files.assert_printed(&program, &twice, &journal),
        files.assert_printed(&program, &site[RECORD_LENGTH..], &journal),
        files.assert_printed(&program, &site, &journal[1..]),
        // The site comes first.
        files.assert_printed(&program, &spare, &journal[1..]),
    ];
    assert_eq!(printed, ["1\n", "2\n", "3\n", "4\n", "10\n", "2\n"]);
}

#[test]
fn empty_files() {
    let program = program();
    let files = Files::new("empty");
    let (site, journal) = (printed_site(), printed_journal());
    assert_eq!(files.assert_printed(&program, &site, &[]), "");
    assert_eq!(files.assert_printed(&program, &[], &[]), "");
    files.assert_printed(&program, &[], &journal);
}

#[test]
fn the_longest_files_and_longer_ones() {
    let program = program();
    let files = Files::new("longest");
    let most = MOST_SITE_BYTES / RECORD_LENGTH;
    let site = large_site(&mut Random::new(1), 100, most);
    let mut journal = printed_journal().repeat(MOST_JOURNAL_BYTES / ENTRY_LENGTH / 3 + 2);
    let longest = files.assert_printed(&program, &site, &journal[..MOST_JOURNAL_BYTES]);
    assert_eq!(longest.lines().count(), MOST_JOURNAL_BYTES / ENTRY_LENGTH);
    for longer in [1, ENTRY_LENGTH] {
        let journal = &journal[..MOST_JOURNAL_BYTES + longer];
        assert_eq!(files.assert_printed(&program, &site, journal), "10\n");
    }
    journal.resize(500_000, 0);
    assert_eq!(files.assert_printed(&program, &site, &journal), "10\n");
    for longer in [1, RECORD_LENGTH, 500_000] {
        let site = [&site[..], &vec![0; longer]].concat();
        let printed = files.assert_printed(&program, &site, &printed_journal());
        assert_eq!(printed, "1\n");
        assert_eq!(files.assert_printed(&program, &site, &journal), "1\n");
    }
}

#[test]
fn random_and_damaged_files() {
    let program = program();
    let files = Files::new("random");
    let mut random = settings::random();
    let mut worked_through = 0;
    for _ in 0..200 {
        let Case { site, journal, .. } = case(&mut random);
        let printed = files.assert_printed(&program, &site, &journal);
        worked_through += usize::from(printed.starts_with("00"));
    }
    let some_of_both = 20..180;
    assert!(
        some_of_both.contains(&worked_through),
        "{worked_through} worked through"
    );
}

#[test]
fn a_missing_argument() {
    let program = program();
    let files = Files::new("argument");
    files.write(&printed_site(), &printed_journal());
    assert_complains(&program, &[]);
    assert_complains(&program, &[files.site.as_ref()]);
}

/// A file that is not there, and a directory in its place.
#[test]
fn an_unreadable_file() {
    let program = program();
    let files = Files::new("unreadable");
    files.write(&printed_site(), &printed_journal());
    let absent = files.site.with_file_name("absent");
    let directory = files.site.with_file_name("");
    for unreadable in [&absent, &directory] {
        assert_complains(&program, &[unreadable.as_ref(), files.journal.as_ref()]);
        assert_complains(&program, &[files.site.as_ref(), unreadable.as_ref()]);
    }
}
