//! Programs that link the library, in C and in Rust: on the paper's example, on inputs that are
//! turned back and, with the sanitisers, on damaged buffers.

mod library;

use library::{compile, PLAIN, SANITISED};
use reference::generate::{journal, large_site, Random};
use reference::numbers::{ENTRY_LENGTH, MOST_JOURNAL_BYTES, MOST_SITE_BYTES, RECORD_LENGTH};
use reference::print::print_journal;
use std::fs;
use std::path::{Path, PathBuf};
use std::process::Command;

/// Damaged cases in each mode, and the seed, so that the gate always tries the same ones.
const CASES: &str = "20000";
const SEED: &str = "1352008";

/// The same program in Rust and, plain and sanitised, in C.
fn print_answers(test: &str) -> [PathBuf; 3] {
    [
        env!("CARGO_BIN_EXE_print_answers").into(),
        compile(test, "print_answers", &PLAIN),
        compile(test, "print_answers", &SANITISED),
    ]
}

fn example_file(name: &str) -> PathBuf {
    library::repository("crates/print_journal").join(name)
}

fn example(name: &str) -> Vec<u8> {
    fs::read(example_file(name)).expect("the example is there")
}

fn on_example(program: impl AsRef<Path>) -> Command {
    let mut command = Command::new(program.as_ref());
    command.args([example_file("data/site"), example_file("data/journal")]);
    command
}

/// A site file and a journal file in the directory of the test.
fn write_files(test: &str, site: &[u8], journal: &[u8]) -> [PathBuf; 2] {
    let directory = library::scratch(test);
    let files = [directory.join("site"), directory.join("journal")];
    fs::write(&files[0], site).expect("the site file is written");
    fs::write(&files[1], journal).expect("the journal file is written");
    files
}

/// Every program prints the text of a site and a journal.
fn assert_printed(programs: &[PathBuf], test: &str, site: &[u8], journal: &[u8], text: &str) {
    let files = write_files(test, site, journal);
    for program in programs {
        let printed = library::assert_succeeds(Command::new(program).args(&files));
        assert_eq!(printed, text, "{program:?}");
    }
}

#[test]
fn the_example_of_the_paper() {
    let expected = String::from_utf8(example("stdout")).expect("text");
    assert_eq!(expected.lines().count(), 3);
    for program in print_answers("example") {
        let printed = library::assert_succeeds(&mut on_example(program));
        assert_eq!(printed, expected);
    }
}

#[test]
fn inputs_turned_back() {
    let test = "turned_back";
    let programs = print_answers(test);
    let (site, journal) = (example("data/site"), example("data/journal"));
    let cut = &site[..site.len() - 1];
    let mut spare = site.clone();
    spare[RECORD_LENGTH - 1] = 1;
    let twice = [&site[..], &site[..RECORD_LENGTH]].concat();
    let without_zone = &site[RECORD_LENGTH..];
    assert_printed(&programs, test, cut, &journal, "1\n");
    assert_printed(&programs, test, &spare, &journal, "2\n");
    assert_printed(&programs, test, &twice, &journal, "3\n");
    assert_printed(&programs, test, without_zone, &journal, "4\n");
    assert_printed(&programs, test, &site, &journal[1..], "10\n");
}

#[test]
fn the_longest_journal_a_longer_one_and_none() {
    let test = "longest";
    let programs = print_answers(test);
    let site = example("data/site");
    let journal = example("data/journal").repeat(MOST_JOURNAL_BYTES / ENTRY_LENGTH);
    for length in [0, MOST_JOURNAL_BYTES, MOST_JOURNAL_BYTES + ENTRY_LENGTH] {
        let journal = &journal[..length];
        let text = print_journal(&site, journal);
        assert_printed(&programs, test, &site, journal, &text);
    }
    assert_printed(&programs, test, &[], &[], "");
}

#[test]
fn a_missing_file_or_argument() {
    for program in print_answers("missing") {
        let mut absent = Command::new(&program);
        absent.args([example_file("data/site"), example_file("data/absent")]);
        for command in [&mut Command::new(&program), &mut absent] {
            let output = command.output().expect("the program starts");
            assert!(!output.status.success());
            assert!(output.stdout.is_empty() && !output.stderr.is_empty());
        }
    }
}

/// The program itself sees that nothing is wrong and that every number occurs.
#[test]
fn damaged_buffers() {
    let sanitised = compile("damaged", "damaged", &SANITISED);
    let plain = compile("damaged", "damaged", &PLAIN);
    let run = |program: &Path, mode: &str| {
        library::assert_succeeds(on_example(program).args([mode, SEED, CASES]))
    };
    let reported = run(&plain, "heap");
    assert_eq!(reported.lines().count(), 14);
    for mode in ["heap", "before", "after"] {
        assert_eq!(run(&sanitised, mode), reported, "{mode}");
    }
}

/// The header promises that a call uses less than these bytes of stack, 8 KiB.
const STACK: usize = 8_192;

/// Each call on the paper's example, and on the largest site with the largest journal.
#[test]
fn the_stack_stays_small() {
    let program = compile("stack", "stack", &PLAIN);
    let mut random = Random::new(1);
    let site = large_site(&mut random, 100, MOST_SITE_BYTES / RECORD_LENGTH);
    let journal = journal(&mut random, 100, &site, MOST_JOURNAL_BYTES / ENTRY_LENGTH);
    let largest = write_files("stack", &site, &journal);
    for command in [
        &mut on_example(&program),
        Command::new(&program).args(largest),
    ] {
        let printed = library::assert_succeeds(command);
        let used: Vec<usize> = printed
            .lines()
            .filter_map(|line| line.parse().ok())
            .collect();
        assert_eq!(used.len(), 12, "a number for each call");
        assert!(
            used.iter().all(|used| (1..STACK).contains(used)),
            "{used:?} bytes"
        );
    }
}

/// The library has code and constants alone, and no bytes that calls could share.
#[test]
fn no_global_state() {
    let archive = library::directory().join("libwarblehay.a");
    let sizes = library::assert_succeeds(Command::new("size").arg(archive));
    let objects: Vec<&str> = sizes.lines().skip(1).collect();
    assert!(!objects.is_empty(), "no object: {sizes}");
    for object in objects {
        let words: Vec<&str> = object.split_whitespace().collect();
        assert_ne!(words[0], "0", "code: {object}");
        assert_eq!(words[1..3], ["0", "0"], "data and zeroed data: {object}");
    }
}

/// The library takes nothing from elsewhere, an allocator included, and its names have one prefix.
#[test]
fn no_other_library_and_no_other_name() {
    let archive = library::directory().join("libwarblehay.a");
    let symbols = library::assert_succeeds(Command::new("nm").arg("-P").arg(archive));
    let mut calls = Vec::new();
    for symbol in symbols.lines().skip(1) {
        let words: Vec<&str> = symbol.split(' ').collect();
        match words[1] {
            "T" => calls.push(words[0]),
            kind => assert!(["t", "r"].contains(&kind), "{symbol}"),
        }
    }
    assert_eq!(
        calls,
        [
            "warblehay_check_site",
            "warblehay_check_state",
            "warblehay_fresh_state",
            "warblehay_lengthen_state",
            "warblehay_place_of_credential",
            "warblehay_place_of_point",
            "warblehay_place_of_zone",
            "warblehay_read_wiegand26",
            "warblehay_run_journal",
            "warblehay_shorten_state",
            "warblehay_state_length",
            "warblehay_write_wiegand26",
        ]
    );
}
