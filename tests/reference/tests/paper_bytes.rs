//! The site, the journal and the text of document 01's printed journal are the files of the printing
//! program, here and in docs/FORMATS.md.

use reference::journal::run_journal;
use reference::numbers::{ANSWER_LENGTH, ENTRY_LENGTH};
use reference::scenarios::paper_cases::{printed_journal, printed_site, PRINTED};
use reference::state::{fresh_state, state_length};
use std::fs;
use std::path::Path;

fn file(path: &str) -> Vec<u8> {
    let repository = Path::new(env!("CARGO_MANIFEST_DIR")).join("../..");
    fs::read(repository.join(path)).expect("the file is there")
}

fn site() -> Vec<u8> {
    file("crates/print_journal/data/site")
}

fn journal() -> Vec<u8> {
    file("crates/print_journal/data/journal")
}

/// The builders are held to the offsets of the paper and not only to the readers.
#[test]
fn the_builders_write_the_bytes_of_the_example() {
    assert_eq!(printed_site(), site());
    assert_eq!(printed_journal(), journal());
}

#[test]
fn the_text_is_that_of_the_example() {
    assert_eq!(PRINTED.as_bytes(), file("crates/print_journal/stdout"));
}

/// The digits of the indented lines, each up to the note beside it.
fn digits_in(text: &str) -> String {
    let lines = text.lines().filter_map(|line| line.strip_prefix("    "));
    let digits = lines.filter_map(|line| line.split("   ").next());
    digits.flat_map(|digits| digits.split(' ')).collect()
}

fn digits_of(bytes: &[u8]) -> String {
    bytes.iter().map(|byte| format!("{byte:02X}")).collect()
}

/// The state that the journal leaves, from fresh.
fn state_left() -> Vec<u8> {
    let (site, journal) = (site(), journal());
    let mut state = vec![0; state_length(&site)];
    let mut answers = vec![0; journal.len() / ENTRY_LENGTH * ANSWER_LENGTH];
    assert_eq!(fresh_state(&site, &mut state), 0);
    assert_eq!(run_journal(&site, &mut state, &journal, &mut answers), 0);
    state
}

#[test]
fn the_formats_show_the_bytes_of_the_example() {
    let formats = String::from_utf8(file("docs/FORMATS.md")).expect("text");
    let (_, shown) = formats.split_once("## An example").expect("the example");
    let files = digits_of(&[site(), journal()].concat());
    assert_eq!(
        digits_in(shown),
        files + &PRINTED.replace('\n', "") + &digits_of(&state_left())
    );
}
