//! The programs that read the bits of a card, in C and in Rust: from the reader to the answer of
//! the point.

mod library;

use library::{compile, PLAIN, SANITISED};
use reference::build::{journal, Credential, EntryFields, Factor, Point};
use reference::numbers::{authorization_mode, format};
use reference::print::print_journal;
use std::fs;
use std::path::{Path, PathBuf};
use std::process::Command;

/// Facility 131, card 77: the card that document 002 gives credential 33.
const BITS: &str = "11000001100000000010011011";
const CARD: [u8; 8] = [0, 0, 0, 0, 0, 0x83, 0x00, 0x4D];

const POINT: u32 = 2;
const TIME: u32 = 100;

/// A point with three failures at most, and the card.
fn site() -> Vec<u8> {
    let point = Point {
        authorization_mode: authorization_mode::GRANT_ACTIVE,
        max_failed_attempts: 3,
        ..Point::new(POINT)
    };
    let card = Factor {
        format: format::WIEGAND26,
        ..Factor::new(33, CARD)
    };
    let records = [point.record(), Credential::new(33).record(), card.record()];
    records.concat()
}

/// What the second implementation prints of a factor read at the point.
fn expected(format: u8, value: [u8; 8]) -> String {
    let entry = EntryFields::read_factor(TIME, POINT, format, value);
    print_journal(&site(), &journal(&[entry]))
}

/// The program in Rust and, plain and sanitised, in C.
fn read_card(test: &str) -> [PathBuf; 3] {
    [
        env!("CARGO_BIN_EXE_read_card").into(),
        compile(test, "read_card", &PLAIN),
        compile(test, "read_card", &SANITISED),
    ]
}

fn write_site(test: &str, name: &str, site: &[u8]) -> PathBuf {
    let file = library::scratch(test).join(name);
    fs::write(&file, site).expect("the site file is written");
    file
}

fn on_bits(program: &Path, site: &Path, bits: &str) -> Command {
    let mut command = Command::new(program);
    let numbers = [POINT, TIME].map(|number| number.to_string());
    command.arg(site).args(numbers).arg(bits);
    command
}

fn assert_printed(program: &Path, site: &Path, bits: &str, text: &str) {
    let printed = library::assert_succeeds(&mut on_bits(program, site, bits));
    assert_eq!(printed, text, "{program:?} {bits}");
}

#[test]
fn the_card_is_granted_and_with_any_changed_bit_denied() {
    let test = "card_granted";
    let site = write_site(test, "site", &site());
    let granted = expected(format::WIEGAND26, CARD);
    let denied = expected(format::ERROR, [0; 8]);
    // Events 1 and 148.
    assert!(granted.starts_with("0001") && denied.starts_with("0094"));
    let number = u32::from_str_radix(BITS, 2).expect("bits");
    for program in read_card(test) {
        assert_printed(&program, &site, BITS, &granted);
        for place in 0..26 {
            let changed = format!("{:026b}", number ^ 1 << place);
            assert_printed(&program, &site, &changed, &denied);
        }
    }
}

#[test]
fn other_bits_than_26_and_a_cut_site_are_turned_back() {
    let test = "card_turned_back";
    let whole = write_site(test, "whole", &site());
    let cut = write_site(test, "cut", &site()[1..]);
    let (shorter, longer) = (&BITS[1..], format!("{BITS}0"));
    for program in read_card(test) {
        for bits in ["", shorter, &longer, &"0".repeat(64)] {
            assert_printed(&program, &whole, bits, "17\n");
        }
        assert_printed(&program, &cut, BITS, "1\n");
    }
}

#[test]
fn a_missing_file_or_argument_and_what_is_no_bits() {
    let test = "card_missing";
    let site = write_site(test, "site", &site());
    for program in read_card(test) {
        let mut commands = vec![
            Command::new(&program),
            on_bits(&program, &site.with_file_name("absent"), BITS),
        ];
        for bits in [&"0".repeat(65), &BITS.replacen('0', "2", 1), " "] {
            commands.push(on_bits(&program, &site, bits));
        }
        for mut command in commands {
            let output = command.output().expect("the program starts");
            let message = String::from_utf8_lossy(&output.stderr);
            assert_eq!(output.status.code(), Some(1), "{command:?}");
            assert!(output.stdout.is_empty(), "{command:?}");
            // One of the program's own, not of a sanitiser.
            assert!(message.contains("read_card") && message.lines().count() == 1);
        }
    }
}
