//! The tables of docs/FORMATS.md hold of the proved library: every byte outside the fields is
//! spare, every range ends where the table says, and the fresh state is as it stands there.

mod document;
mod library;

use document::{fields, put, rows, Row};
use reference::build::{Credential, EntryFields, Factor, Point, Record, Rule, Zone, FORMAT};
use warblehay::numbers::*;
use warblehay::{
    check_site, check_state, fresh_state, lengthen_state, place_of_credential, place_of_point,
    place_of_zone, run_journal, shorten_state, state_length, Place, TurnedBack,
};

/// The numbers at the ends of a range and beyond, each with whether it is in it.
fn ends(lowest: u64, highest: u64, most: u64) -> Vec<(u64, bool)> {
    let mut numbers = vec![(lowest, true), (highest, true)];
    numbers.extend(lowest.checked_sub(1).map(|below| (below, false)));
    numbers.extend((highest < most).then_some((highest + 1, false)));
    numbers
}

/// Numbers to try in a field of a site record or an entry.
fn tries(range: &str, most: u64) -> Vec<(u64, bool)> {
    let none = u64::from(NONE);
    let range = range.split(';').next().unwrap_or_default();
    let words: Vec<&str> = range.split(' ').collect();
    match words[..] {
        ["any"] => ends(0, most, most),
        ["any", "but", "never"] => ends(0, u64::from(NEVER) - 1, most),
        ["real"] => ends(0, none - 1, most),
        ["real", "or", "NONE"] => ends(0, none, most),
        [lowest, "to" | "or", highest] => ends(
            lowest.parse().expect(range),
            highest.parse().expect(range),
            most,
        ),
        _ => panic!("a range that the test does not know: {range}"),
    }
}

/// The kinds with the start of their names; the records of the site below are in the same order.
const KINDS: [&str; 5] = ["ZONE", "POINT", "RULE", "CREDENTIAL", "FACTOR"];

/// A record of each kind. Every field of it may take any number of its range.
fn records() -> [Record; 5] {
    let located = Rule {
        flags: 0,
        location_kind: LOCATION_ZONE,
        location: 1,
        ..Rule::new(3)
    };
    [
        Zone::new(1).record(),
        Point {
            max_failed_attempts: 3,
            zone_to: 1,
            ..Point::new(2)
        }
        .record(),
        located.record(),
        Credential {
            uses: 7,
            days: 8,
            disable: DISABLE_LOCKOUT,
            most_wrong_tries: 3,
            ..Credential::new(4)
        }
        .record(),
        Factor::new(4, [0; 8]).record(),
    ]
}

/// Whether the site is in range when one of its records is changed.
fn is_site_in_range(place: usize, change: impl Fn(&mut [u8])) -> bool {
    let mut records = records();
    assert_eq!(check_site(&records.concat()), Ok(()));
    change(&mut records[place]);
    check_site(&records.concat()) != Err(TurnedBack::SiteField)
}

/// The fields of a kind's site record, with those of every record.
fn site_fields(kind: &str) -> Vec<Row> {
    let mut rows = fields(&format!("{kind}_"));
    rows.retain(|row| !row.name().contains("_STATE_"));
    rows.extend(["KIND", "FLAGS", "INSTANCE"].into_iter().flat_map(fields));
    rows
}

/// The bytes that no field has.
fn spare(fields: &[Row], length: usize) -> Vec<usize> {
    (0..length)
        .filter(|byte| !fields.iter().any(|row| row.bytes().contains(byte)))
        .collect()
}

/// The same, of which there are some.
fn some_spare(fields: &[Row], length: usize) -> Vec<usize> {
    let spare = spare(fields, length);
    assert!(!spare.is_empty());
    spare
}

#[test]
fn site_bytes_without_a_field_are_spare() {
    for (place, kind) in KINDS.into_iter().enumerate() {
        for byte in some_spare(&site_fields(kind), RECORD_SIZE) {
            assert!(
                !is_site_in_range(place, |record| record[byte] = 1),
                "{kind} {byte}"
            );
        }
    }
}

#[test]
fn site_fields_have_their_ranges() {
    for (place, kind) in KINDS.into_iter().enumerate() {
        let fields = site_fields(kind);
        for row in fields
            .iter()
            .filter(|row| !["KIND", "FLAGS"].contains(&row.name()))
        {
            for (number, is_in_range) in tries(row.range(), row.most()) {
                let changed = is_site_in_range(place, |record| put(record, row.bytes(), number));
                assert_eq!(changed, is_in_range, "{} {number}", row.name());
            }
        }
    }
}

#[test]
fn kinds_are_those_of_the_table() {
    let [row] = &fields("KIND")[..] else {
        panic!("one row")
    };
    assert_eq!(row.range(), "1 to 5");
    for kind in [0, 6, u8::MAX] {
        assert!(!is_site_in_range(0, |record| record[KIND] = kind), "{kind}");
    }
}

/// The bits of flags and of days that the tables name, and no others. A rule for everywhere has no location.
#[test]
fn bits_without_a_name_are_spare() {
    let bits = rows("Bit");
    for (place, kind) in KINDS.into_iter().enumerate() {
        for (byte, start) in [
            (FLAGS, format!("{kind}_FLAG_")),
            (RULE_DAYS, format!("{kind}_DAY_")),
        ] {
            if byte == RULE_DAYS && kind != "RULE" {
                continue;
            }
            let named = bits.iter().filter(|row| row.name().starts_with(&start));
            let named: u8 = named.map(|row| 1 << row.number("Bit")).sum();
            for bit in 0..8 {
                let is_in_range = is_site_in_range(place, |record| {
                    record[byte] = 1 << bit;
                    if kind == "RULE" && record[FLAGS] == 1 << RULE_FLAG_EVERYWHERE {
                        record[RULE_LOCATION_KIND] = LOCATION_EVERYWHERE;
                        put(record, RULE_LOCATION..RULE_LOCATION + 4, 0);
                    }
                });
                assert_eq!(is_in_range, named & 1 << bit != 0, "{start} {bit}");
            }
        }
    }
}

fn fresh(site: &[u8]) -> Vec<u8> {
    let mut state = vec![0xA5; state_length(site)];
    assert_eq!(fresh_state(site, &mut state), Ok(()));
    state
}

/// The kinds that have a state; the records of the site's state are in the same order.
const KEPT_KINDS: [&str; 3] = ["ZONE", "POINT", "CREDENTIAL"];

/// Whether the fresh state is well formed when one of its records is changed.
fn is_well_formed(place: usize, change: impl Fn(&mut [u8])) -> bool {
    let site = records().concat();
    let mut state = fresh(&site);
    change(&mut state[place * RECORD_SIZE..][..RECORD_SIZE]);
    check_state(&site, &state) == Ok(())
}

fn state_fields(kind: &str) -> Vec<Row> {
    fields(&format!("{kind}_STATE_"))
}

/// Numbers to try in a field of a state record.
fn state_tries(row: &Row) -> Vec<(u64, bool)> {
    let existing = match row.name() {
        "POINT_STATE_WAITING_CREDENTIAL" => 4,
        "CREDENTIAL_STATE_ZONE" => 1,
        _ => 2,
    };
    match row.range() {
        "below the most" => ends(0, 2, 255),
        "existing or NONE" => {
            let none = u64::from(NONE);
            vec![
                (existing, true),
                (none, true),
                (9, false),
                (none + 1, false),
            ]
        }
        range => tries(range, row.most()),
    }
}

#[test]
fn state_bytes_without_a_field_are_spare() {
    for (place, kind) in KEPT_KINDS.into_iter().enumerate() {
        for byte in some_spare(&state_fields(kind), RECORD_SIZE) {
            assert!(
                !is_well_formed(place, |record| record[byte] = 1),
                "{kind} {byte}"
            );
        }
    }
}

#[test]
fn state_fields_have_their_ranges() {
    for (place, kind) in KEPT_KINDS.into_iter().enumerate() {
        for row in state_fields(kind) {
            for (number, is_in_range) in state_tries(&row) {
                let changed = is_well_formed(place, |record| put(record, row.bytes(), number));
                assert_eq!(changed, is_in_range, "{} {number}", row.name());
            }
        }
    }
}

#[test]
fn the_fresh_state_is_that_of_the_table() {
    let site = records().concat();
    let mut expected = vec![0; KEPT_KINDS.len() * RECORD_SIZE];
    for (place, kind) in KEPT_KINDS.into_iter().enumerate() {
        for row in state_fields(kind) {
            let number = match (row.cell("Fresh"), row.name()) {
                (Some("NONE"), _) => NONE.into(),
                (Some("never"), _) => NEVER.into(),
                (Some("the site's"), "CREDENTIAL_STATE_USES") => 7,
                (Some("the site's"), "CREDENTIAL_STATE_DAYS") => 8,
                (Some("the site's"), "CREDENTIAL_STATE_DISABLE") => DISABLE_LOCKOUT.into(),
                (Some("0"), _) => 0,
                (cell, name) => panic!("{name} {cell:?}"),
            };
            put(&mut expected[place * RECORD_SIZE..], row.bytes(), number);
        }
    }
    assert_eq!(fresh(&site), expected);
}

/// Whether the longer state is well formed when one of its records is changed.
fn is_longer_well_formed(place: usize, change: impl Fn(&mut [u8])) -> bool {
    let site = records().concat();
    let mut state = fresh(&site);
    let mut longer = vec![0xA5; site.len()];
    assert_eq!(lengthen_state(&site, &state, &mut longer), Ok(()));
    change(&mut longer[place * RECORD_SIZE..][..RECORD_SIZE]);
    shorten_state(&site, &longer, &mut state) == Ok(())
}

/// Of a rule and a factor it has zeros, and the fields above of the others.
#[test]
fn the_longer_state_has_the_same_fields_and_zeros() {
    for (place, kind) in KINDS.into_iter().enumerate() {
        let fields = match kind {
            "RULE" | "FACTOR" => Vec::new(),
            _ => state_fields(kind),
        };
        for byte in some_spare(&fields, RECORD_SIZE) {
            assert!(
                !is_longer_well_formed(place, |record| record[byte] = 1),
                "{kind} {byte}"
            );
        }
        for row in fields {
            for (number, is_in_range) in state_tries(&row) {
                let changed =
                    is_longer_well_formed(place, |record| put(record, row.bytes(), number));
                assert_eq!(changed, is_in_range, "{} {number}", row.name());
            }
        }
    }
}

/// An entry in form for each operation, at an object that is there.
fn entries() -> [EntryFields; 5] {
    [
        EntryFields::read_factor(10, 2, FORMAT, [0; 8]),
        EntryFields::set_count(10, 1, 0),
        EntryFields::adjust_count(10, 1, 0),
        EntryFields::set_disable(10, 4, 0),
        EntryFields::set_lockout(10, 2, false),
    ]
}

/// Whether an entry is in form when it is changed.
fn is_in_form(entry: EntryFields, change: impl Fn(&mut [u8])) -> bool {
    let site = records().concat();
    let mut bytes = entry.bytes();
    change(&mut bytes);
    let mut answer = [0; ANSWER_SIZE];
    assert_eq!(
        run_journal(&site, &mut fresh(&site), &bytes, &mut answer),
        Ok(())
    );
    answer[ANSWER_REFUSAL] != REFUSED_FORM
}

/// The range of a column of an operation.
fn tries_of_column(cell: &str, most: u64) -> Vec<(u64, bool)> {
    match cell {
        "0" => ends(0, 0, most),
        "format 1 to 255" => ends(1, 255, most),
        "the value read any" | "the count any" => ends(0, most, most),
        signed if signed.starts_with("signed") => ends(0, most, most),
        range => tries(range, most),
    }
}

#[test]
fn operations_use_the_columns_of_their_table() {
    let rows = rows("Instance of");
    assert_eq!(rows.len(), entries().len());
    for (row, entry) in rows.iter().zip(entries()) {
        assert_eq!(row.number("Number"), entry.operation.into());
        for (column, name) in [
            ("Argument", "ENTRY_ARGUMENT"),
            ("Amount", "ENTRY_AMOUNT"),
            ("Value", "ENTRY_VALUE"),
        ] {
            let [field] = &fields(name)[..] else {
                panic!("one row")
            };
            for (number, is_in_range) in
                tries_of_column(row.cell(column).expect(column), field.most())
            {
                let changed = is_in_form(entry, |bytes| put(bytes, field.bytes(), number));
                assert_eq!(changed, is_in_range, "{} {column} {number}", row.name());
            }
        }
    }
}

#[test]
fn entries_have_their_ranges() {
    for entry in entries() {
        for byte in some_spare(&fields("ENTRY_"), ENTRY_SIZE) {
            assert!(!is_in_form(entry, |bytes| bytes[byte] = 1), "{byte}");
        }
        for row in ["ENTRY_TIME", "ENTRY_INSTANCE"]
            .into_iter()
            .flat_map(fields)
        {
            for (number, is_in_range) in tries(row.range(), row.most()) {
                let changed = is_in_form(entry, |bytes| put(bytes, row.bytes(), number));
                assert_eq!(changed, is_in_range, "{} {number}", row.name());
            }
        }
    }
    let [operation] = &fields("ENTRY_OPERATION")[..] else {
        panic!("one row")
    };
    assert_eq!(operation.range(), "1 to 5");
    for unknown in [0, 6, u8::MAX] {
        assert!(
            !is_in_form(entries()[1], |bytes| bytes[ENTRY_OPERATION] = unknown),
            "{unknown}"
        );
    }
}

/// The fields of an answer fill it.
#[test]
fn an_answer_has_no_spare_byte() {
    assert_eq!(spare(&fields("ANSWER_"), ANSWER_SIZE), [0; 0]);
}

/// The words of the document's line that says so, with their marks of thousands taken out.
fn words_of_line(said: &str) -> Vec<String> {
    let document = document::text();
    let mut lines = document.lines().filter(|line| line.contains(said));
    let words = lines.next().expect("the line is there").split_whitespace();
    assert_eq!(lines.next(), None, "it stands there once");
    words.map(|word| word.replace(',', "")).collect()
}

/// The bits, their number and the value of the card that "Raw 26-bit readers" has as its example.
#[test]
fn the_card_of_the_example() {
    let bits = words_of_line("the bits, ");
    let number = warblehay::write_wiegand26(131, 77);
    assert_eq!(bits[..4].concat(), format!("{number:026b}"));
    assert!(bits.contains(&number.to_string()));

    let value = words_of_line("the value, ");
    let factor = warblehay::read_wiegand26(number.into(), WIEGAND26_BITS).expect("26 bits");
    let digits: String = factor
        .value
        .iter()
        .map(|byte| format!("{byte:02X}"))
        .collect();
    assert_eq!(value[..3].concat(), digits);
    assert_eq!(value.last(), Some(&factor.format.to_string()));

    let changed = warblehay::read_wiegand26((number ^ 0b110).into(), WIEGAND26_BITS);
    let value = changed.expect("26 bits").value;
    assert_eq!(value[5..], [131, 0, 78], "as the document says");
}

/// The bytes of all lines of the example, each with its words behind three spaces or more.
fn bytes_of_example() -> Vec<u8> {
    let document = document::text();
    let (_, example) = document.split_once("## An example").expect("an example");
    example
        .lines()
        .filter_map(|line| line.strip_prefix("    ")?.split_once("   "))
        .flat_map(|(digits, _)| bytes_of(&digits.replace(' ', "")))
        .collect()
}

fn bytes_of(digits: &str) -> Vec<u8> {
    (0..digits.len())
        .step_by(2)
        .map(|at| u8::from_str_radix(&digits[at..at + 2], 16).expect("digits"))
        .collect()
}

/// The file that the example is said to be.
fn example_file(name: &str) -> Vec<u8> {
    let file = library::repository("crates/print_journal/data").join(name);
    std::fs::read(file).expect("the example is there")
}

/// Site, journal, answers, and the state that the journal leaves.
#[test]
fn the_example_is_worked_as_it_stands() {
    let (site, journal) = (example_file("site"), example_file("journal"));
    let mut state = fresh(&site);
    let mut answers = vec![0; journal.len() / ENTRY_SIZE * ANSWER_SIZE];
    assert_eq!(
        run_journal(&site, &mut state, &journal, &mut answers),
        Ok(())
    );
    let length = &words_of_line("The state that the journal leaves")[6];
    assert_eq!(*length, state.len().to_string());
    let worked = [site, journal, answers, state].concat();
    assert_eq!(bytes_of_example(), worked);
}

/// "credential 6" in a site.
fn place_in_example(record: &str, site: &[u8]) -> Option<Place> {
    let (object, instance) = record.rsplit_once(' ').expect("an instance");
    let instance = instance.parse().expect("a number");
    match object {
        "zone" => place_of_zone(site, instance),
        "point" => place_of_point(site, instance),
        "credential" => place_of_credential(site, instance),
        _ => None,
    }
}

/// The two results of a lookup, as the example has them: they differ behind a factor.
#[test]
fn the_places_of_the_example() {
    let site = example_file("site");
    let rows = rows("Begins in the state at");
    assert_eq!(rows.len() * RECORD_SIZE, site.len());
    for (place, row) in rows.iter().enumerate() {
        assert_eq!(row.number("Place in the site"), place);
        assert_eq!(row.number("Begins in the site at"), place * RECORD_SIZE);
        let record = row.cell("Record").expect("a record");
        let found = place_in_example(record, &site);
        assert_eq!(
            found.map(|found| found.site),
            found.is_some().then_some(place)
        );
        let begins = found.map_or("no state".to_string(), |found| found.state.to_string());
        assert_eq!(
            row.cell("Begins in the state at"),
            Some(&begins[..]),
            "{record}"
        );
    }
    let last = place_of_credential(&site, 6).expect("it is there");
    assert_ne!(last.site * RECORD_SIZE, last.state);
}
