//! What docs/FORMATS.md says of each event: a read that is granted is denied with it when fields
//! are changed that its row names, at the step of the table "Order of checks".

mod document;
mod library;

use document::{put, row_of, rows, Row};
use reference::build::{Credential, EntryFields, Factor, Point, Rule, Zone, FORMAT};
use std::collections::{BTreeMap, BTreeSet};
use warblehay::numbers::*;
use warblehay::{fresh_state, run_journal, state_length};

/// An event, and what is changed to bring it. The fields are those of the site, the state or the
/// entry that is granted below; a zone is Zone_To, or Zone_From where it says so.
const BROUGHT: &str = "\
NO_EVENT POINT_FLAG_OUT_OF_SERVICE=1
NO_EVENT POINT_FACTORS_WANTED=2
DENIED_LOCKOUT POINT_STATE_LOCKED=1
DENIED_LOCKOUT POINT_STATE_LOCKED=1 POINT_STATE_LOCK_TIME=900 POINT_LOCKOUT_RELINQUISH=101
DENIED_AUTHENTICATION_FACTOR_TIMEOUT POINT_STATE_WAITING_CREDENTIAL=4 POINT_STATE_WAITING_SINCE=900 POINT_FACTOR_TIMEOUT=99
DENIED_AUTHENTICATION_FACTOR_ERROR ENTRY_ARGUMENT=1
DENIED_INCORRECT_AUTHENTICATION_FACTOR POINT_STATE_WAITING_CREDENTIAL=4
DENIED_UNKNOWN_CREDENTIAL ENTRY_VALUE=44
DENIED_UNKNOWN_CREDENTIAL ENTRY_ARGUMENT=3
DENIED_UNKNOWN_CREDENTIAL FACTOR_VALUE=44
DENIED_UNKNOWN_CREDENTIAL FACTOR_FORMAT=3
DENIED_UNKNOWN_CREDENTIAL FACTOR_ROLE=2
DENIED_AUTHENTICATION_FACTOR_DISABLED FACTOR_DISABLE=1
DENIED_AUTHENTICATION_FACTOR_LOST FACTOR_DISABLE=2
DENIED_AUTHENTICATION_FACTOR_STOLEN FACTOR_DISABLE=3
DENIED_AUTHENTICATION_FACTOR_DAMAGED FACTOR_DISABLE=4
DENIED_AUTHENTICATION_FACTOR_DESTROYED FACTOR_DISABLE=5
DENIED_CREDENTIAL_NOT_YET_ACTIVE CREDENTIAL_ACTIVATION=1001
DENIED_CREDENTIAL_EXPIRED CREDENTIAL_EXPIRY=999
DENIED_CREDENTIAL_DISABLED CREDENTIAL_STATE_DISABLE=1
DENIED_CREDENTIAL_MANUAL_DISABLE CREDENTIAL_STATE_DISABLE=2
DENIED_CREDENTIAL_LOCKOUT CREDENTIAL_STATE_DISABLE=3
DENIED_CREDENTIAL_MAX_DAYS CREDENTIAL_STATE_DAYS=0
DENIED_CREDENTIAL_MAX_USES CREDENTIAL_STATE_USES=0
DENIED_CREDENTIAL_INACTIVITY CREDENTIAL_ABSENTEE_DAYS=0 CREDENTIAL_STATE_LAST_USE=999
DENIED_DENY_ALL POINT_MODE=2
DENIED_THREAT_LEVEL POINT_THREAT_LEVEL=1
DENIED_NO_ACCESS_RIGHTS RULE_FLAG_NEGATIVE=1
DENIED_OUT_OF_TIME_RANGE RULE_FLAG_ALWAYS=0
DENIED_OUT_OF_TIME_RANGE RULE_FLAG_ALWAYS=0 RULE_DAYS=126
DENIED_OUT_OF_TIME_RANGE RULE_FLAG_ALWAYS=0 RULE_DAYS=1 RULE_FROM=17
DENIED_OUT_OF_TIME_RANGE RULE_FLAG_ALWAYS=0 RULE_DAYS=1 RULE_TO=16
DENIED_ZONE_NO_ACCESS_RIGHTS RULE_FLAG_ENABLED=0
DENIED_ZONE_NO_ACCESS_RIGHTS RULE_FLAG_EVERYWHERE=0 RULE_LOCATION_KIND=1 RULE_LOCATION=3
DENIED_ZONE_NO_ACCESS_RIGHTS CREDENTIAL_FIRST_RIGHTS=4194303
DENIED_ZONE_NO_ACCESS_RIGHTS CREDENTIAL_FIRST_RIGHTS=4194303 CREDENTIAL_SECOND_RIGHTS=8
DENIED_POINT_NO_ACCESS_RIGHTS POINT_ZONE_TO=4194303 RULE_FLAG_ENABLED=0
DENIED_POINT_NO_ACCESS_RIGHTS POINT_ZONE_TO=4194303 RULE_FLAG_EVERYWHERE=0 RULE_LOCATION_KIND=1 RULE_LOCATION=1
DENIED_PASSBACK CREDENTIAL_STATE_ZONE=1 ZONE_PASSBACK=1
DENIED_PASSBACK CREDENTIAL_STATE_ZONE=1 ZONE_PASSBACK=1 CREDENTIAL_STATE_ENTERED=881 ZONE_PASSBACK_TIMEOUT=2
DENIED_LOWER_OCCUPANCY_LIMIT POINT_FLAG_LOWER_ENFORCED=1 Zone_From.ZONE_LOWER_LIMIT=5 Zone_From.ZONE_STATE_COUNT=5
DENIED_UPPER_OCCUPANCY_LIMIT POINT_FLAG_UPPER_ENFORCED=1 ZONE_UPPER_LIMIT=5 ZONE_STATE_COUNT=5
DENIED_OTHER ZONE_STATE_COUNT=4294967295
";

/// The records below in their order, by the start of the names of their fields.
const RECORDS: [&str; 6] = [
    "ZONE",
    "Zone_From.ZONE",
    "POINT",
    "RULE",
    "CREDENTIAL",
    "FACTOR",
];

/// Point 2 leads from zone 3 into zone 1, and rights 7 permit credential 4 to pass.
fn site() -> Vec<u8> {
    let counting = 1 << ZONE_FLAG_COUNTING;
    let [to, from] = [1, 3].map(|instance| Zone {
        flags: counting,
        ..Zone::new(instance)
    });
    let point = Point {
        flags: 1 << POINT_FLAG_COUNT_ADJUST,
        zone_to: 1,
        zone_from: 3,
        ..Point::new(2)
    };
    let credential = Credential {
        rights: [7, NONE],
        ..Credential::new(4)
    };
    [
        to.record(),
        from.record(),
        point.record(),
        Rule::new(7).record(),
        credential.record(),
        Factor::new(4, [4; 8]).record(),
    ]
    .concat()
}

/// A change of `BROUGHT`: the place of its record, unless it is the entry's, its name and number.
struct Change {
    place: Option<usize>,
    name: &'static str,
    number: u64,
}

impl Change {
    fn of(text: &'static str) -> Change {
        let (field, number) = text.split_once('=').expect("a number");
        let name = field.trim_start_matches("Zone_From.");
        let start = field.split('_').next().unwrap_or_default();
        let start = if name == field {
            start
        } else {
            "Zone_From.ZONE"
        };
        let place = RECORDS.into_iter().position(|record| record == start);
        Change {
            place,
            name,
            number: number.parse().expect("a number"),
        }
    }

    fn is_of_state(&self) -> bool {
        self.name.contains("_STATE_")
    }

    /// Where the record begins in the buffer that has it.
    fn start(&self) -> usize {
        let start = self.place.unwrap_or_default() * RECORD_SIZE;
        if self.is_of_state() {
            return state_length(&site()[..start]);
        }
        start
    }

    /// Writes the number over the field, or sets or clears the flag, in the buffer that has it.
    fn apply(&self, bytes: &mut [u8]) {
        let bytes = &mut bytes[self.start()..];
        let row = row_of(self.name);
        if row.cell("Bit").is_none() {
            return put(bytes, row.bytes(), self.number);
        }
        let flag = 1 << row.number("Bit");
        bytes[FLAGS] = bytes[FLAGS] & !flag | if self.number == 0 { 0 } else { flag };
    }
}

fn brought() -> Vec<(&'static str, Vec<Change>)> {
    BROUGHT
        .lines()
        .map(|line| {
            let (event, changes) = line.split_once(' ').expect("changes");
            (event, changes.split(' ').map(Change::of).collect())
        })
        .collect()
}

fn event_with(changes: &[Change]) -> u16 {
    let mut site = site();
    let mut entry = EntryFields::read_factor(1_000, 2, FORMAT, [4; 8]).bytes();
    for change in changes.iter().filter(|change| !change.is_of_state()) {
        change.apply(if change.place.is_some() {
            &mut site
        } else {
            &mut entry
        });
    }
    let mut state = vec![0; state_length(&site)];
    assert_eq!(fresh_state(&site, &mut state), Ok(()));
    for change in changes.iter().filter(|change| change.is_of_state()) {
        change.apply(&mut state);
    }
    let mut answer = [0; ANSWER_SIZE];
    assert_eq!(run_journal(&site, &mut state, &entry, &mut answer), Ok(()));
    assert_eq!(answer[ANSWER_REFUSAL], NOT_REFUSED);
    u16::from_be_bytes([answer[ANSWER_EVENT], answer[ANSWER_EVENT + 1]])
}

#[test]
fn a_row_names_the_fields_that_bring_its_event() {
    assert_eq!(event_with(&[]), GRANTED);
    for (event, changes) in brought() {
        let row = row_of(event);
        assert_eq!(u64::from(event_with(&changes)), row.value(), "{event}");
        let named = row.cell("What to look at").expect("a cell");
        let named: Vec<&str> = named.split([' ', ';', ':']).collect();
        for Change { name, .. } in changes {
            assert!(named.contains(&name), "{name} brings {event}");
        }
    }
}

/// The rows of the events that a factor read comes to.
fn events_with_a_step() -> Vec<Row> {
    let mut rows = rows("Step");
    rows.retain(|row| row.cell("Name").is_some() && row.cell("Step") != Some(""));
    rows
}

#[test]
fn every_event_but_the_grant_is_brought() {
    let rows = events_with_a_step();
    let mut documented: BTreeSet<&str> = rows.iter().map(Row::name).collect();
    assert!(documented.remove("GRANTED"));
    assert_eq!(
        documented,
        brought().into_iter().map(|(event, _)| event).collect()
    );
}

/// The events of a cell such as "151; 152" or "143 to 147".
fn events_of(cell: &str) -> Vec<u64> {
    if cell.is_empty() {
        return Vec::new();
    }
    let number = |text: &str| text.parse::<u64>().expect("an event");
    match cell.split_once(" to ") {
        Some((first, last)) => (number(first)..=number(last)).collect(),
        None => cell.split("; ").map(number).collect(),
    }
}

/// An event has the same step in both tables. Event 0 is given in two places.
#[test]
fn the_order_of_checks_has_every_event() {
    let mut ordered = BTreeMap::new();
    let mut step = String::new();
    for row in rows("Asked") {
        if let Some(next) = row.cell("Step").filter(|next| !next.is_empty()) {
            step = next.to_string();
        }
        for event in events_of(row.cell("Event").expect("a cell")) {
            assert_eq!(ordered.insert(event, step.clone()), None, "{event}");
        }
    }
    assert_eq!(ordered.remove(&0).as_deref(), Some("4"));
    let rows = events_with_a_step();
    let documented = rows
        .iter()
        .map(|row| (row.value(), row.cell("Step").expect("a step").to_string()));
    assert_eq!(
        ordered,
        documented.filter(|(event, _)| *event != 0).collect()
    );
}
