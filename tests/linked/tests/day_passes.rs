//! What docs/FORMATS.md and README.md say of day passes holds of the proved library.

mod document;
mod library;

use document::rows;
use reference::build::{Credential, EntryFields, Factor, Point, Rule, FORMAT};
use reference::bytes::{get16, get32, put32};
use warblehay::numbers::*;
use warblehay::{check_state, fresh_state, run_journal, state_length};

const CARD: [u8; 8] = [7; 8];

/// Where the state of the credential begins in a state of the site below: behind that of the point.
const HELD: usize = RECORD_SIZE;

/// A point, hours from 9:00 on every day, and a pass of three days.
fn site() -> Vec<u8> {
    let hours = Rule {
        flags: 1 << RULE_FLAG_ENABLED | 1 << RULE_FLAG_EVERYWHERE,
        days: 127,
        from: 540,
        to: 1_440,
        ..Rule::new(9)
    };
    let pass = Credential {
        days: 3,
        rights: [9, NONE],
        ..Credential::new(5)
    };
    let point = Point::new(1).record();
    let card = Factor::new(5, CARD).record();
    [point, hours.record(), pass.record(), card].concat()
}

fn fresh(site: &[u8]) -> Vec<u8> {
    let mut state = vec![0; state_length(site)];
    assert_eq!(fresh_state(site, &mut state), Ok(()));
    state
}

/// Reads the card; hands back the event.
fn read(site: &[u8], state: &mut [u8], time: u32) -> u16 {
    let journal = EntryFields::read_factor(time, 1, FORMAT, CARD).bytes();
    let mut answers = [0; ANSWER_SIZE];
    assert_eq!(run_journal(site, state, &journal, &mut answers), Ok(()));
    get16(&answers, ANSWER_EVENT)
}

fn days_left(state: &[u8]) -> u16 {
    get16(&state[HELD..], CREDENTIAL_STATE_DAYS)
}

fn last_grant(state: &[u8]) -> u32 {
    get32(&state[HELD..], CREDENTIAL_STATE_LAST_GRANT)
}

/// "Tuesday 10:00", or never.
fn time_of(text: &str) -> u32 {
    let mut words = text.split_whitespace();
    let day = match words.next() {
        Some("Monday") => 0,
        Some("Tuesday") => 1,
        Some("never") => return NEVER,
        _ => panic!("a day: {text}"),
    };
    let (hour, minute) = words
        .next()
        .and_then(|time| time.split_once(':'))
        .expect(text);
    let [hour, minute] = [hour, minute].map(|number| number.parse::<u32>().expect(text));
    day * 86_400 + hour * 3_600 + minute * 60
}

#[test]
fn a_pass_runs_down_as_its_table_says() {
    let site = site();
    let mut state = fresh(&site);
    let rows = rows("Days left");
    assert_eq!(rows.len(), 8);
    for row in rows {
        let cell = |title| row.cell(title).expect("a cell");
        let event = read(&site, &mut state, time_of(cell("Read")));
        assert_eq!(event.to_string(), cell("Event"), "{}", cell("Read"));
        assert_eq!(
            days_left(&state).to_string(),
            cell("Days left"),
            "{}",
            cell("Read")
        );
        assert_eq!(
            last_grant(&state),
            time_of(cell("Last grant")),
            "{}",
            cell("Read")
        );
    }
}

/// A state as it was written before there was a last grant, of a card that was granted on Tuesday.
fn older_state(site: &[u8]) -> Vec<u8> {
    let mut state = fresh(site);
    assert_eq!(read(site, &mut state, time_of("Tuesday 10:00")), GRANTED);
    assert_eq!(days_left(&state), 2);
    put32(&mut state[HELD..], CREDENTIAL_STATE_LAST_GRANT, 0);
    assert_eq!(check_state(site, &state), Ok(()));
    state
}

#[test]
fn an_older_state_takes_a_day_on_the_date_of_the_change() {
    let site = site();
    let mut state = older_state(&site);
    assert_eq!(read(&site, &mut state, time_of("Tuesday 11:00")), GRANTED);
    assert_eq!(days_left(&state), 1);
}

#[test]
fn last_use_written_over_last_grant_spares_the_day() {
    let site = site();
    let mut state = older_state(&site);
    let held = &mut state[HELD..];
    assert_eq!(get16(held, CREDENTIAL_STATE_LAST_EVENT), GRANTED);
    let last_use = get32(held, CREDENTIAL_STATE_LAST_USE);
    put32(held, CREDENTIAL_STATE_LAST_GRANT, last_use);
    assert_eq!(read(&site, &mut state, time_of("Tuesday 11:00")), GRANTED);
    assert_eq!(days_left(&state), 2);
}
