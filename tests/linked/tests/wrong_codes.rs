//! What docs/FORMATS.md and README.md say of wrong codes holds of the proved library.

mod document;
mod library;

use document::rows;
use reference::build::{Credential, EntryFields, Factor, Point, FORMAT};
use reference::bytes::get16;
use warblehay::numbers::*;
use warblehay::{check_site, fresh_state, run_journal, state_length};

const CARD: [u8; 8] = [5; 8];
const CODE: [u8; 8] = [55; 8];
const ANOTHERS_CARD: [u8; 8] = [6; 8];
const WRONG_CODE: [u8; 8] = [9; 8];

/// Where the state of credential 5 begins in a state of the site below.
const HELD: usize = 2 * RECORD_SIZE;

/// Points 1 and 2, credential 5 with card and code, credential 6 with a card.
fn site(most_wrong_tries: u8, most_failures: u8) -> Vec<u8> {
    let points = [1, 2].map(|instance| Point {
        authorization_mode: MODE_GRANT_ACTIVE,
        factors_wanted: TWO_FACTORS,
        factor_timeout: 20,
        max_failed_attempts: most_failures,
        ..Point::new(instance)
    });
    let five = Credential {
        most_wrong_tries,
        ..Credential::new(5)
    };
    let code = Factor {
        role: ROLE_CONFIRMING,
        ..Factor::new(5, CODE)
    };
    let factors = [Factor::new(5, CARD), code, Factor::new(6, ANOTHERS_CARD)];
    let [first, second] = points.map(|point| point.record());
    let [card, code, others] = factors.map(|factor| factor.record());
    let credentials = [five.record(), Credential::new(6).record()];
    [&[first, second], &credentials[..], &[card, code, others]]
        .concat()
        .concat()
}

fn fresh(site: &[u8]) -> Vec<u8> {
    let mut state = vec![0; state_length(site)];
    assert_eq!(fresh_state(site, &mut state), Ok(()));
    state
}

/// Works entries through; hands back the last answer.
fn last_answer(site: &[u8], state: &mut [u8], entries: &[EntryFields]) -> Vec<u8> {
    let journal: Vec<u8> = entries.iter().flat_map(|entry| entry.bytes()).collect();
    let mut answers = vec![0; entries.len() * ANSWER_SIZE];
    assert_eq!(run_journal(site, state, &journal, &mut answers), Ok(()));
    answers.split_off(answers.len() - ANSWER_SIZE)
}

/// The card at a point, and what follows it.
fn after_its_card(time: u32, point: u32, follows: &str) -> [EntryFields; 2] {
    let (later, format, value) = match follows {
        "a wrong code" => (1, FORMAT, WRONG_CODE),
        "the right code" => (1, FORMAT, CODE),
        "the right code too late" => (21, FORMAT, CODE),
        "a damaged read" => (1, FORMAT_ERROR, [0; 8]),
        "another credential's card" => (1, FORMAT, ANOTHERS_CARD),
        _ => panic!("what follows the card: {follows}"),
    };
    [
        EntryFields::read_factor(time, point, FORMAT, CARD),
        EntryFields::read_factor(time + later, point, format, value),
    ]
}

#[test]
fn a_forgotten_code_fares_as_its_table_says() {
    let site = site(3, 0);
    let mut state = fresh(&site);
    let rows = rows("After its card");
    assert_eq!(rows.len(), 7);
    for (time, row) in (100..).step_by(100).zip(rows) {
        let cell = |title| row.cell(title).expect("a cell");
        let follows = cell("After its card");
        let answer = match cell("Point").parse() {
            Ok(point) => last_answer(&site, &mut state, &after_its_card(time, point, follows)),
            Err(_) => {
                assert_eq!(follows, "operation 4 with 0");
                let lifted = EntryFields::set_disable(time, 5, DISABLE_NONE);
                last_answer(&site, &mut state, &[lifted])
            }
        };
        let event = get16(&answer, ANSWER_EVENT);
        assert_eq!(event.to_string(), cell("Event"), "{follows}");
        let held = &state[HELD..];
        let tries = held[CREDENTIAL_STATE_WRONG_TRIES].to_string();
        assert_eq!(tries, cell("Wrong tries"), "{follows}");
        let disable = held[CREDENTIAL_STATE_DISABLE].to_string();
        assert_eq!(disable, cell("Disable"), "{follows}");
    }
}

/// A site of before, whose byte 22 is 0: neither the card nor the door is locked by wrong codes.
#[test]
fn without_a_most_wrong_codes_are_counted_nowhere() {
    let site = site(0, 1);
    assert_eq!(check_site(&site), Ok(()));
    let mut state = fresh(&site);
    for time in (100..1_000).step_by(100) {
        let entries = after_its_card(time, 1, "a wrong code");
        let answer = last_answer(&site, &mut state, &entries);
        let event = get16(&answer, ANSWER_EVENT);
        assert_eq!(event, DENIED_INCORRECT_AUTHENTICATION_FACTOR);
        assert_eq!(answer[ANSWER_MARKS], MARK_FACTOR_READ);
    }
    let entries = after_its_card(1_000, 1, "the right code");
    let answer = last_answer(&site, &mut state, &entries);
    assert_eq!(get16(&answer, ANSWER_EVENT), GRANTED);
}

/// The most is changed in place, under a live state.
#[test]
fn a_most_written_in_place_counts_from_then_on() {
    let (before, after) = (site(0, 0), site(1, 0));
    let mut state = fresh(&before);
    last_answer(&before, &mut state, &after_its_card(100, 1, "a wrong code"));
    assert_eq!(state[HELD + CREDENTIAL_STATE_DISABLE], DISABLE_NONE);
    last_answer(&after, &mut state, &after_its_card(200, 2, "a wrong code"));
    assert_eq!(state[HELD + CREDENTIAL_STATE_DISABLE], DISABLE_LOCKOUT);
}
