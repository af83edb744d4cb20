//! Forgotten codes at the doors of a floor: they lock the card out and not the door (document 02).

use super::week::{at, MONDAY, NEXT_MONDAY, SUNDAY};
use crate::answer::Answer;
use crate::build::{Credential, EntryFields, Factor, Panel, Point, Record, Rule, Zone, FORMAT};
use crate::bytes::get32;
use crate::engine::Engine;
use crate::layout::{credential, credential_state, point_state};
use crate::numbers::{
    authorization_mode, credential_disable, event, factor_disable, factor_role, factors_wanted,
    format, kind, mark, point_flag, refusal, zone_flag, ANSWER_LENGTH, NEVER, NONE, RECORD_LENGTH,
    SECONDS_PER_DAY,
};
use crate::site::find;
use crate::state::{state_at_mut, state_length};

const GRANTED: u16 = event::GRANTED;
const UNKNOWN: u16 = event::DENIED_UNKNOWN_CREDENTIAL;
const LATE: u16 = event::DENIED_AUTHENTICATION_FACTOR_TIMEOUT;
const WRONG: u16 = event::DENIED_INCORRECT_AUTHENTICATION_FACTOR;
const DAMAGED: u16 = event::DENIED_AUTHENTICATION_FACTOR_ERROR;
const LOCKED_OUT: u16 = event::DENIED_CREDENTIAL_LOCKOUT;

/// The disables of a credential.
const ENABLED: u8 = credential_disable::NONE;
const LOCKOUT: u8 = credential_disable::DISABLE_LOCKOUT;
const OTHER_DISABLES: [u8; 3] = [
    credential_disable::DISABLE,
    credential_disable::DISABLE_MANUAL,
    LOCKOUT,
];

/// The mark of every read that a lock does not deny.
const READ: u8 = mark::AUTHENTICATION_FACTOR_READ;

/// Somebody with a card and a code.
#[derive(Clone, Copy)]
struct Person(u32);

const ANNA: Person = Person(5);
const BERT: Person = Person(6);
const CARL: Person = Person(7);

/// The doors of the floor.
const DOORS: [u32; 3] = [1, 2, 3];

const NOBODYS_CODE: [u8; 8] = [0, 0, 0, 0, 0, 0, 0x99, 0x99];
const NOBODYS_CARD: [u8; 8] = [0xEE; 8];

impl Person {
    fn card(self) -> [u8; 8] {
        u64::from(self.0).to_be_bytes()
    }

    fn code(self) -> [u8; 8] {
        (0x1200 + u64::from(self.0)).to_be_bytes()
    }

    fn badge(self, time: u32, door: u32) -> EntryFields {
        EntryFields::read_factor(time, door, FORMAT, self.card())
    }

    fn enter_code(self, time: u32, door: u32) -> EntryFields {
        EntryFields::read_factor(time, door, FORMAT, self.code())
    }

    fn credential(self, most_wrong_tries: u8) -> Credential {
        Credential {
            most_wrong_tries,
            ..Credential::new(self.0)
        }
    }

    fn factors(self) -> [Record; 2] {
        let code = Factor {
            role: factor_role::CONFIRMING,
            ..Factor::new(self.0, self.code())
        };
        [Factor::new(self.0, self.card()).record(), code.record()]
    }
}

fn wrong_code(time: u32, door: u32) -> EntryFields {
    EntryFields::read_factor(time, door, FORMAT, NOBODYS_CODE)
}

fn unknown_card(time: u32, door: u32) -> EntryFields {
    EntryFields::read_factor(time, door, FORMAT, NOBODYS_CARD)
}

fn damaged_read(time: u32, door: u32) -> EntryFields {
    EntryFields::read_factor(time, door, format::ERROR, [0; 8])
}

/// A door that wants card and code within 30 seconds, and that three failures within a minute lock.
fn door(instance: u32) -> Point {
    Point {
        authorization_mode: authorization_mode::GRANT_ACTIVE,
        factors_wanted: factors_wanted::TWO,
        factor_timeout: 30,
        max_failed_attempts: 3,
        failed_attempts_time: 60,
        ..Point::new(instance)
    }
}

/// The three doors and these credentials with their cards and codes.
fn floor_of(engine: Engine, credentials: &[Credential]) -> Panel {
    let mut records = DOORS.map(|instance| door(instance).record()).to_vec();
    for credential in credentials {
        records.push(credential.record());
        records.extend(Person(credential.instance).factors());
    }
    Panel::fresh_by(engine, &records)
}

/// Anna with so many tries at most, Bert with three and Carl, whose most is unset.
fn floor(engine: Engine, most: u8) -> Panel {
    let credentials = [
        ANNA.credential(most),
        BERT.credential(3),
        CARL.credential(0),
    ];
    floor_of(engine, &credentials)
}

/// Disable and wrong tries as the state holds them, side by side.
fn card(panel: &Panel, person: Person) -> [u8; 2] {
    let held = panel.state_of(kind::CREDENTIAL, person.0);
    let at = credential_state::CREDENTIAL_DISABLE;
    [held[at], held[at + 1]]
}

fn card_mut(panel: &mut Panel, person: Person) -> &mut [u8] {
    let index = find(&panel.site, kind::CREDENTIAL, person.0).expect("the site holds the card");
    state_at_mut(&panel.site, &mut panel.state, index)
}

/// Failures and lock of a door, its lock time and its first failure.
fn failures(panel: &Panel, door: u32) -> (u8, u8, u32, u32) {
    let held = panel.state_of(kind::POINT, door);
    (
        held[point_state::FAILED_ATTEMPTS],
        held[point_state::LOCKOUT],
        get32(held, point_state::LOCK_TIME),
        get32(held, point_state::FIRST_FAILURE),
    )
}

/// No failure was ever counted at a door.
const NO_FAILURES: (u8, u8, u32, u32) = (0, 0, 0, 0);

/// Works a read at a door without zones and compares the whole answer.
fn expect(panel: &mut Panel, entry: EntryFields, event: u16, marks: u8, credential: u32) {
    let held = panel.state_of(kind::POINT, entry.instance);
    let expected = Answer {
        event,
        marks,
        tag: get32(held, point_state::ACCESS_EVENT_TAG) + 1,
        credential,
        ..Answer::EMPTY
    };
    assert_eq!(panel.work(entry), expected, "at {}", entry.time);
}

/// Shows a card, for which the door then waits, and reads the second factor.
fn show_card_then(panel: &mut Panel, person: Person, second: EntryFields, event: u16) {
    let first = person.badge(second.time - 1, second.instance);
    expect(panel, first, event::NONE, READ, person.0);
    expect(panel, second, event, READ, person.0);
}

/// The card and a wrong code.
fn forget(panel: &mut Panel, person: Person, time: u32, door: u32) {
    show_card_then(panel, person, wrong_code(time, door), WRONG);
}

/// The card and the right code.
fn remember(panel: &mut Panel, person: Person, time: u32, door: u32, event: u16) {
    show_card_then(panel, person, person.enter_code(time, door), event);
}

fn set_disable(panel: &mut Panel, person: Person, time: u32, disable: u8) {
    let expected = Answer {
        credential: person.0,
        ..Answer::EMPTY
    };
    let entry = EntryFields::set_disable(time, person.0, disable);
    assert_eq!(panel.work(entry), expected);
}

pub fn wrong_codes_at_two_doors_count_together_and_the_third_locks_the_card_out(engine: Engine) {
    let mut panel = floor(engine, 3);
    forget(&mut panel, ANNA, 100, 1);
    assert_eq!(card(&panel, ANNA), [ENABLED, 1]);
    forget(&mut panel, ANNA, 110, 2);
    assert_eq!(card(&panel, ANNA), [ENABLED, 2]);
    forget(&mut panel, ANNA, 120, 3);
    assert_eq!(card(&panel, ANNA), [LOCKOUT, 0]);
    let held = panel.state_of(kind::CREDENTIAL, ANNA.0);
    assert_eq!(held[4..8], 120u32.to_be_bytes(), "last use");
    assert_eq!(held[16..24], [0, 132, LOCKOUT, 0, 0, 0, 0, 3]);
    assert_eq!(held[24..], [0xFF, 0xFF, 0xFF, 0xFF, 0, 0, 0, 0]);
    for door in DOORS {
        assert_eq!(failures(&panel, door), NO_FAILURES);
        remember(&mut panel, ANNA, 200, door, LOCKED_OUT);
        remember(&mut panel, BERT, 210, door, GRANTED);
        remember(&mut panel, CARL, 220, door, GRANTED);
    }
    assert_eq!(card(&panel, ANNA), [LOCKOUT, 0]);
    assert_eq!(card(&panel, BERT), [ENABLED, 0]);
}

pub fn a_code_that_comes_too_late_counts(engine: Engine) {
    let mut panel = floor(engine, 2);
    expect(&mut panel, ANNA.badge(100, 1), event::NONE, READ, ANNA.0);
    let late = ANNA.enter_code(131, 1);
    expect(&mut panel, late, LATE, READ, ANNA.0);
    assert_eq!(card(&panel, ANNA), [ENABLED, 1]);
    // Whatever comes too late: also a damaged read, which then is no failure of the door.
    expect(&mut panel, ANNA.badge(200, 2), event::NONE, READ, ANNA.0);
    let late = damaged_read(231, 2);
    expect(&mut panel, late, LATE, READ, ANNA.0);
    assert_eq!(card(&panel, ANNA), [LOCKOUT, 0]);
    assert_eq!(failures(&panel, 1), NO_FAILURES);
    assert_eq!(failures(&panel, 2), NO_FAILURES);
    remember(&mut panel, ANNA, 300, 1, LOCKED_OUT);
}

pub fn a_code_in_the_last_second_is_no_wrong_try(engine: Engine) {
    let mut panel = floor(engine, 2);
    forget(&mut panel, ANNA, 50, 1);
    expect(&mut panel, ANNA.badge(100, 1), event::NONE, READ, ANNA.0);
    let last = ANNA.enter_code(130, 1);
    expect(&mut panel, last, GRANTED, READ, ANNA.0);
    assert_eq!(card(&panel, ANNA), [ENABLED, 0]);
}

pub fn a_damaged_read_counts_on_the_door_and_not_on_the_card(engine: Engine) {
    let mut panel = floor(engine, 2);
    forget(&mut panel, ANNA, 90, 1);
    expect(&mut panel, ANNA.badge(100, 1), event::NONE, READ, ANNA.0);
    expect(&mut panel, damaged_read(101, 1), DAMAGED, READ, ANNA.0);
    assert_eq!(card(&panel, ANNA), [ENABLED, 1]);
    assert_eq!(failures(&panel, 1), (1, 0, 0, 101));
    expect(&mut panel, damaged_read(102, 1), DAMAGED, READ, NONE);
    assert_eq!(failures(&panel, 1), (2, 0, 0, 101));
    expect(&mut panel, ANNA.badge(103, 1), event::NONE, READ, ANNA.0);
    let marks = READ | mark::LOCKOUT_MAX_ATTEMPTS;
    expect(&mut panel, damaged_read(104, 1), DAMAGED, marks, ANNA.0);
    assert_eq!(failures(&panel, 1), (0, 1, 104, 101));
    assert_eq!(card(&panel, ANNA), [ENABLED, 1]);
}

pub fn a_card_without_a_most_is_counted_nowhere(engine: Engine) {
    let mut panel = floor(engine, 3);
    for number in 0..300 {
        let time = 100 + 10 * number;
        forget(&mut panel, CARL, time, DOORS[number as usize % 3]);
        assert_eq!(card(&panel, CARL), [ENABLED, 0]);
    }
    expect(&mut panel, CARL.badge(5_000, 1), event::NONE, READ, CARL.0);
    let late = CARL.enter_code(5_031, 1);
    expect(&mut panel, late, LATE, READ, CARL.0);
    assert_eq!(card(&panel, CARL), [ENABLED, 0]);
    for door in DOORS {
        assert_eq!(failures(&panel, door), NO_FAILURES);
        remember(&mut panel, CARL, 6_000, door, GRANTED);
    }
}

pub fn a_most_of_one_locks_out_at_once(engine: Engine) {
    let mut panel = floor(engine, 1);
    forget(&mut panel, ANNA, 100, 1);
    assert_eq!(card(&panel, ANNA), [LOCKOUT, 0]);
    remember(&mut panel, ANNA, 110, 2, LOCKED_OUT);
}

pub fn a_most_of_255_locks_out_at_the_255th_try(engine: Engine) {
    let mut panel = floor(engine, 255);
    for tries in 1..255 {
        forget(&mut panel, ANNA, 100 + 10 * u32::from(tries), 1);
        assert_eq!(card(&panel, ANNA), [ENABLED, tries]);
    }
    forget(&mut panel, ANNA, 5_000, 1);
    assert_eq!(card(&panel, ANNA), [LOCKOUT, 0]);
}

pub fn a_grant_between_begins_the_count_anew(engine: Engine) {
    let mut panel = floor(engine, 3);
    for time in [100, 200, 300] {
        forget(&mut panel, ANNA, time, 1);
        forget(&mut panel, ANNA, time + 10, 2);
        assert_eq!(card(&panel, ANNA), [ENABLED, 2]);
        // Somebody else's grant does not zero her count.
        remember(&mut panel, BERT, time + 20, 1, GRANTED);
        assert_eq!(card(&panel, ANNA), [ENABLED, 2]);
        remember(&mut panel, ANNA, time + 30, 3, GRANTED);
        assert_eq!(card(&panel, ANNA), [ENABLED, 0]);
    }
}

/// Also at a door that wants the card alone.
pub fn a_grant_for_the_card_alone_begins_the_count_anew(engine: Engine) {
    let open = Point {
        factors_wanted: factors_wanted::ONE,
        ..door(4)
    };
    let records = [door(1).record(), open.record(), ANNA.credential(3).record()];
    let records = [&records[..], &ANNA.factors()].concat();
    let mut panel = Panel::fresh_by(engine, &records);
    forget(&mut panel, ANNA, 100, 1);
    forget(&mut panel, ANNA, 110, 1);
    expect(&mut panel, ANNA.badge(120, 4), GRANTED, READ, ANNA.0);
    assert_eq!(card(&panel, ANNA), [ENABLED, 0]);
}

/// What zeroes the count is "a grant or operation 4"; a right code alone does not.
pub fn a_right_code_that_is_not_granted_leaves_the_count(engine: Engine) {
    let anna = Credential {
        expiry_time: 1_000,
        ..ANNA.credential(3)
    };
    let mut panel = floor_of(engine, &[anna]);
    forget(&mut panel, ANNA, 900, 1);
    let expired = event::DENIED_CREDENTIAL_EXPIRED;
    remember(&mut panel, ANNA, 1_010, 1, expired);
    assert_eq!(card(&panel, ANNA), [ENABLED, 1]);
    forget(&mut panel, ANNA, 1_020, 1);
    remember(&mut panel, ANNA, 1_030, 1, expired);
    forget(&mut panel, ANNA, 1_040, 1);
    assert_eq!(card(&panel, ANNA), [LOCKOUT, 0]);
    // Expiry is asked before the disable.
    remember(&mut panel, ANNA, 1_050, 1, expired);
}

pub fn a_disabled_code_is_no_wrong_try(engine: Engine) {
    let [badge, code] = ANNA.factors();
    let lost = Factor {
        role: factor_role::CONFIRMING,
        disable: factor_disable::DISABLED_LOST,
        ..Factor::new(ANNA.0, NOBODYS_CODE)
    };
    let anna = ANNA.credential(2).record();
    let records = [door(1).record(), anna, badge, code, lost.record()];
    let mut panel = Panel::fresh_by(engine, &records);
    for time in [100, 110, 120] {
        let event = event::DENIED_AUTHENTICATION_FACTOR_LOST;
        show_card_then(&mut panel, ANNA, wrong_code(time, 1), event);
        assert_eq!(card(&panel, ANNA), [ENABLED, 0]);
        assert_eq!(failures(&panel, 1), NO_FAILURES);
    }
}

pub fn operation_4_zeroes_the_count_whatever_it_sets(engine: Engine) {
    for disable in [&[ENABLED], &OTHER_DISABLES[..]].concat() {
        let mut panel = floor(engine, 3);
        forget(&mut panel, ANNA, 100, 1);
        forget(&mut panel, ANNA, 110, 2);
        forget(&mut panel, BERT, 120, 2);
        set_disable(&mut panel, ANNA, 130, disable);
        assert_eq!(card(&panel, ANNA), [disable, 0]);
        assert_eq!(card(&panel, BERT), [ENABLED, 1]);
        // So the third wrong code is again the first.
        forget(&mut panel, ANNA, 140, 1);
        assert_eq!(card(&panel, ANNA), [disable, 1]);
        set_disable(&mut panel, ANNA, 150, disable);
        assert_eq!(card(&panel, ANNA), [disable, 0]);
    }
}

pub fn operation_4_with_argument_0_lifts_the_lockout(engine: Engine) {
    let mut panel = floor(engine, 2);
    forget(&mut panel, ANNA, 100, 1);
    forget(&mut panel, ANNA, 110, 1);
    remember(&mut panel, ANNA, 120, 1, LOCKED_OUT);
    forget(&mut panel, ANNA, 130, 1);
    assert_eq!(card(&panel, ANNA), [LOCKOUT, 1]);
    set_disable(&mut panel, ANNA, 140, ENABLED);
    assert_eq!(card(&panel, ANNA), [ENABLED, 0]);
    forget(&mut panel, ANNA, 150, 1);
    assert_eq!(card(&panel, ANNA), [ENABLED, 1]);
    remember(&mut panel, ANNA, 160, 1, GRANTED);
}

pub fn a_card_disabled_in_another_way_becomes_locked_out_at_the_most(engine: Engine) {
    let events = [
        event::DENIED_CREDENTIAL_DISABLED,
        event::DENIED_CREDENTIAL_MANUAL_DISABLE,
        LOCKED_OUT,
    ];
    for (disable, event) in OTHER_DISABLES.into_iter().zip(events) {
        let mut panel = floor(engine, 2);
        set_disable(&mut panel, ANNA, 90, disable);
        remember(&mut panel, ANNA, 100, 1, event);
        forget(&mut panel, ANNA, 110, 1);
        assert_eq!(card(&panel, ANNA), [disable, 1]);
        forget(&mut panel, ANNA, 120, 2);
        assert_eq!(card(&panel, ANNA), [LOCKOUT, 0]);
        remember(&mut panel, ANNA, 130, 3, LOCKED_OUT);
    }
}

/// Between two failures of the door there are wrong and late codes, which neither add to them nor
/// renew the window.
pub fn the_doors_own_failures_and_window_are_left_alone(engine: Engine) {
    let mut panel = floor(engine, 255);
    expect(&mut panel, unknown_card(100, 1), UNKNOWN, READ, NONE);
    for time in [110, 120, 130, 140] {
        forget(&mut panel, ANNA, time, 1);
        forget(&mut panel, CARL, time + 2, 1);
        assert_eq!(failures(&panel, 1), (1, 0, 0, 100));
    }
    expect(&mut panel, unknown_card(160, 1), UNKNOWN, READ, NONE);
    assert_eq!(failures(&panel, 1), (2, 0, 0, 100));
    expect(&mut panel, ANNA.badge(161, 1), event::NONE, READ, ANNA.0);
    let late = ANNA.enter_code(192, 1);
    expect(&mut panel, late, LATE, READ, ANNA.0);
    assert_eq!(failures(&panel, 1), (2, 0, 0, 100));
    // The window was over at 161: this failure is a first one again.
    expect(&mut panel, unknown_card(200, 1), UNKNOWN, READ, NONE);
    assert_eq!(failures(&panel, 1), (1, 0, 0, 200));
    assert_eq!(card(&panel, ANNA), [ENABLED, 5]);
    remember(&mut panel, BERT, 210, 1, GRANTED);
    assert_eq!(failures(&panel, 1), (0, 0, 0, 200));
    assert_eq!(card(&panel, ANNA), [ENABLED, 5]);
}

pub fn unknown_cards_still_lock_the_door_with_mark_16(engine: Engine) {
    let relinquishing = Point {
        lockout_relinquish_time: 60,
        ..door(1)
    };
    let records = [relinquishing.record(), ANNA.credential(3).record()];
    let mut panel = Panel::fresh_by(engine, &[&records[..], &ANNA.factors()].concat());
    forget(&mut panel, ANNA, 90, 1);
    for time in [100, 110] {
        expect(&mut panel, unknown_card(time, 1), UNKNOWN, READ, NONE);
    }
    let marks = READ | mark::LOCKOUT_MAX_ATTEMPTS;
    expect(&mut panel, unknown_card(120, 1), UNKNOWN, marks, NONE);
    assert_eq!(failures(&panel, 1), (0, 1, 120, 100));
    let locked = event::DENIED_LOCKOUT;
    expect(&mut panel, ANNA.badge(179, 1), locked, 0, NONE);
    let marks = READ | mark::LOCKOUT_RELINQUISHED;
    expect(&mut panel, ANNA.badge(180, 1), event::NONE, marks, ANNA.0);
    assert_eq!(failures(&panel, 1), (0, 0, 120, 100));
    assert_eq!(card(&panel, ANNA), [ENABLED, 1]);
    expect(&mut panel, wrong_code(181, 1), WRONG, READ, ANNA.0);
    assert_eq!(card(&panel, ANNA), [ENABLED, 2]);
}

/// Operation 5 drops the wait, and what comes next is no code of the card.
pub fn a_locked_door_drops_the_wait_and_counts_no_try(engine: Engine) {
    let mut panel = floor(engine, 1);
    expect(&mut panel, ANNA.badge(100, 1), event::NONE, READ, ANNA.0);
    let lock = EntryFields::set_lockout(101, 1, true);
    expect(&mut panel, lock, event::LOCKOUT_OTHER, 0, NONE);
    let locked = event::DENIED_LOCKOUT;
    expect(&mut panel, wrong_code(102, 1), locked, 0, NONE);
    let unlock = EntryFields::set_lockout(103, 1, false);
    expect(&mut panel, unlock, event::LOCKOUT_RELINQUISHED, 0, NONE);
    expect(&mut panel, wrong_code(104, 1), UNKNOWN, READ, NONE);
    assert_eq!(card(&panel, ANNA), [ENABLED, 0]);
    assert_eq!(failures(&panel, 1), (1, 0, 101, 104));
}

pub fn tries_never_age(engine: Engine) {
    const YEAR: u32 = 365 * SECONDS_PER_DAY;
    let mut panel = floor(engine, 4);
    forget(&mut panel, ANNA, 100 * YEAR, 1);
    forget(&mut panel, ANNA, 130 * YEAR, 1);
    assert_eq!(card(&panel, ANNA), [ENABLED, 2]);
    // The clock set back to its start.
    forget(&mut panel, ANNA, 1, 1);
    assert_eq!(card(&panel, ANNA), [ENABLED, 3]);
    forget(&mut panel, ANNA, NEVER - 1, 1);
    assert_eq!(card(&panel, ANNA), [LOCKOUT, 0]);
    assert_eq!(failures(&panel, 1), NO_FAILURES);
}

pub fn another_card_while_a_code_is_awaited_is_a_wrong_code_of_the_first(engine: Engine) {
    let mut panel = floor(engine, 3);
    let bert = panel.state_of(kind::CREDENTIAL, BERT.0).to_vec();
    show_card_then(&mut panel, ANNA, BERT.badge(100, 1), WRONG);
    show_card_then(&mut panel, ANNA, BERT.enter_code(110, 1), WRONG);
    assert_eq!(card(&panel, ANNA), [ENABLED, 2]);
    show_card_then(&mut panel, ANNA, ANNA.badge(120, 1), WRONG);
    assert_eq!(card(&panel, ANNA), [LOCKOUT, 0]);
    assert_eq!(panel.state_of(kind::CREDENTIAL, BERT.0), bert);
    assert_eq!(failures(&panel, 1), NO_FAILURES);
    remember(&mut panel, BERT, 130, 1, GRANTED);
}

/// Two cards are awaited at two doors at the same time, and each door counts for its own.
pub fn two_cards_at_two_doors_are_counted_each_by_itself(engine: Engine) {
    let mut panel = floor(engine, 3);
    for time in [100, 110] {
        expect(&mut panel, ANNA.badge(time, 1), event::NONE, READ, ANNA.0);
        expect(&mut panel, BERT.badge(time, 2), event::NONE, READ, BERT.0);
        expect(&mut panel, wrong_code(time + 1, 2), WRONG, READ, BERT.0);
        expect(&mut panel, wrong_code(time + 1, 1), WRONG, READ, ANNA.0);
    }
    assert_eq!(card(&panel, ANNA), [ENABLED, 2]);
    assert_eq!(card(&panel, BERT), [ENABLED, 2]);
    // One card at two doors is locked out at the one and found so at the other.
    expect(&mut panel, ANNA.badge(120, 1), event::NONE, READ, ANNA.0);
    expect(&mut panel, ANNA.badge(121, 2), event::NONE, READ, ANNA.0);
    expect(&mut panel, wrong_code(122, 2), WRONG, READ, ANNA.0);
    let code = ANNA.enter_code(123, 1);
    expect(&mut panel, code, LOCKED_OUT, READ, ANNA.0);
    assert_eq!(card(&panel, BERT), [ENABLED, 2]);
}

/// What a journal returns from the state with so many wrong tries of Anna. Turned back, it writes
/// nothing.
fn run_from(engine: Engine, most: u8, tries: u8) -> u8 {
    let mut panel = floor(engine, most);
    card_mut(&mut panel, ANNA)[credential_state::WRONG_TRIES] = tries;
    let before = panel.state.clone();
    let mut answer = [0xA5; ANSWER_LENGTH];
    let journal = ANNA.badge(100, 1).bytes();
    let returned = (engine.run_journal)(&panel.site, &mut panel.state, &journal, &mut answer);
    let is_written = panel.state != before || answer != [0xA5; ANSWER_LENGTH];
    assert_eq!(is_written, returned == refusal::ACCEPTED, "{most} {tries}");
    returned
}

pub fn a_state_is_worked_with_tries_below_the_most_alone(engine: Engine) {
    let refused = [
        (0, &[1, 2, 255][..]),
        (1, &[1, 2, 255]),
        (3, &[3, 4, 255]),
        (254, &[254, 255]),
        (255, &[255]),
    ];
    for (most, tries) in refused {
        for &tries in tries {
            let returned = run_from(engine, most, tries);
            assert_eq!(returned, refusal::STATE_FORM, "{most} {tries}");
        }
    }
    let worked = [(0, 0), (1, 0), (3, 0), (3, 2), (254, 253), (255, 254)];
    for (most, tries) in worked {
        let returned = run_from(engine, most, tries);
        assert_eq!(returned, refusal::ACCEPTED, "{most} {tries}");
    }
}

pub fn any_most_is_accepted_and_the_byte_behind_it_is_spare(engine: Engine) {
    let check = |most: u8, behind: u8| {
        let mut record = ANNA.credential(most).record();
        assert_eq!(record[credential::MOST_WRONG_TRIES], most);
        record[credential::MOST_WRONG_TRIES + 1] = behind;
        let mut state = [0xA5; RECORD_LENGTH];
        let returned = (engine.fresh_state)(&record, &mut state);
        assert_eq!((engine.check_site)(&record), returned);
        let is_fresh = state[credential_state::WRONG_TRIES] == 0;
        assert_eq!(is_fresh, returned == refusal::ACCEPTED);
        returned
    };
    for most in 0..=255 {
        assert_eq!(check(most, 0), refusal::ACCEPTED, "{most}");
    }
    for behind in [1, 2, 128, 255] {
        assert_eq!(check(0, behind), refusal::SITE_FIELD);
        assert_eq!(check(3, behind), refusal::SITE_FIELD);
    }
}

/// A counted wing: its zone, the door of the same number into it, where card and code are wanted, the
/// exit of the next number, and people with a rule that always fits and so many wrong tries at most.
fn wing(zone: u32, people: &[Person], most: u8) -> Vec<Record> {
    let mut records = wing_doors(zone).to_vec();
    records.push(Rule::new(zone).record());
    for person in people {
        let credential = Credential {
            rights: [zone, NONE],
            ..person.credential(most)
        };
        records.push(credential.record());
        records.extend(person.factors());
    }
    records
}

fn wing_doors(zone: u32) -> [Record; 3] {
    let counting = Zone {
        flags: zone_flag::OCCUPANCY_COUNT_ENABLE,
        ..Zone::new(zone)
    };
    let entry = Point {
        flags: point_flag::OCCUPANCY_COUNT_ADJUST,
        authorization_mode: authorization_mode::AUTHORIZE,
        zone_to: zone,
        ..door(zone)
    };
    let exit = Point {
        instance: exit_of(zone),
        factors_wanted: factors_wanted::ONE,
        zone_to: NONE,
        zone_from: zone,
        ..entry
    };
    [counting.record(), entry.record(), exit.record()]
}

fn exit_of(zone: u32) -> u32 {
    zone + 1
}

/// A time of the story below.
fn minute(minute: u32) -> u32 {
    at(MONDAY, 8, minute)
}

/// Anna forgets her code five times, once until it is too late, while her colleagues go in and out.
/// Each entry with event, tag, credential and count; an exit leads to no zone.
fn story() -> [(EntryFields, u16, u32, u32, u32); 22] {
    let t = minute;
    [
        (BERT.badge(t(0), 7), 0, 1, 6, 0),
        (BERT.enter_code(t(0) + 5, 7), 1, 2, 6, 1),
        (ANNA.badge(t(1), 7), 0, 3, 5, 1),
        (wrong_code(t(1) + 9, 7), 132, 4, 5, 1),
        (CARL.badge(t(2), 7), 0, 5, 7, 1),
        (CARL.enter_code(t(2) + 3, 7), 1, 6, 7, 2),
        (ANNA.badge(t(3), 7), 0, 7, 5, 2),
        (wrong_code(t(3) + 9, 7), 132, 8, 5, 2),
        (BERT.badge(t(4), 8), 1, 1, 6, 0),
        (ANNA.badge(t(5), 7), 0, 9, 5, 1),
        (ANNA.enter_code(t(5) + 31, 7), 131, 10, 5, 1),
        (ANNA.badge(t(6), 7), 0, 11, 5, 1),
        (wrong_code(t(6) + 9, 7), 132, 12, 5, 1),
        (BERT.badge(t(7), 7), 0, 13, 6, 1),
        (BERT.enter_code(t(7) + 4, 7), 1, 14, 6, 2),
        (ANNA.badge(t(8), 7), 0, 15, 5, 2),
        (wrong_code(t(8) + 9, 7), 132, 16, 5, 2),
        (CARL.badge(t(9), 8), 1, 2, 7, 0),
        (ANNA.badge(t(10), 7), 0, 17, 5, 1),
        (ANNA.enter_code(t(10) + 9, 7), 154, 18, 5, 1),
        (CARL.badge(t(11), 7), 0, 19, 7, 1),
        (CARL.enter_code(t(11) + 3, 7), 1, 20, 7, 2),
    ]
}

pub fn one_person_forgets_the_code_while_colleagues_go_in_and_out(engine: Engine) {
    let mut panel = Panel::fresh_by(engine, &wing(7, &[ANNA, BERT, CARL], 5));
    for (entry, event, tag, credential, count) in story() {
        let expected = Answer {
            event,
            marks: READ,
            tag,
            credential,
            count,
            ..Answer::EMPTY
        };
        assert_eq!(panel.work(entry), expected, "at {}", entry.time);
    }
    assert_eq!(card(&panel, ANNA), [LOCKOUT, 0]);
    assert_eq!(failures(&panel, 7), NO_FAILURES);
    // The porter lifts the lockout.
    set_disable(&mut panel, ANNA, minute(20), ENABLED);
    panel.work(ANNA.badge(minute(21), 7));
    let granted = panel.work(ANNA.enter_code(minute(21) + 9, 7));
    assert_eq!((granted.event, granted.count), (GRANTED, 3));
}

const WEST: u32 = 10;
const EAST: u32 = 20;
const WEST_PEOPLE: [Person; 2] = [Person(10), Person(11)];
const EAST_PEOPLE: [Person; 2] = [Person(20), Person(21)];

/// Wrong codes of both people, one of whom is locked out, let in again by operation 4, and granted.
fn forgetful_day(day: u32, zone: u32, people: [Person; 2]) -> Vec<EntryFields> {
    let [one, other] = people;
    let t = |minute: u32| at(day, 9, minute);
    vec![
        one.badge(t(0), zone),
        wrong_code(t(0) + 1, zone),
        other.badge(t(1), zone),
        wrong_code(t(1) + 1, zone),
        one.badge(t(2), zone),
        one.enter_code(t(2) + 31, zone),
        one.badge(t(3), zone),
        other.badge(t(3) + 1, zone),
        one.badge(t(4), zone),
        one.enter_code(t(4) + 1, zone),
        other.badge(t(5), zone),
        damaged_read(t(5) + 1, zone),
        unknown_card(t(6), zone),
        EntryFields::set_disable(t(7), one.0, ENABLED),
        one.badge(t(8), zone),
        one.enter_code(t(8) + 1, zone),
        one.badge(t(9), exit_of(zone)),
    ]
}

pub fn wrong_codes_in_the_east_wing_leave_the_west_wing_as_it_was(engine: Engine) {
    let west = wing(WEST, &WEST_PEOPLE, 3);
    let records = [west.clone(), wing(EAST, &EAST_PEOPLE, 3)].concat();
    let length = state_length(&west.concat());
    let days = [MONDAY, SUNDAY, NEXT_MONDAY];

    let mut panel = Panel::fresh_by(engine, &records);
    let fresh = panel.state.clone();
    let events = days.map(|day| {
        let answers = panel.run(&forgetful_day(day, EAST, EAST_PEOPLE));
        Vec::from_iter(answers.iter().map(|answer| answer.event))
    });
    let forgetful = [
        0, 132, 0, 132, 0, 131, 0, 132, 0, 154, 0, 148, 129, 0, 0, 1, 1,
    ];
    assert_eq!(events[0], forgetful);
    // Only the east wing's other person, never granted, goes on counting: the third day locks out.
    assert_eq!(card(&panel, EAST_PEOPLE[1]), [LOCKOUT, 0]);
    assert_eq!(panel.state[..length], fresh[..length]);

    let mut alone = Panel::fresh_by(engine, &records);
    let mut mixed = Panel::fresh_by(engine, &records);
    for day in days {
        let own = forgetful_day(day, WEST, WEST_PEOPLE);
        let others = forgetful_day(day, EAST, EAST_PEOPLE);
        let both = others.into_iter().zip(own.clone());
        let both = Vec::from_iter(both.flat_map(|(other, own)| [other, own]));
        let answers = mixed.run(&both).into_iter();
        let answers = Vec::from_iter(answers.skip(1).step_by(2));
        assert_eq!(answers, alone.run(&own));
        assert_eq!(mixed.state[..length], alone.state[..length]);
    }
    assert_eq!(card(&alone, WEST_PEOPLE[1]), [LOCKOUT, 0]);
    assert_eq!(mixed.state[length..], panel.state[length..]);
}
