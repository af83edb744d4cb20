//! Passes by days of admission, as congress guests meet them at a door (document 02).

use super::week::{at, FRIDAY, MONDAY, SATURDAY, SUNDAY, THURSDAY, TUESDAY, WEDNESDAY};
use crate::build::{Credential, Factor, Panel, Point, Rule};
use crate::bytes::{get16, get32, put32};
use crate::engine::Engine;
use crate::layout::credential_state;
use crate::numbers::{
    event, kind, refusal, rule_flag, ANSWER_LENGTH, EVERY_DAY, NEVER, NONE, UNLIMITED,
};
use crate::one_point::{badge, open_point, CARD};
use crate::site::find;
use crate::state::state_at_mut;

/// The rights number of the hours in which the hall is open.
const HOURS: u32 = 9;

const GRANTED: u16 = event::GRANTED;
/// Outside the hours of the hall.
const CLOSED: u16 = event::DENIED_OUT_OF_TIME_RANGE;
/// No day left.
const SPENT: u16 = event::DENIED_CREDENTIAL_MAX_DAYS;

/// Credential 5 with a pass of so many days.
fn pass(days: u16) -> Credential {
    Credential {
        days,
        rights: [HOURS, NONE],
        ..Credential::new(5)
    }
}

fn panel(engine: Engine, point: Point, credential: Credential) -> Panel {
    // 09:00 to 18:00.
    let hours = Rule {
        flags: rule_flag::ENABLE | rule_flag::EVERYWHERE,
        days: EVERY_DAY,
        from: 540,
        to: 1_080,
        ..Rule::new(HOURS)
    };
    Panel::fresh_by(
        engine,
        &[
            point.record(),
            hours.record(),
            credential.record(),
            Factor::new(credential.instance, CARD).record(),
        ],
    )
}

/// The door of the hall, which grants from 09:00 to 18:00.
fn hall(engine: Engine, credential: Credential) -> Panel {
    panel(engine, Point::new(1), credential)
}

/// A door that grants at all hours.
fn gate(engine: Engine, credential: Credential) -> Panel {
    panel(engine, open_point(), credential)
}

/// Reads the card; hands back the event, the days left and the last grant.
fn read(panel: &mut Panel, time: u32) -> (u16, u16, u32) {
    let event = panel.work(badge(time)).event;
    let held = panel.state_of(kind::CREDENTIAL, 5);
    let days = get16(held, credential_state::DAYS_REMAINING);
    (event, days, last_grant(panel))
}

fn last_grant(panel: &Panel) -> u32 {
    let held = panel.state_of(kind::CREDENTIAL, 5);
    get32(held, credential_state::LAST_GRANT_TIME)
}

fn last_use(panel: &Panel) -> u32 {
    let held = panel.state_of(kind::CREDENTIAL, 5);
    get32(held, credential_state::LAST_USE_TIME)
}

/// The card's state record, to be written by hand.
fn held_mut(panel: &mut Panel) -> &mut [u8] {
    let index = find(&panel.site, kind::CREDENTIAL, 5).expect("the site holds the card");
    state_at_mut(&panel.site, &mut panel.state, index)
}

fn put_last_grant(panel: &mut Panel, time: u32) {
    put32(held_mut(panel), credential_state::LAST_GRANT_TIME, time);
}

pub fn denied_at_08_00_and_granted_at_10_00_takes_a_day(engine: Engine) {
    let mut panel = hall(engine, pass(3));
    assert_eq!(last_grant(&panel), NEVER);
    let (eight, ten) = (at(MONDAY, 8, 0), at(MONDAY, 10, 0));
    assert_eq!(read(&mut panel, eight), (CLOSED, 3, NEVER));
    assert_eq!(last_use(&panel), eight);
    assert_eq!(read(&mut panel, ten), (GRANTED, 2, ten));
    assert_eq!(last_use(&panel), ten);
}

pub fn granted_twice_on_one_date_takes_one_day(engine: Engine) {
    let mut panel = hall(engine, pass(3));
    for (hour, minute) in [(9, 0), (9, 0), (12, 30), (17, 59)] {
        let time = at(MONDAY, hour, minute);
        assert_eq!(read(&mut panel, time), (GRANTED, 2, time));
    }
}

pub fn granted_then_denied_and_granted_on_the_next_date_takes_a_second_day(engine: Engine) {
    let mut panel = hall(engine, pass(3));
    let (monday, tuesday) = (at(MONDAY, 10, 0), at(TUESDAY, 10, 0));
    assert_eq!(read(&mut panel, monday), (GRANTED, 2, monday));
    let early = at(TUESDAY, 8, 0);
    assert_eq!(read(&mut panel, early), (CLOSED, 2, monday));
    assert_eq!(read(&mut panel, tuesday), (GRANTED, 1, tuesday));
}

pub fn a_pass_of_one_day_ends_with_its_first_grant(engine: Engine) {
    let mut panel = gate(engine, pass(1));
    let first = at(TUESDAY, 10, 0);
    assert_eq!(read(&mut panel, first), (GRANTED, 0, first));
    let later = [
        first,
        at(TUESDAY, 10, 1),
        at(TUESDAY, 23, 59),
        at(WEDNESDAY, 0, 0),
        at(SUNDAY, 10, 0),
        // The clock set back a day.
        at(MONDAY, 10, 0),
    ];
    for time in later {
        assert_eq!(read(&mut panel, time), (SPENT, 0, first), "at {time}");
    }
}

pub fn the_clock_set_back_a_day_takes_none_and_the_way_forward_takes_one_again(engine: Engine) {
    let mut panel = gate(engine, pass(5));
    let (monday, tuesday) = (at(MONDAY, 10, 0), at(TUESDAY, 10, 0));
    assert_eq!(read(&mut panel, tuesday), (GRANTED, 4, tuesday));
    assert_eq!(read(&mut panel, monday), (GRANTED, 4, monday), "set back");
    assert_eq!(read(&mut panel, tuesday), (GRANTED, 3, tuesday), "forward");
    // Within a date the clock makes no difference.
    let earlier = at(TUESDAY, 9, 0);
    assert_eq!(read(&mut panel, earlier), (GRANTED, 3, earlier));
    assert_eq!(read(&mut panel, tuesday), (GRANTED, 3, tuesday));
}

pub fn unlimited_days_never_fall_but_last_grant_is_set(engine: Engine) {
    let mut panel = hall(engine, pass(UNLIMITED));
    for day in MONDAY..=SUNDAY {
        let before = last_grant(&panel);
        let closed = read(&mut panel, at(day, 8, 0));
        assert_eq!(closed, (CLOSED, UNLIMITED, before));
        for hour in [10, 14] {
            let time = at(day, hour, 0);
            assert_eq!(read(&mut panel, time), (GRANTED, UNLIMITED, time));
        }
    }
}

/// As a state has it that was written before there was a last grant.
pub fn a_state_with_zeros_takes_no_day_on_day_0_and_one_on_day_1(engine: Engine) {
    let (monday, tuesday) = (at(MONDAY, 10, 0), at(TUESDAY, 10, 0));
    let mut panel = gate(engine, pass(3));
    put_last_grant(&mut panel, 0);
    assert_eq!(read(&mut panel, monday), (GRANTED, 3, monday));
    assert_eq!(read(&mut panel, tuesday), (GRANTED, 2, tuesday));

    let mut panel = gate(engine, pass(3));
    put_last_grant(&mut panel, 0);
    assert_eq!(read(&mut panel, tuesday), (GRANTED, 2, tuesday));
}

pub fn inactivity_counts_from_any_use_and_not_from_the_last_grant(engine: Engine) {
    let credential = Credential {
        absentee_limit: 2,
        ..pass(5)
    };
    let mut panel = hall(engine, credential);
    let (monday, thursday) = (at(MONDAY, 10, 0), at(THURSDAY, 10, 0));
    assert_eq!(read(&mut panel, monday), (GRANTED, 4, monday));
    let denied = at(WEDNESDAY, 8, 0);
    assert_eq!(read(&mut panel, denied), (CLOSED, 4, monday));
    // Three days after the last grant, and little more than one after the denial.
    assert_eq!(read(&mut panel, thursday), (GRANTED, 3, thursday));
    // A last grant just before the read does not count as a use.
    put_last_grant(&mut panel, at(SATURDAY, 9, 59));
    let absent = event::DENIED_CREDENTIAL_INACTIVITY;
    let late = at(SATURDAY, 10, 0) + 1;
    assert_eq!(read(&mut panel, late), (absent, 3, at(SATURDAY, 9, 59)));
    // That denial was a use.
    assert_eq!(read(&mut panel, late + 1), (GRANTED, 3, late + 1));
}

pub fn a_congress_guest_with_a_three_day_pass_is_let_in_on_three_days(engine: Engine) {
    let mut panel = hall(engine, pass(3));
    let mut entered = NEVER;
    for (day, left) in [(WEDNESDAY, 2), (THURSDAY, 1), (FRIDAY, 0)] {
        for minute in [0, 15, 30] {
            let closed = read(&mut panel, at(day, 8, minute));
            assert_eq!(closed, (CLOSED, left + 1, entered));
        }
        entered = at(day, 9, 5);
        assert_eq!(read(&mut panel, entered), (GRANTED, left, entered));
    }
    for time in [at(FRIDAY, 14, 0), at(SATURDAY, 8, 0), at(SATURDAY, 9, 5)] {
        assert_eq!(read(&mut panel, time), (SPENT, 0, entered));
    }
}

pub fn the_last_second_of_a_date_and_the_first_of_the_next_take_two_days(engine: Engine) {
    let mut panel = gate(engine, pass(5));
    let midnight = at(TUESDAY, 0, 0);
    let last = midnight - 1;
    assert_eq!(read(&mut panel, last), (GRANTED, 4, last));
    assert_eq!(read(&mut panel, midnight), (GRANTED, 3, midnight));
    // From its first second to its last, one date takes no other day.
    let last = at(WEDNESDAY, 0, 0) - 1;
    assert_eq!(read(&mut panel, last), (GRANTED, 3, last));
}

/// A journal is turned back for the state, and nothing is written.
fn assert_refused(engine: Engine, panel: &mut Panel) {
    let before = panel.state.clone();
    let mut answers = [0xA5; ANSWER_LENGTH];
    let journal = badge(at(TUESDAY, 10, 0)).bytes();
    let returned = (engine.run_journal)(&panel.site, &mut panel.state, &journal, &mut answers);
    assert_eq!(returned, refusal::STATE_FORM);
    assert_eq!(panel.state, before);
    assert_eq!(answers, [0xA5; ANSWER_LENGTH]);
}

pub fn a_state_with_spare_bytes_is_refused_and_one_with_any_last_grant_is_worked(engine: Engine) {
    for offset in 28..32 {
        for byte in [1, 0x80, 0xFF] {
            let mut panel = gate(engine, pass(3));
            held_mut(&mut panel)[offset] = byte;
            assert_refused(engine, &mut panel);
        }
    }
    let tuesday = at(TUESDAY, 10, 0);
    let last_grants = [
        (0, 2),
        (0xFF, 2),
        (at(TUESDAY, 0, 0) - 1, 2),
        (at(TUESDAY, 0, 0), 3),
        (at(WEDNESDAY, 0, 0), 3),
        (0xFF00_0000, 3),
        (NEVER - 1, 3),
        (NEVER, 2),
    ];
    for (last_grant, days) in last_grants {
        let mut panel = gate(engine, pass(3));
        put_last_grant(&mut panel, last_grant);
        let left = read(&mut panel, tuesday);
        assert_eq!(left, (GRANTED, days, tuesday), "from {last_grant}");
    }
}
