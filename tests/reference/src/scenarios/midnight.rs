//! Shifts that cross midnight, as the field engineer would try them at a door (document 02).

use super::week::{
    at, FRIDAY, MONDAY, NEXT_FRIDAY, NEXT_MONDAY, NEXT_SATURDAY, SATURDAY, SUNDAY, THURSDAY,
    TUESDAY, WEDNESDAY,
};
use crate::answer::Answer;
use crate::build::{Credential, Factor, Panel, Point, Rule};
use crate::engine::Engine;
use crate::numbers::{
    event, location_kind, refusal, rule_flag, EVERY_DAY, MINUTES_PER_DAY, NEVER, SECONDS_PER_MINUTE,
};
use crate::one_point::{badge, CARD};

/// 22:00 and 06:00.
const EVENING: u16 = 1_320;
const MORNING: u16 = 360;

/// The rights number of shifts, and that of a rule that always fits.
const SHIFT: u32 = 9;
const ALWAYS: u32 = 8;

/// A positive rule on one day alone.
fn shift(day: u32, from: u16, to: u16) -> Rule {
    Rule {
        flags: rule_flag::ENABLE | rule_flag::EVERYWHERE,
        days: 1 << day,
        from,
        to,
        ..Rule::new(SHIFT)
    }
}

fn negative(rule: Rule) -> Rule {
    Rule {
        flags: rule.flags | rule_flag::NEGATIVE,
        ..rule
    }
}

/// Point 1 and the cleaner's card under the rules.
fn door(engine: Engine, rules: &[Rule]) -> Panel {
    let credential = Credential {
        rights: [ALWAYS, SHIFT],
        ..Credential::new(5)
    };
    let mut records = vec![
        Point::new(1).record(),
        credential.record(),
        Factor::new(5, CARD).record(),
    ];
    records.extend(rules.iter().map(Rule::record));
    Panel::fresh_by(engine, &records)
}

/// The card gets the event at each of the times, also in the last second of its minute.
fn assert_events(panel: &mut Panel, expected: u16, times: &[u32]) {
    for &time in times {
        for time in [time, time + SECONDS_PER_MINUTE - 1] {
            let event = panel.work(badge(time)).event;
            assert_eq!(event, expected, "at {time}");
        }
    }
}

/// The card's answers in each minute of so many days from the start of the clock.
fn answers_of_days(panel: &mut Panel, days: u32) -> Vec<Answer> {
    let mut answers = Vec::new();
    for day in 0..days {
        let minutes = 0..u32::from(MINUTES_PER_DAY);
        let entries = minutes.map(|minute| badge(at(day, 0, minute)));
        answers.extend(panel.run(&Vec::from_iter(entries)));
    }
    answers
}

fn count(answers: &[Answer], event: u16) -> usize {
    answers
        .iter()
        .filter(|answer| answer.event == event)
        .count()
}

pub fn a_shift_from_friday_evening_ends_on_saturday_morning(engine: Engine) {
    let mut panel = door(engine, &[shift(FRIDAY, EVENING, MORNING)]);
    let inside = [
        at(FRIDAY, 22, 0),
        at(FRIDAY, 23, 59),
        at(SATURDAY, 0, 0),
        at(SATURDAY, 5, 59),
        at(NEXT_FRIDAY, 22, 0),
        at(NEXT_SATURDAY, 5, 59),
    ];
    assert_events(&mut panel, event::GRANTED, &inside);
    let outside = [
        at(THURSDAY, 22, 0),
        at(THURSDAY, 23, 59),
        at(FRIDAY, 0, 0),
        at(FRIDAY, 5, 59),
        at(FRIDAY, 21, 59),
        at(SATURDAY, 6, 0),
        at(SATURDAY, 22, 0),
        at(SUNDAY, 0, 0),
        at(SUNDAY, 5, 59),
    ];
    assert_events(&mut panel, event::DENIED_OUT_OF_TIME_RANGE, &outside);
}

/// Also on the first Monday, whose day before the clock does not reach.
pub fn a_shift_from_sunday_evening_ends_on_monday_morning(engine: Engine) {
    let mut panel = door(engine, &[shift(SUNDAY, EVENING, MORNING)]);
    let inside = [
        0,
        at(MONDAY, 5, 59),
        at(SUNDAY, 22, 0),
        at(SUNDAY, 23, 59),
        at(NEXT_MONDAY, 0, 0),
        at(NEXT_MONDAY, 5, 59),
    ];
    assert_events(&mut panel, event::GRANTED, &inside);
    let outside = [
        at(MONDAY, 6, 0),
        at(MONDAY, 22, 0),
        at(TUESDAY, 0, 0),
        at(SUNDAY, 0, 0),
        at(SUNDAY, 5, 59),
        at(SUNDAY, 21, 59),
        at(NEXT_MONDAY, 6, 0),
        at(NEXT_MONDAY, 22, 0),
    ];
    assert_events(&mut panel, event::DENIED_OUT_OF_TIME_RANGE, &outside);
}

/// The last time that an entry may carry is a Thursday, 06:28.
pub fn a_shift_holds_to_the_end_of_the_clock(engine: Engine) {
    let last = badge(NEVER - 1);
    let mut panel = door(engine, &[shift(WEDNESDAY, EVENING, MORNING + 29)]);
    assert_eq!(panel.work(last).event, event::GRANTED);
    let mut panel = door(engine, &[shift(WEDNESDAY, EVENING, MORNING + 28)]);
    let late = event::DENIED_OUT_OF_TIME_RANGE;
    assert_eq!(panel.work(last).event, late);
}

pub fn a_negative_shift_denies_in_both_halves_and_not_between_them(engine: Engine) {
    let kept_out = negative(shift(FRIDAY, EVENING, MORNING));
    let mut panel = door(engine, &[Rule::new(ALWAYS), kept_out]);
    let inside = [
        at(FRIDAY, 22, 0),
        at(FRIDAY, 23, 59),
        at(SATURDAY, 0, 0),
        at(SATURDAY, 5, 59),
    ];
    assert_events(&mut panel, event::DENIED_NO_ACCESS_RIGHTS, &inside);
    let outside = [
        at(FRIDAY, 0, 0),
        at(FRIDAY, 5, 59),
        at(FRIDAY, 12, 0),
        at(FRIDAY, 21, 59),
        at(SATURDAY, 6, 0),
        at(SATURDAY, 22, 0),
        at(SUNDAY, 5, 59),
    ];
    assert_events(&mut panel, event::GRANTED, &outside);
}

pub fn from_equal_to_to_never_fits(engine: Engine) {
    for minute in [0, 720, MINUTES_PER_DAY] {
        let empty = Rule {
            days: EVERY_DAY,
            ..shift(MONDAY, minute, minute)
        };
        let answers = answers_of_days(&mut door(engine, &[empty]), 2);
        let denied = count(&answers, event::DENIED_OUT_OF_TIME_RANGE);
        assert_eq!(denied, answers.len(), "{minute}");

        let rules = [Rule::new(ALWAYS), negative(empty)];
        let answers = answers_of_days(&mut door(engine, &rules), 2);
        let granted = count(&answers, event::GRANTED);
        assert_eq!(granted, answers.len(), "{minute}");
    }
}

pub fn a_shift_from_1440_is_in_the_next_days_first_hours_alone(engine: Engine) {
    let mut panel = door(engine, &[shift(FRIDAY, MINUTES_PER_DAY, MORNING)]);
    let inside = [at(SATURDAY, 0, 0), at(SATURDAY, 5, 59)];
    assert_events(&mut panel, event::GRANTED, &inside);
    let outside = [
        at(FRIDAY, 0, 0),
        at(FRIDAY, 5, 59),
        at(FRIDAY, 23, 59),
        at(SATURDAY, 6, 0),
        at(SATURDAY, 23, 59),
        at(SUNDAY, 0, 0),
    ];
    assert_events(&mut panel, event::DENIED_OUT_OF_TIME_RANGE, &outside);
}

pub fn a_shift_to_0_ends_at_midnight(engine: Engine) {
    let mut panel = door(engine, &[shift(FRIDAY, EVENING, 0)]);
    let inside = [at(FRIDAY, 22, 0), at(FRIDAY, 23, 59)];
    assert_events(&mut panel, event::GRANTED, &inside);
    let outside = [
        at(FRIDAY, 0, 0),
        at(FRIDAY, 21, 59),
        at(SATURDAY, 0, 0),
        at(SATURDAY, 5, 59),
        at(SATURDAY, 22, 0),
    ];
    assert_events(&mut panel, event::DENIED_OUT_OF_TIME_RANGE, &outside);
}

/// Shifts that leave out one minute of a day, and shifts of one minute or none.
pub fn the_longest_and_the_shortest_shift(engine: Engine) {
    let granted = |from: u16, to: u16| {
        let mut panel = door(engine, &[shift(TUESDAY, from, to)]);
        let answers = answers_of_days(&mut panel, 4);
        let first = answers
            .iter()
            .position(|answer| answer.event == event::GRANTED);
        (first, count(&answers, event::GRANTED))
    };
    let tuesday = usize::from(MINUTES_PER_DAY);
    assert_eq!(granted(1, 0), (Some(tuesday + 1), 1_439));
    assert_eq!(granted(721, 720), (Some(tuesday + 721), 1_439));
    assert_eq!(granted(1_440, 1_439), (Some(2 * tuesday), 1_439));
    assert_eq!(granted(1_440, 0), (None, 0));
    assert_eq!(granted(1_440, 1), (Some(2 * tuesday), 1));
    assert_eq!(granted(1_439, 0), (Some(tuesday + 1_439), 1));
}

pub fn the_clock_set_back_within_a_shift_and_before_it(engine: Engine) {
    let mut panel = door(engine, &[shift(FRIDAY, EVENING, MORNING)]);
    let mut event_at = |time: u32| panel.work(badge(time)).event;
    assert_eq!(event_at(at(SATURDAY, 2, 0)), event::GRANTED);
    assert_eq!(event_at(at(FRIDAY, 23, 0)), event::GRANTED);
    let late = event::DENIED_OUT_OF_TIME_RANGE;
    assert_eq!(event_at(at(FRIDAY, 21, 0)), late);
    assert_eq!(event_at(at(FRIDAY, 2, 0)), late);
    assert_eq!(event_at(at(SATURDAY, 2, 0)), event::GRANTED);
}

/// The flags of a rule at point 1 or everywhere, enabled or not, always or not.
fn flags_of_rules() -> Vec<u8> {
    let mut flags = Vec::new();
    for enable in [0, rule_flag::ENABLE] {
        for always in [0, rule_flag::ALWAYS] {
            for everywhere in [0, rule_flag::EVERYWHERE] {
                flags.push(enable | always | everywhere);
            }
        }
    }
    flags
}

fn check_hours(engine: Engine, flags: u8, from: u16, to: u16) -> u8 {
    let (location_kind, location) = if flags & rule_flag::EVERYWHERE == 0 {
        (location_kind::POINT, 1)
    } else {
        (location_kind::UNSPECIFIED, 0)
    };
    let rule = Rule {
        flags,
        location_kind,
        location,
        ..shift(FRIDAY, from, to)
    };
    let site = [Point::new(1).record(), rule.record()].concat();
    (engine.check_site)(&site)
}

pub fn hours_beyond_the_day_are_refused_and_those_in_any_order_are_not(engine: Engine) {
    let beyond = [
        (1_441, 0),
        (1_441, 1_440),
        (1_441, 1_441),
        (0, 1_441),
        (1_440, 1_441),
        (u16::MAX, 0),
        (0, u16::MAX),
    ];
    let within = [
        (0, 0),
        (0, 1_440),
        (1, 0),
        (EVENING, MORNING),
        (1_440, 0),
        (1_440, 1_439),
        (1_440, 1_440),
    ];
    for flags in flags_of_rules() {
        for (from, to) in beyond {
            let returned = check_hours(engine, flags, from, to);
            assert_eq!(returned, refusal::SITE_FIELD, "{flags} {from} {to}");
        }
        for (from, to) in within {
            let returned = check_hours(engine, flags, from, to);
            assert_eq!(returned, refusal::ACCEPTED, "{flags} {from} {to}");
        }
    }
}

/// One rule and the two that were needed before give the same answers in each minute.
pub fn one_shift_is_the_pair_of_rules_that_it_replaces(engine: Engine) {
    // In ten days Sunday's shift ends twice, on the first Monday and on the second.
    for (day, next, minutes) in [(FRIDAY, SATURDAY, 480), (SUNDAY, MONDAY, 840)] {
        let one = [shift(day, EVENING, MORNING)];
        let pair = [
            shift(day, EVENING, MINUTES_PER_DAY),
            shift(next, 0, MORNING),
        ];
        let answers = answers_of_days(&mut door(engine, &one), 10);
        assert_eq!(answers, answers_of_days(&mut door(engine, &pair), 10));
        assert_eq!(count(&answers, event::GRANTED), minutes);

        let one = [vec![Rule::new(ALWAYS)], one.map(negative).to_vec()].concat();
        let pair = [vec![Rule::new(ALWAYS)], pair.map(negative).to_vec()].concat();
        let answers = answers_of_days(&mut door(engine, &one), 10);
        assert_eq!(answers, answers_of_days(&mut door(engine, &pair), 10));
        assert_eq!(count(&answers, event::DENIED_NO_ACCESS_RIGHTS), minutes);
    }
}
