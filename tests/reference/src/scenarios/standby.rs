//! An installed panel, whose state is the longer one, and the standby panel that gets it shortened over
//! the line. The installed panel is worked by this crate, the standby panel and the ways by the engine.

use super::week::{at, MONDAY};
use crate::answer::Answer;
use crate::build::{
    journal, Credential, EntryFields, Factor, Panel, Point, Record, Rule, Zone, FORMAT,
};
use crate::engine::Engine;
use crate::generate::orders_of_three;
use crate::longer;
use crate::numbers::{
    credential_disable, factor_role, factors_wanted, passback_mode, point_flag, refusal, zone_flag,
    ANSWER_LENGTH, RECORD_LENGTH,
};
use crate::one_point::{CARD, CODE};
use crate::state::is_kept;

const LAB: u32 = 7;
const DOOR: u32 = 7;
const EXIT: u32 = 8;
const ANNA: u32 = 7;
const BERT: u32 = 9;
const BERTS_CARD: [u8; 8] = [0, 0, 0, 0, 0, 0, 0, 0x66];
const WRONG: [u8; 8] = [9; 8];

/// A counted laboratory, its door, which wants card and code, and its exit.
fn zone_door_and_exit() -> [Record; 3] {
    let zone = Zone {
        flags: zone_flag::OCCUPANCY_COUNT_ENABLE,
        passback_mode: passback_mode::HARD_PASSBACK,
        ..Zone::new(LAB)
    };
    let door = Point {
        flags: point_flag::OCCUPANCY_COUNT_ADJUST,
        factors_wanted: factors_wanted::TWO,
        zone_to: LAB,
        max_failed_attempts: 3,
        factor_timeout: 30,
        ..Point::new(DOOR)
    };
    let exit = Point {
        flags: point_flag::OCCUPANCY_COUNT_ADJUST,
        zone_from: LAB,
        ..Point::new(EXIT)
    };
    [zone.record(), door.record(), exit.record()]
}

/// Somebody's credential, card and code.
fn person(instance: u32, card: [u8; 8]) -> [Record; 3] {
    let credential = Credential {
        days: 3,
        most_wrong_tries: 3,
        rights: [1, 2],
        ..Credential::new(instance)
    };
    let code = Factor {
        role: factor_role::CONFIRMING,
        ..Factor::new(instance, CODE)
    };
    let card = Factor::new(instance, card);
    [credential.record(), card.record(), code.record()]
}

/// The records of the site in a mixed order; of the 13 the state keeps 5.
fn laboratory() -> Vec<Record> {
    let [zone, door, exit] = zone_door_and_exit();
    let [anna, annas_card, annas_code] = person(ANNA, CARD);
    let [bert, berts_card, berts_code] = person(BERT, BERTS_CARD);
    let rules = [1, 2, 2, 3].map(|rights| Rule::new(rights).record());
    vec![
        annas_card, rules[0], exit, annas_code, anna, rules[1], rules[2], zone, berts_card, bert,
        berts_code, door, rules[3],
    ]
}

/// Grants, wrong codes, unknown cards and every operation, with a wait at the door between many of
/// them.
fn day() -> Vec<EntryFields> {
    let t = |minute| at(MONDAY, 8, minute);
    let read = |minute, point, value| EntryFields::read_factor(t(minute), point, FORMAT, value);
    vec![
        read(0, DOOR, CARD),
        EntryFields::read_factor(t(0) + 5, DOOR, FORMAT, CODE),
        read(1, DOOR, BERTS_CARD),
        EntryFields::read_factor(t(1) + 5, DOOR, FORMAT, WRONG),
        read(2, DOOR, WRONG),
        read(3, DOOR, WRONG),
        read(4, DOOR, BERTS_CARD),
        read(5, DOOR, CODE),
        read(6, DOOR, CARD),
        EntryFields::read_factor(t(6) + 30, DOOR, FORMAT, CODE),
        EntryFields::adjust_count(t(7), LAB, 4),
        read(8, EXIT, CARD),
        read(9, EXIT, BERTS_CARD),
        EntryFields::set_lockout(t(10), EXIT, true),
        read(11, EXIT, CARD),
        EntryFields::set_disable(t(12), BERT, credential_disable::DISABLE_MANUAL),
        read(13, DOOR, BERTS_CARD),
        EntryFields::read_factor(t(13) + 1, DOOR, FORMAT, CODE),
        EntryFields::set_lockout(t(14), EXIT, false),
        read(15, DOOR, WRONG),
        EntryFields::set_count(t(16), LAB, 2),
        read(17, DOOR, WRONG),
    ]
}

/// What the day gives: 132 and 131 for Bert, 138 for Anna while she is inside, and the door locked by
/// the third unknown card.
const DAYS_EVENTS: [u16; 22] = [
    0, 1, 0, 132, 129, 129, 0, 131, 0, 138, 0, 1, 1, 7, 161, 0, 0, 153, 8, 129, 0, 161,
];

/// A panel in the field.
struct Installed {
    site: Vec<u8>,
    longer: Vec<u8>,
}

impl Installed {
    fn fresh(site: Vec<u8>) -> Installed {
        let mut longer = vec![0; site.len()];
        let refused = longer::fresh_state(&site, &mut longer);
        assert_eq!(refused, refusal::ACCEPTED);
        Installed { site, longer }
    }

    fn run(&mut self, entries: &[EntryFields]) -> Vec<Answer> {
        let mut answers = vec![0; entries.len() * ANSWER_LENGTH];
        let journal = journal(entries);
        let refused = longer::run_journal(&self.site, &mut self.longer, &journal, &mut answers);
        assert_eq!(refused, refusal::ACCEPTED);
        let answers = answers.chunks_exact(ANSWER_LENGTH);
        answers.map(Answer::from_bytes).collect()
    }

    /// What goes over the line: so many records.
    fn shortened(&self, engine: Engine, kept: usize) -> Vec<u8> {
        let mut state = vec![0xA5; kept * RECORD_LENGTH];
        let refused = (engine.shorten_state)(&self.site, &self.longer, &mut state);
        assert_eq!(refused, refusal::ACCEPTED);
        state
    }
}

/// The longer state of a standby panel.
fn lengthened(engine: Engine, panel: &Panel) -> Vec<u8> {
    let mut longer = vec![0xA5; panel.site.len()];
    let refused = (engine.lengthen_state)(&panel.site, &panel.state, &mut longer);
    assert_eq!(refused, refusal::ACCEPTED);
    longer
}

pub fn the_standby_panel_takes_over_at_any_entry_of_a_day(engine: Engine) {
    let day = day();
    for cut in 0..=day.len() {
        let (before, after) = day.split_at(cut);
        let mut installed = Installed::fresh(laboratory().concat());
        let mut answers = installed.run(before);
        let mut standby = Panel::fresh_by(engine, &laboratory());
        standby.state = installed.shortened(engine, 5);
        let worked = standby.run(after);
        answers.extend(&worked);
        let events = Vec::from_iter(answers.iter().map(|answer| answer.event));
        assert_eq!(events, DAYS_EVENTS, "from entry {cut}");

        assert_eq!(installed.run(after), worked, "from entry {cut}");
        assert_eq!(installed.longer, lengthened(engine, &standby));
        assert_eq!(installed.shortened(engine, 5), standby.state);
    }
}

pub fn the_standby_panel_goes_on_and_hands_back_to_the_installed_one(engine: Engine) {
    let day = day();
    let mut alone = Installed::fresh(laboratory().concat());
    let mut installed = Installed::fresh(laboratory().concat());
    let mut standby = Panel::fresh_by(engine, &laboratory());
    for (turn, entries) in day.chunks(3).enumerate() {
        let worked = if turn % 2 == 0 {
            let worked = installed.run(entries);
            standby.state = installed.shortened(engine, 5);
            worked
        } else {
            let worked = standby.run(entries);
            installed.longer = lengthened(engine, &standby);
            worked
        };
        assert_eq!(worked, alone.run(entries), "turn {turn}");
        assert_eq!(installed.longer, alone.longer, "turn {turn}");
    }
}

pub fn a_fresh_state_shortened_is_the_fresh_state(engine: Engine) {
    let fresh = Panel::fresh_by(engine, &laboratory());
    let installed = Installed::fresh(laboratory().concat());
    assert_eq!(fresh.state.len(), 5 * RECORD_LENGTH);
    assert_eq!(installed.shortened(engine, 5), fresh.state);
    assert_eq!(lengthened(engine, &fresh), installed.longer);
}

pub fn a_longer_state_is_none_of_the_standby_panels(engine: Engine) {
    let Installed { site, mut longer } = Installed::fresh(laboratory().concat());
    let before = longer.clone();
    let mut answer = [0xA5; ANSWER_LENGTH];
    let entry = day()[0].bytes();
    let returned = (engine.run_journal)(&site, &mut longer, &entry, &mut answer);
    assert_eq!(returned, refusal::STATE_LENGTH);
    let returned = (engine.fresh_state)(&site, &mut longer);
    assert_eq!(returned, refusal::STATE_LENGTH);
    assert_eq!(longer, before);
    assert_eq!(answer, [0xA5; ANSWER_LENGTH]);
}

/// What shortening and lengthening return. Turned back, they write nothing.
fn assert_returned(engine: Engine, site: &[u8], longer: &[u8], state: &[u8], numbers: [u8; 2]) {
    let mut written = state.to_vec();
    let shortened = (engine.shorten_state)(site, longer, &mut written);
    assert_eq!(written == state, shortened != refusal::ACCEPTED);
    let mut written = longer.to_vec();
    let lengthened = (engine.lengthen_state)(site, state, &mut written);
    assert_eq!(written == longer, lengthened != refusal::ACCEPTED);
    assert_eq!([shortened, lengthened], numbers);
}

pub fn the_ways_are_turned_back_for_the_site_then_the_lengths_then_the_form(engine: Engine) {
    let sound = Installed::fresh(laboratory().concat());
    let (site, longer) = (&sound.site[..], &sound.longer[..]);
    let spoiled = vec![0xA5; site.len()];
    let kept = 5 * RECORD_LENGTH;
    let mut spare = site.to_vec();
    spare[RECORD_LENGTH - 1] = 1;
    let twice = [site, &site[..RECORD_LENGTH]].concat();
    // Without the credential of the first factor.
    let missing = &site[..4 * RECORD_LENGTH];
    let check = |site: &[u8], longer: &[u8], state: &[u8], number: u8| {
        assert_returned(engine, site, longer, state, [number; 2]);
    };
    check(&site[1..], &spoiled[1..], &spoiled, refusal::SITE_LENGTH);
    check(&spare, &spoiled[1..], &spoiled, refusal::SITE_FIELD);
    check(&twice, &spoiled[1..], &spoiled, refusal::SITE_TWICE);
    check(missing, &spoiled[1..], &spoiled, refusal::SITE_MISSING);
    for length in [0, kept - 32, kept - 1, kept + 1, kept + 32, site.len()] {
        check(site, &spoiled, &spoiled[..length], refusal::STATE_LENGTH);
    }
    for length in [0, kept, site.len() - 32, site.len() - 1] {
        let longer = &spoiled[..length];
        check(site, longer, &spoiled[..kept], refusal::STATE_LENGTH);
    }
    check(site, &spoiled, &spoiled[..kept], refusal::STATE_FORM);
    let form = [refusal::ACCEPTED, refusal::STATE_FORM];
    assert_returned(engine, site, longer, &spoiled[..kept], form);
}

/// The first three records are of a factor, a rule and a point, and of these the last alone is kept.
pub fn a_longer_state_with_a_byte_in_a_rule_or_factor_is_not_shortened(engine: Engine) {
    let sound = Installed::fresh(laboratory().concat());
    let state = vec![0xA5; 5 * RECORD_LENGTH];
    let form = [refusal::STATE_FORM; 2];
    for offset in 0..2 * RECORD_LENGTH {
        for byte in [1, 0x80, 0xFF] {
            let mut longer = sound.longer.clone();
            longer[offset] = byte;
            assert_returned(engine, &sound.site, &longer, &state, form);
        }
    }
    let mut longer = sound.longer.clone();
    longer[2 * RECORD_LENGTH + 31] = 1;
    assert_returned(engine, &sound.site, &longer, &state, form);
}

pub fn a_site_of_rules_alone_has_an_empty_state(engine: Engine) {
    let rules = [Rule::new(1).record(), Rule::new(2).record()];
    let mut standby = Panel::fresh_by(engine, &rules);
    assert!(standby.state.is_empty());
    let mut installed = Installed::fresh(rules.concat());
    let answers = standby.run(&day());
    assert!(answers
        .iter()
        .all(|answer| answer.refusal == refusal::ENTRY_MISSING));
    assert_eq!(installed.run(&day()), answers);
    assert!(installed.shortened(engine, 0).is_empty());
    assert_eq!(lengthened(engine, &standby), vec![0; 64]);
    let length = [refusal::STATE_LENGTH; 2];
    assert_returned(engine, &rules.concat(), &[0; 64], &[0; 32], length);
    assert_returned(engine, &rules.concat(), &[0; 64], &[0; 64], length);
}

pub fn a_site_without_rules_and_factors_has_one_form(engine: Engine) {
    let mut records = laboratory();
    records.retain(|record| is_kept(record));
    let mut standby = Panel::fresh_by(engine, &records);
    let mut installed = Installed::fresh(records.concat());
    assert_eq!(standby.run(&day()), installed.run(&day()));
    assert_eq!(standby.state, installed.longer);
    assert_eq!(installed.shortened(engine, 5), standby.state);
    assert_eq!(lengthened(engine, &standby), installed.longer);
}

/// An entry for each kind that is kept, and a card.
fn entries_of_instance_1() -> [EntryFields; 4] {
    [
        EntryFields::set_count(100, 1, 0x0102_0304),
        EntryFields::set_lockout(0x0506_0708, 1, true),
        EntryFields::set_disable(120, 1, credential_disable::DISABLE_LOCKOUT),
        EntryFields::read_factor(130, 1, FORMAT, [1; 8]),
    ]
}

pub fn three_records_in_every_order_keep_theirs(engine: Engine) {
    let mut worked = 0;
    for site in orders_of_three() {
        if (engine.check_site)(&site) != refusal::ACCEPTED {
            continue;
        }
        let (records, _) = site.as_chunks();
        let mut standby = Panel::fresh_by(engine, records);
        let mut installed = Installed::fresh(site);
        let entries = entries_of_instance_1();
        assert_eq!(standby.run(&entries), installed.run(&entries));
        let kept = standby.state.len() / RECORD_LENGTH;
        assert_eq!(installed.shortened(engine, kept), standby.state);
        assert_eq!(lengthened(engine, &standby), installed.longer);
        worked += 1;
    }
    assert_eq!(worked, 42, "the others lack the credential of their factor");
}
