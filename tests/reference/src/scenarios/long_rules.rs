//! A campus with long rule lists (document 02): 1,900 rules in one site. The rule that matters stands
//! first, last or among rules that differ from it little, so that a field of the record beside it, read
//! in place of its own, would change an answer.

use super::week::{at, MONDAY, TUESDAY};
use crate::answer::Answer;
use crate::build::{Credential, EntryFields, Factor, Panel, Point, Record, Rule, Zone, FORMAT};
use crate::engine::Engine;
use crate::numbers::{
    event, location_kind, mark, rule_flag, DAYS_PER_WEEK, EVERY_DAY, MOST_SITE_BYTES, NONE,
};

const ZONE: u8 = location_kind::ZONE;
const POINT: u8 = location_kind::POINT;

const GRANTED: u16 = event::GRANTED;
const NOT_THIS_ZONE: u16 = event::DENIED_ZONE_NO_ACCESS_RIGHTS;
const NOT_THIS_POINT: u16 = event::DENIED_POINT_NO_ACCESS_RIGHTS;
const KEPT_OUT: u16 = event::DENIED_NO_ACCESS_RIGHTS;
const NOT_NOW: u16 = event::DENIED_OUT_OF_TIME_RANGE;

/// How many rules a site has here, and where among them the one stands that matters.
const RULES: usize = 1_900;
const PLACES: [usize; 5] = [0, 1, 949, 1_898, 1_899];

/// The doors: the first leads into zone 2 and the next into zone 1, so that a zone is not the door of
/// its number. The gate leads into none, and no door into zone 3, the garden.
const DOOR: u32 = 1;
const NEXT_DOOR: u32 = 2;
const GATE: u32 = 3;
const HALL: u32 = 2;
const NEXT_HALL: u32 = 1;
const GARDEN: u32 = 3;

/// The rights numbers of the card; those of rules that are not the card's, and one without rules.
const STAFF: u32 = 8;
const NIGHT: u32 = 9;
const OTHERS: u32 = 7;
const UNRULED: u32 = 77;

/// The first card's credential; the others follow it.
const FIRST_CARD: u32 = 5;

/// A positive rule of the staff at the door, on Mondays from 8:00 to 10:00.
fn morning() -> Rule {
    Rule {
        flags: rule_flag::ENABLE,
        location_kind: POINT,
        location: DOOR,
        days: 1 << MONDAY,
        from: 480,
        to: 600,
        ..Rule::new(STAFF)
    }
}

fn negative(rule: Rule) -> Rule {
    Rule {
        flags: rule.flags | rule_flag::NEGATIVE,
        ..rule
    }
}

/// A rule at all times, there.
fn always_at(location_kind: u8, location: u32) -> Rule {
    Rule {
        flags: rule_flag::ENABLE | rule_flag::ALWAYS,
        location_kind,
        location,
        days: 0,
        ..morning()
    }
}

/// The list of one rule over and over, with another in one place.
fn list(rule: Rule, place: usize, other: Rule) -> Vec<Rule> {
    let mut rules = vec![rule; RULES];
    rules[place] = other;
    rules
}

/// Zones, doors and a card for each pair of rights numbers.
fn objects(rights: &[[u32; 2]]) -> Vec<Record> {
    let into = |instance: u32, zone_to: u32| Point {
        zone_to,
        ..Point::new(instance)
    };
    let doors = [
        into(DOOR, HALL),
        into(NEXT_DOOR, NEXT_HALL),
        into(GATE, NONE),
    ];
    let zones = [HALL, NEXT_HALL, GARDEN].map(|zone| Zone::new(zone).record());
    let mut records = zones.to_vec();
    records.extend(doors.iter().map(Point::record));
    for (card, &rights) in (FIRST_CARD..).zip(rights) {
        let credential = Credential {
            rights,
            ..Credential::new(card)
        };
        records.push(credential.record());
        records.push(Factor::new(card, value_of(card)).record());
    }
    records
}

fn value_of(card: u32) -> [u8; 8] {
    u64::from(card).to_be_bytes()
}

/// A panel of the rules before the objects and those behind them.
fn panel(engine: Engine, before: &[Rule], objects: &[Record], behind: &[Rule]) -> Panel {
    let mut records = Vec::from_iter(before.iter().map(Rule::record));
    records.extend(objects);
    records.extend(behind.iter().map(Rule::record));
    Panel::fresh_by(engine, &records)
}

/// The campus of one card with both rights numbers. The last rule is the site's last record.
fn campus(engine: Engine, rules: &[Rule]) -> Panel {
    panel(engine, &[], &objects(&[[STAFF, NIGHT]]), rules)
}

fn badge(card: u32, door: u32, time: u32) -> EntryFields {
    EntryFields::read_factor(time, door, FORMAT, value_of(card))
}

/// The card gets at each door and time the event that stands beside them.
fn expect(panel: &mut Panel, card: u32, reads: &[(u32, u32, u16)]) {
    let entries = reads.iter().map(|&(door, time, _)| badge(card, door, time));
    let answers = panel.run(&Vec::from_iter(entries));
    for (answer, (door, time, event)) in answers.into_iter().zip(reads) {
        let expected = Answer {
            event: *event,
            marks: mark::AUTHENTICATION_FACTOR_READ,
            tag: answer.tag,
            credential: card,
            ..Answer::EMPTY
        };
        assert_eq!(answer, expected, "card {card}, door {door} at {time}");
    }
}

fn monday(hour: u32, minute: u32) -> u32 {
    at(MONDAY, hour, minute)
}

/// What the morning's rule gives where the card has no other.
fn morning_alone() -> [(u32, u32, u16); 8] {
    [
        (DOOR, monday(7, 59) + 59, NOT_NOW),
        (DOOR, monday(8, 0), GRANTED),
        (DOOR, monday(9, 59) + 59, GRANTED),
        (DOOR, monday(10, 0), NOT_NOW),
        (DOOR, at(TUESDAY, 9, 0), NOT_NOW),
        (NEXT_DOOR, monday(9, 0), NOT_THIS_ZONE),
        (GATE, monday(9, 0), NOT_THIS_POINT),
        (DOOR, at(MONDAY + DAYS_PER_WEEK, 9, 0), GRANTED),
    ]
}

/// Also as the site's first record and as its last. All the others would fit, in both ways, if they
/// were the card's.
pub fn the_one_rule_of_a_card_is_found_among_1900(engine: Engine) {
    let objects = objects(&[[STAFF, NIGHT]]);
    for others in [Rule::new(OTHERS), negative(Rule::new(OTHERS))] {
        for place in PLACES {
            let rules = list(others, place, morning());
            for middle in [0, RULES / 2, RULES] {
                let (before, behind) = rules.split_at(middle);
                let mut panel = panel(engine, before, &objects, behind);
                expect(&mut panel, FIRST_CARD, &morning_alone());
            }
        }
    }
}

/// A change of one field.
type Change = fn(&mut Rule);

/// Rules that fit at the door on Monday, 9:00, each with a change of one field after which it does
/// not, and with the event where all rules are so: 136 where it still fits in place.
fn neighbours() -> [(Rule, Change, u16); 12] {
    let own = morning();
    let always = always_at(POINT, DOOR);
    let hall = always_at(ZONE, HALL);
    [
        (own, |rule| rule.rights = OTHERS, NOT_THIS_ZONE),
        (own, |rule| rule.flags = 0, NOT_THIS_ZONE),
        (own, |rule| rule.location = NEXT_DOOR, NOT_THIS_ZONE),
        (own, |rule| rule.location = GATE, NOT_THIS_ZONE),
        (own, |rule| rule.location_kind = ZONE, NOT_THIS_ZONE),
        (own, |rule| rule.days = 1 << TUESDAY, NOT_NOW),
        (own, |rule| rule.days = EVERY_DAY - 1, NOT_NOW),
        (own, |rule| rule.from = 541, NOT_NOW),
        (own, |rule| rule.to = 540, NOT_NOW),
        (always, |rule| rule.flags = rule_flag::ENABLE, NOT_NOW),
        (hall, |rule| rule.location = GARDEN, NOT_THIS_ZONE),
        (hall, |rule| rule.location_kind = POINT, NOT_THIS_ZONE),
    ]
}

/// The fitting rule is found between its neighbours, before all of them and behind all.
pub fn a_fitting_rule_among_1899_that_differ_in_one_field_grants(engine: Engine) {
    let nine = monday(9, 0);
    for (fitting, change, event) in neighbours() {
        let mut neighbour = fitting;
        change(&mut neighbour);
        let mut alone = campus(engine, &[neighbour; RULES]);
        expect(&mut alone, FIRST_CARD, &[(DOOR, nine, event)]);
        for place in PLACES {
            let mut panel = campus(engine, &list(neighbour, place, fitting));
            expect(&mut panel, FIRST_CARD, &[(DOOR, nine, GRANTED)]);
        }
    }
}

/// Before, among and behind 1,899 rules that always fit, and only in its hours, at its door.
pub fn one_negative_rule_among_1899_that_grant_denies_in_its_hours(engine: Engine) {
    let reads = [
        (DOOR, monday(7, 59) + 59, GRANTED),
        (DOOR, monday(8, 0), KEPT_OUT),
        (DOOR, monday(9, 59) + 59, KEPT_OUT),
        (DOOR, monday(10, 0), GRANTED),
        (DOOR, at(TUESDAY, 9, 0), GRANTED),
        (NEXT_DOOR, monday(9, 0), GRANTED),
        (GATE, monday(9, 0), GRANTED),
    ];
    for rights in [STAFF, NIGHT] {
        for place in PLACES {
            let kept_out = Rule {
                rights,
                ..negative(morning())
            };
            let mut panel = campus(engine, &list(Rule::new(STAFF), place, kept_out));
            expect(&mut panel, FIRST_CARD, &reads);
        }
    }
}

/// Out of their hours negative rules do not deny, and no place is named by them: 136 is for positive
/// ones. In their hours no positive one helps.
pub fn many_negative_rules_name_no_place(engine: Engine) {
    let kept_out = negative(morning());
    let mut alone = campus(engine, &[kept_out; RULES]);
    let reads = [
        (DOOR, monday(9, 0), KEPT_OUT),
        (DOOR, monday(11, 0), NOT_THIS_ZONE),
        (NEXT_DOOR, monday(9, 0), NOT_THIS_ZONE),
        (GATE, monday(9, 0), NOT_THIS_POINT),
    ];
    expect(&mut alone, FIRST_CARD, &reads);
    let positive = Rule {
        from: 540,
        to: 660,
        ..morning()
    };
    let reads = [
        (DOOR, monday(8, 59), KEPT_OUT),
        (DOOR, monday(9, 0), KEPT_OUT),
        (DOOR, monday(10, 0), GRANTED),
        (DOOR, monday(11, 0), NOT_NOW),
        (NEXT_DOOR, monday(10, 0), NOT_THIS_ZONE),
        (GATE, monday(10, 0), NOT_THIS_POINT),
    ];
    for place in PLACES {
        let mut panel = campus(engine, &list(kept_out, place, positive));
        expect(&mut panel, FIRST_CARD, &reads);
    }
}

/// The rules of the garden fit at all times and nowhere; one rule fits in one place and at no time
/// of the reads.
pub fn one_rule_in_place_among_1899_elsewhere_makes_it_136(engine: Engine) {
    let garden = always_at(ZONE, GARDEN);
    let at_doors = |events: [u16; 3]| {
        let noon = monday(12, 0);
        let doors = [DOOR, NEXT_DOOR, GATE].into_iter().zip(events);
        Vec::from_iter(doors.map(|(door, event)| (door, noon, event)))
    };
    let nowhere = at_doors([NOT_THIS_ZONE, NOT_THIS_ZONE, NOT_THIS_POINT]);
    let mut alone = campus(engine, &[garden; RULES]);
    expect(&mut alone, FIRST_CARD, &nowhere);
    let places = [
        (POINT, DOOR, [NOT_NOW, NOT_THIS_ZONE, NOT_THIS_POINT]),
        (ZONE, HALL, [NOT_NOW, NOT_THIS_ZONE, NOT_THIS_POINT]),
        (ZONE, NEXT_HALL, [NOT_THIS_ZONE, NOT_NOW, NOT_THIS_POINT]),
        (POINT, GATE, [NOT_THIS_ZONE, NOT_THIS_ZONE, NOT_NOW]),
    ];
    for (location_kind, location, events) in places {
        let rule = Rule {
            location_kind,
            location,
            ..morning()
        };
        for place in PLACES {
            let mut panel = campus(engine, &list(garden, place, rule));
            expect(&mut panel, FIRST_CARD, &at_doors(events));
        }
    }
}

/// A rule is not among what may not be there twice, and says no more for being there 1,900 times.
pub fn the_same_rule_1900_times_is_the_rule(engine: Engine) {
    let mut once = campus(engine, &[morning()]);
    let mut often = campus(engine, &[morning(); RULES]);
    expect(&mut once, FIRST_CARD, &morning_alone());
    expect(&mut often, FIRST_CARD, &morning_alone());

    let kept_out = [
        (DOOR, monday(7, 59), NOT_THIS_ZONE),
        (DOOR, monday(8, 0), KEPT_OUT),
        (DOOR, monday(10, 0), NOT_THIS_ZONE),
    ];
    expect(
        &mut campus(engine, &[negative(morning())]),
        FIRST_CARD,
        &kept_out,
    );
    let often = &[negative(morning()); RULES];
    expect(&mut campus(engine, often), FIRST_CARD, &kept_out);
}

/// The rules of a number are the card's whichever of its two numbers it is, or both. The others'
/// rules, which fit, change nothing, nor does a number without rules.
pub fn rules_of_either_rights_number_are_the_cards(engine: Engine) {
    let cards = [
        ([STAFF, NONE], GRANTED, GRANTED),
        ([STAFF, STAFF], GRANTED, GRANTED),
        ([UNRULED, STAFF], GRANTED, GRANTED),
        ([STAFF, NIGHT], GRANTED, KEPT_OUT),
        ([NIGHT, STAFF], GRANTED, KEPT_OUT),
        ([NONE, NIGHT], NOT_THIS_ZONE, KEPT_OUT),
        ([NIGHT, NIGHT], NOT_THIS_ZONE, KEPT_OUT),
        ([UNRULED, NONE], NOT_THIS_ZONE, NOT_THIS_ZONE),
        ([NONE, NONE], NOT_THIS_ZONE, NOT_THIS_ZONE),
    ];
    let objects = objects(&cards.map(|(rights, _, _)| rights));
    for place in PLACES {
        let staff = list(negative(Rule::new(OTHERS)), place, morning());
        let night = Rule {
            rights: NIGHT,
            ..negative(morning())
        };
        let mut both = list(Rule::new(OTHERS), place, night);
        both[RULES / 2] = morning();
        let mut granting = panel(engine, &[], &objects, &staff);
        let mut denying = panel(engine, &[], &objects, &both);
        for (card, (_, granted, denied)) in (FIRST_CARD..).zip(cards) {
            expect(&mut granting, card, &[(DOOR, monday(9, 0), granted)]);
            expect(&mut denying, card, &[(DOOR, monday(9, 0), denied)]);
        }
    }
}

/// 38 buildings with a zone and a door each, 50 rights numbers with a rule for each building, and 12
/// cards: as many records as a site may have.
const BUILDINGS: u32 = 38;
const RIGHTS: u32 = 50;
const CARDS: u32 = 12;

/// The zone of a building, never of its door's number.
fn zone_of(building: u32) -> u32 {
    BUILDINGS - 1 - building
}

/// From 8:00 to 18:00 on one day of the week. The next record is of the building beside it, whose
/// day is the next, and by its zone where this one is by its door.
fn building_rule(rights: u32, building: u32) -> Rule {
    let (location_kind, location) = match building % 2 {
        0 => (POINT, building),
        _ => (ZONE, zone_of(building)),
    };
    Rule {
        rights,
        flags: rule_flag::ENABLE,
        location_kind,
        location,
        days: 1 << ((rights + building) % DAYS_PER_WEEK),
        from: 480,
        to: 1_080,
    }
}

/// The rights numbers of a card. Its second day in a building is four days after the first.
fn rights_of(card: u32) -> [u32; 2] {
    [card, card + 25]
}

fn full_site() -> Vec<Record> {
    let mut records = Vec::new();
    for building in 0..BUILDINGS {
        let door = Point {
            zone_to: zone_of(building),
            ..Point::new(building)
        };
        records.push(Zone::new(building).record());
        records.push(door.record());
    }
    for rights in 0..RIGHTS {
        let rules = (0..BUILDINGS).map(|building| building_rule(rights, building));
        records.extend(rules.map(|rule| rule.record()));
    }
    for card in 0..CARDS {
        let credential = Credential {
            rights: rights_of(card),
            ..Credential::new(card)
        };
        records.push(credential.record());
        records.push(Factor::new(card, value_of(card)).record());
    }
    records
}

/// Every card at every door on every day of a week, at noon and after the hours.
pub fn a_full_campus_lets_each_card_in_on_its_two_days(engine: Engine) {
    let records = full_site();
    assert_eq!(records.concat().len(), MOST_SITE_BYTES);
    let mut panel = Panel::fresh_by(engine, &records);
    for card in 0..CARDS {
        let mut reads = Vec::new();
        for building in 0..BUILDINGS {
            for day in 0..DAYS_PER_WEEK {
                let first = (card + building) % DAYS_PER_WEEK;
                let is_let_in = [first, (first + 4) % DAYS_PER_WEEK].contains(&day);
                let event = if is_let_in { GRANTED } else { NOT_NOW };
                reads.push((building, at(day, 12, 0), event));
                reads.push((building, at(day, 18, 0), NOT_NOW));
            }
        }
        let granted = reads.iter().filter(|(_, _, event)| *event == GRANTED);
        assert_eq!(granted.count(), 76);
        expect(&mut panel, card, &reads);
    }
}
