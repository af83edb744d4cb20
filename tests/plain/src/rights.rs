//! Step 9: the access rights of a credential at a point.

use crate::bytes::{get16, get32, half, Record};
use crate::lookup::{Lookup, Rule};
use crate::site::Site;
use reference::layout::{point, record, rule};
use reference::numbers::{
    event, location_kind, rule_flag, DAYS_PER_WEEK, MINUTES_PER_DAY, NONE, SECONDS_PER_DAY,
    SECONDS_PER_MINUTE,
};
use std::ops::ControlFlow::{self, Break, Continue};

/// Where and when a card is shown, worked out once for all rules.
struct Place {
    /// In the machine's order, as they are compared with those of rules.
    point: u32,
    zone_to: u32,
    has_zone_to: bool,
    /// The bit of the weekday.
    day: u8,
    /// The bit of the weekday before.
    day_before: u8,
    minute: u32,
}

/// The first fitting negative rule denies, whatever the others say.
pub fn check_rights<L: Lookup>(
    site: &Site<L>,
    credential: usize,
    point: &Record,
    now: u32,
) -> ControlFlow<u16> {
    let place = Place::new(point, now);
    let (mut fits, mut fits_in_location) = (false, false);
    let denied = site.lookup.each_rule(site.records, credential, |rule| {
        if rule[record::FLAGS] & rule_flag::ENABLE == 0 || !place.is_in(rule) {
            return Continue(());
        }
        let in_time = place.is_within_hours(rule);
        if rule[record::FLAGS] & rule_flag::NEGATIVE == 0 {
            fits_in_location = true;
            fits |= in_time;
            return Continue(());
        }
        if in_time {
            return Break(());
        }
        Continue(())
    });
    if denied.is_break() {
        return Break(event::DENIED_NO_ACCESS_RIGHTS);
    }
    if fits {
        return Continue(());
    }
    Break(place.without_rights(fits_in_location))
}

impl Place {
    #[inline(always)]
    fn new(point: &Record, now: u32) -> Place {
        let weekday = now / SECONDS_PER_DAY % DAYS_PER_WEEK;
        Place {
            point: half(point, record::INSTANCE),
            zone_to: half(point, point::ZONE_TO),
            has_zone_to: get32(point, point::ZONE_TO) != NONE,
            day: 1 << weekday,
            day_before: 1 << ((weekday + DAYS_PER_WEEK - 1) % DAYS_PER_WEEK),
            minute: now / SECONDS_PER_MINUTE % u32::from(MINUTES_PER_DAY),
        }
    }

    #[inline(always)]
    fn is_in(&self, rule: &Rule) -> bool {
        if rule[record::FLAGS] & rule_flag::EVERYWHERE != 0 {
            return true;
        }
        let here = match rule[rule::LOCATION_KIND] {
            location_kind::POINT => self.point,
            _ => self.zone_to,
        };
        half(rule, rule::LOCATION) == here
    }

    #[inline(always)]
    fn is_within_hours(&self, rule: &Rule) -> bool {
        if rule[record::FLAGS] & rule_flag::ALWAYS != 0 {
            return true;
        }
        let from = u32::from(get16(rule, rule::FROM));
        let to = u32::from(get16(rule, rule::TO));
        let days = rule[rule::DAYS];
        if from > to {
            return (days & self.day != 0 && from <= self.minute)
                || (days & self.day_before != 0 && self.minute < to);
        }
        days & self.day != 0 && (from..to).contains(&self.minute)
    }

    fn without_rights(&self, fits_in_location: bool) -> u16 {
        if fits_in_location {
            return event::DENIED_OUT_OF_TIME_RANGE;
        }
        if self.has_zone_to {
            return event::DENIED_ZONE_NO_ACCESS_RIGHTS;
        }
        event::DENIED_POINT_NO_ACCESS_RIGHTS
    }
}
