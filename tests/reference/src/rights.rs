//! Step 9: the access rights of a credential at a point.

use crate::numbers::{event, kind, location_kind, rule_flag, NONE};
use crate::site::{instance_of, kind_of, records, CredentialRecord, PointRecord, RuleRecord};
use crate::time::{minute_of_day, weekday, weekday_before};
use std::ops::ControlFlow;

/// Evaluates the enabled rules of both rights numbers. A negative rule that fits denies, in
/// whatever order the records stand, so all rules are seen before the positive ones decide.
pub fn check_rights(
    site: &[u8],
    credential: &CredentialRecord,
    point: &PointRecord,
    now: u32,
) -> ControlFlow<u16> {
    let mut fits = false;
    let mut fits_in_location = false;
    for rule in rules_of(site, credential) {
        if !location_fits(&rule, point) {
            continue;
        }
        let in_time = time_fits(&rule, now);
        if rule.has(rule_flag::NEGATIVE) {
            if in_time {
                return ControlFlow::Break(event::DENIED_NO_ACCESS_RIGHTS);
            }
            continue;
        }
        fits_in_location = true;
        fits |= in_time;
    }
    if fits {
        return ControlFlow::Continue(());
    }
    ControlFlow::Break(if fits_in_location {
        event::DENIED_OUT_OF_TIME_RANGE
    } else if point.zone_to() != NONE {
        event::DENIED_ZONE_NO_ACCESS_RIGHTS
    } else {
        event::DENIED_POINT_NO_ACCESS_RIGHTS
    })
}

fn rules_of<'a>(
    site: &'a [u8],
    credential: &CredentialRecord,
) -> impl Iterator<Item = RuleRecord<'a>> {
    let rights = credential.rights();
    records(site)
        .filter(move |record| {
            kind_of(record) == kind::RULE && rights.contains(&instance_of(record))
        })
        .map(RuleRecord)
        .filter(|rule| rule.has(rule_flag::ENABLE))
}

fn location_fits(rule: &RuleRecord, point: &PointRecord) -> bool {
    if rule.has(rule_flag::EVERYWHERE) {
        return true;
    }
    match rule.location_kind() {
        location_kind::POINT => rule.location() == instance_of(point.0),
        _ => rule.location() == point.zone_to(),
    }
}

fn time_fits(rule: &RuleRecord, now: u32) -> bool {
    if rule.has(rule_flag::ALWAYS) {
        return true;
    }
    let (today, minute) = (weekday(now), minute_of_day(now));
    if rule.from() <= rule.to() {
        return rule.has_day(today) && rule.from() <= minute && minute < rule.to();
    }
    // It runs past midnight "and belongs to the day on which it began".
    (rule.has_day(today) && minute >= rule.from())
        || (rule.has_day(weekday_before(today)) && minute < rule.to())
}
