//! Operation 1: a factor read at a point, in the paper's order of checks.

use crate::answer::Answer;
use crate::bytes::{get16, get32, put16, put32, Record};
use crate::journal::{count_of, gain_tag};
use crate::lookup::{Lookup, Object, OWNER, ZONE_FROM, ZONE_TO};
use crate::rights::check_rights;
use crate::site::Site;
use reference::layout::{
    credential, credential_state, factor, point, point_state, record, zone, zone_state,
};
use reference::numbers::{
    authorization_mode, credential_disable, credential_flag, event, factor_disable, factors_wanted,
    format, kind, mark, passback_mode, point_flag, zone_flag, MOST_COUNT, NEVER, NONE,
    SECONDS_PER_DAY, SECONDS_PER_MINUTE, UNLIMITED, UNSET,
};
use std::ops::ControlFlow::{self, Break, Continue};

/// One read.
pub struct FactorRead<'a, L> {
    site: &'a Site<'a, L>,
    state: &'a mut [Record],
    now: u32,
    object: Object,
    point: &'a Record,
    zone_to: Option<Object>,
    /// The credential that the point waits for, or NONE.
    waited_for: u32,
    /// The credential that the answer names.
    named: Option<Object>,
    marks: u8,
}

impl<'a, L: Lookup> FactorRead<'a, L> {
    #[inline]
    pub fn new(
        site: &'a Site<'a, L>,
        state: &'a mut [Record],
        object: Object,
        now: u32,
    ) -> FactorRead<'a, L> {
        FactorRead {
            now,
            object,
            point: &site.records[object.record],
            zone_to: site.lookup.named(site.records, object.record, &ZONE_TO),
            waited_for: get32(&state[object.part], point_state::WAITING_CREDENTIAL),
            named: None,
            marks: 0,
            site,
            state,
        }
    }

    pub fn answer(mut self, format: u8, value: u64) -> Answer {
        if self.has(point_flag::OUT_OF_SERVICE) {
            return Answer {
                tag: get32(self.held(), point_state::ACCESS_EVENT_TAG),
                count: self.count_of_zone_to(),
                ..Answer::EMPTY
            };
        }
        let tag = gain_tag(self.held_mut());
        if self.is_waiting() {
            self.named = self.site.find(kind::CREDENTIAL, self.waited_for);
        }
        let event = match self.checks(format, value) {
            Break(event) => event,
            Continue(()) => event::GRANTED,
        };
        self.count_failure(event);
        self.count_wrong_try(event);
        Answer {
            event,
            tag,
            credential: self.record_use(event),
            marks: self.marks,
            count: self.count_of_zone_to(),
            ..Answer::EMPTY
        }
    }

    /// All steps, and what a grant changes.
    fn checks(&mut self, format: u8, value: u64) -> ControlFlow<u16> {
        self.check_lockout()?;
        self.marks |= mark::AUTHENTICATION_FACTOR_READ;
        self.check_read(format)?;
        let Object { record, part } = self.match_factor(format, value)?;
        let holder = &self.site.records[record];
        self.wait_for_second(holder)?;
        self.check_active(holder, part)?;
        let zone_from = self
            .site
            .lookup
            .named(self.site.records, self.object.record, &ZONE_FROM);
        if holder[record::FLAGS] & credential_flag::MASTER_EXEMPTION == 0 {
            self.check_authorization(holder, record)?;
            self.check_passback(holder, part)?;
            self.check_limits(holder, zone_from)?;
        }
        self.adjust_counts(zone_from)?;
        self.grant(holder, part);
        Continue(())
    }

    #[inline]
    fn has(&self, flag: u8) -> bool {
        self.point[record::FLAGS] & flag != 0
    }

    #[inline]
    fn is_waiting(&self) -> bool {
        self.waited_for != NONE
    }

    #[inline]
    fn held(&self) -> &Record {
        &self.state[self.object.part]
    }

    #[inline]
    fn held_mut(&mut self) -> &mut Record {
        &mut self.state[self.object.part]
    }

    /// Elapsed since a time that the point's state holds.
    #[inline]
    fn elapsed_since(&self, offset: usize) -> u32 {
        self.now.saturating_sub(get32(self.held(), offset))
    }

    #[inline]
    fn end_wait(&mut self) {
        put32(self.held_mut(), point_state::WAITING_CREDENTIAL, NONE);
    }

    /// Step 1.
    #[inline]
    fn check_lockout(&mut self) -> ControlFlow<u16> {
        if self.held()[point_state::LOCKOUT] == 0 {
            return Continue(());
        }
        let relinquish = get32(self.point, point::LOCKOUT_RELINQUISH_TIME);
        if relinquish == UNSET || self.elapsed_since(point_state::LOCK_TIME) < relinquish {
            return Break(event::DENIED_LOCKOUT);
        }
        let held = self.held_mut();
        held[point_state::LOCKOUT] = 0;
        held[point_state::FAILED_ATTEMPTS] = 0;
        self.marks |= mark::LOCKOUT_RELINQUISHED;
        Continue(())
    }

    /// Step 2.
    #[inline]
    fn check_read(&mut self, format: u8) -> ControlFlow<u16> {
        let timeout = u32::from(get16(self.point, point::FACTOR_TIMEOUT));
        if self.is_waiting()
            && timeout != UNSET
            && self.elapsed_since(point_state::WAITING_SINCE) > timeout
        {
            self.end_wait();
            return Break(event::DENIED_AUTHENTICATION_FACTOR_TIMEOUT);
        }
        if format == format::ERROR {
            self.end_wait();
            return Break(event::DENIED_AUTHENTICATION_FACTOR_ERROR);
        }
        Continue(())
    }

    /// Step 3: the credential of the factor.
    #[inline]
    fn match_factor(&mut self, format: u8, value: u64) -> ControlFlow<u16, Object> {
        let (lookup, records) = (&self.site.lookup, self.site.records);
        let found = if self.is_waiting() {
            self.end_wait();
            lookup.confirming(records, self.waited_for, format, value)
        } else {
            lookup.identifying(records, format, value)
        };
        let Some(factor) = found else {
            return Break(match self.is_waiting() {
                true => event::DENIED_INCORRECT_AUTHENTICATION_FACTOR,
                false => event::DENIED_UNKNOWN_CREDENTIAL,
            });
        };
        let owner = self.named.or_else(|| lookup.named(records, factor, &OWNER));
        let owner = owner.expect("an accepted site holds the credential of each factor");
        self.named = Some(owner);
        match disabled_factor(records[factor][factor::DISABLE]) {
            Some(event) => Break(event),
            None => Continue(owner),
        }
    }

    /// Step 4.
    #[inline]
    fn wait_for_second(&mut self, holder: &Record) -> ControlFlow<u16> {
        if self.is_waiting() || self.point[point::FACTORS_WANTED] != factors_wanted::TWO {
            return Continue(());
        }
        let (now, instance) = (self.now, get32(holder, record::INSTANCE));
        let held = self.held_mut();
        put32(held, point_state::WAITING_CREDENTIAL, instance);
        put32(held, point_state::WAITING_SINCE, now);
        Break(event::NONE)
    }

    /// Step 5. Uses, days and disable are the state's.
    #[inline]
    fn check_active(&self, holder: &Record, part: usize) -> ControlFlow<u16> {
        let held = &self.state[part];
        if self.now < get32(holder, credential::ACTIVATION_TIME) {
            return Break(event::DENIED_CREDENTIAL_NOT_YET_ACTIVE);
        }
        if self.now > get32(holder, credential::EXPIRY_TIME) {
            return Break(event::DENIED_CREDENTIAL_EXPIRED);
        }
        match held[credential_state::CREDENTIAL_DISABLE] {
            credential_disable::NONE => {}
            credential_disable::DISABLE => return Break(event::DENIED_CREDENTIAL_DISABLED),
            credential_disable::DISABLE_MANUAL => {
                return Break(event::DENIED_CREDENTIAL_MANUAL_DISABLE)
            }
            _ => return Break(event::DENIED_CREDENTIAL_LOCKOUT),
        }
        if get16(held, credential_state::DAYS_REMAINING) == 0 {
            return Break(event::DENIED_CREDENTIAL_MAX_DAYS);
        }
        if get16(held, credential_state::USES_REMAINING) == 0 {
            return Break(event::DENIED_CREDENTIAL_MAX_USES);
        }
        let limit = get16(holder, credential::ABSENTEE_LIMIT);
        let last_use = get32(held, credential_state::LAST_USE_TIME);
        let absent = u64::from(self.now.saturating_sub(last_use));
        // The product passes 32 bits.
        if limit != UNLIMITED
            && last_use != NEVER
            && absent > u64::from(limit) * u64::from(SECONDS_PER_DAY)
        {
            return Break(event::DENIED_CREDENTIAL_INACTIVITY);
        }
        Continue(())
    }

    /// Steps 7 to 9.
    #[inline]
    fn check_authorization(&self, holder: &Record, record: usize) -> ControlFlow<u16> {
        let mode = self.point[point::AUTHORIZATION_MODE];
        if mode == authorization_mode::DENY_ALL {
            return Break(event::DENIED_DENY_ALL);
        }
        if holder[credential::THREAT_AUTHORITY] < self.point[point::THREAT_LEVEL] {
            return Break(event::DENIED_THREAT_LEVEL);
        }
        if mode == authorization_mode::AUTHORIZE {
            return check_rights(self.site, record, self.point, self.now);
        }
        Continue(())
    }

    /// Step 10, passback.
    #[inline]
    fn check_passback(&mut self, holder: &Record, part: usize) -> ControlFlow<u16> {
        let held = &self.state[part];
        let Some(zone_to) = self.zone_to else {
            return Continue(());
        };
        if holder[record::FLAGS] & credential_flag::PASSBACK_EXEMPTION != 0
            || get32(held, credential_state::ZONE) != get32(self.point, point::ZONE_TO)
        {
            return Continue(());
        }
        let zone = &self.site.records[zone_to.record];
        let timeout = u64::from(get32(zone, zone::PASSBACK_TIMEOUT));
        let entered = get32(held, credential_state::ENTERED);
        // The product passes 32 bits.
        if timeout != 0
            && u64::from(self.now.saturating_sub(entered))
                >= timeout * u64::from(SECONDS_PER_MINUTE)
        {
            return Continue(());
        }
        match zone[zone::PASSBACK_MODE] {
            passback_mode::HARD_PASSBACK => return Break(event::DENIED_PASSBACK),
            passback_mode::SOFT_PASSBACK => self.marks |= mark::PASSBACK_DETECTED,
            _ => {}
        }
        Continue(())
    }

    /// Step 10, limits: the lower one first.
    #[inline]
    fn check_limits(&self, holder: &Record, zone_from: Option<Object>) -> ControlFlow<u16> {
        if holder[record::FLAGS] & credential_flag::OCCUPANCY_EXEMPTION != 0 {
            return Continue(());
        }
        let lower = point_flag::OCCUPANCY_LOWER_LIMIT_ENFORCED;
        if let Some(zone) = self.counting(zone_from, lower) {
            let limit = get32(&self.site.records[zone.record], zone::OCCUPANCY_LOWER_LIMIT);
            if limit != UNSET && count_of(&self.state[zone.part]) <= limit {
                return Break(event::DENIED_LOWER_OCCUPANCY_LIMIT);
            }
        }
        let upper = point_flag::OCCUPANCY_UPPER_LIMIT_ENFORCED;
        if let Some(zone) = self.counting(self.zone_to, upper) {
            let limit = get32(&self.site.records[zone.record], zone::OCCUPANCY_UPPER_LIMIT);
            if limit != UNSET && count_of(&self.state[zone.part]) >= limit {
                return Break(event::DENIED_UPPER_OCCUPANCY_LIMIT);
            }
        }
        Continue(())
    }

    /// The zone, where it counts and the point has the flag.
    #[inline]
    fn counting(&self, zone: Option<Object>, flag: u8) -> Option<Object> {
        let counts = zone_flag::OCCUPANCY_COUNT_ENABLE;
        zone.filter(|zone| {
            self.has(flag) && self.site.records[zone.record][record::FLAGS] & counts != 0
        })
    }

    /// Step 11, for everyone, and then the counts of a grant.
    #[inline]
    fn adjust_counts(&mut self, zone_from: Option<Object>) -> ControlFlow<u16> {
        let adjust = point_flag::OCCUPANCY_COUNT_ADJUST;
        if let Some(zone) = self.counting(self.zone_to, adjust) {
            let count = count_of(&self.state[zone.part]);
            if count == MOST_COUNT {
                return Break(event::DENIED_OTHER);
            }
            put32(
                &mut self.state[zone.part],
                zone_state::OCCUPANCY_COUNT,
                count + 1,
            );
        }
        if let Some(zone) = self.counting(zone_from, adjust) {
            let count = count_of(&self.state[zone.part]).saturating_sub(1);
            put32(
                &mut self.state[zone.part],
                zone_state::OCCUPANCY_COUNT,
                count,
            );
        }
        Continue(())
    }

    /// What a grant changes besides the counts.
    #[inline]
    fn grant(&mut self, holder: &Record, part: usize) {
        self.held_mut()[point_state::FAILED_ATTEMPTS] = 0;
        if self.has(point_flag::MUSTER_POINT) {
            self.marks |= mark::MUSTER;
        }
        if holder[record::FLAGS] & credential_flag::EXTENDED_TIME_ENABLE != 0 {
            self.marks |= mark::EXTENDED_PULSE_UNLOCK;
        }
        let (zone_to, zone_from) = (
            get32(self.point, point::ZONE_TO),
            get32(self.point, point::ZONE_FROM),
        );
        let held = &mut self.state[part];
        if zone_to != NONE {
            put32(held, credential_state::ZONE, zone_to);
            put32(held, credential_state::ENTERED, self.now);
        } else if zone_from != NONE {
            put32(held, credential_state::ZONE, NONE);
        }
        held[credential_state::WRONG_TRIES] = 0;
        spend(held, self.now);
    }

    /// A failed attempt, where a most is set. At the most the point locks.
    #[inline]
    fn count_failure(&mut self, event: u16) {
        let most = self.point[point::MAX_FAILED_ATTEMPTS];
        if most == 0 || !is_failure(event) {
            return;
        }
        let window = get32(self.point, point::FAILED_ATTEMPTS_TIME);
        let is_over = window != UNSET && self.elapsed_since(point_state::FIRST_FAILURE) > window;
        let now = self.now;
        let held = self.held_mut();
        if is_over || held[point_state::FAILED_ATTEMPTS] == 0 {
            held[point_state::FAILED_ATTEMPTS] = 0;
            put32(held, point_state::FIRST_FAILURE, now);
        }
        held[point_state::FAILED_ATTEMPTS] += 1;
        if held[point_state::FAILED_ATTEMPTS] < most {
            return;
        }
        held[point_state::FAILED_ATTEMPTS] = 0;
        held[point_state::LOCKOUT] = 1;
        put32(held, point_state::LOCK_TIME, now);
        self.marks |= mark::LOCKOUT_MAX_ATTEMPTS;
    }

    /// A wrong try of the credential waited for, where its most is set. At the most it is locked out.
    #[inline]
    fn count_wrong_try(&mut self, event: u16) {
        let Some(holder) = self.named.filter(|_| is_wrong_try(event)) else {
            return;
        };
        let most = self.site.records[holder.record][credential::MOST_WRONG_TRIES];
        if most == 0 {
            return;
        }
        let held = &mut self.state[holder.part];
        held[credential_state::WRONG_TRIES] += 1;
        if held[credential_state::WRONG_TRIES] < most {
            return;
        }
        held[credential_state::WRONG_TRIES] = 0;
        held[credential_state::CREDENTIAL_DISABLE] = credential_disable::DISABLE_LOCKOUT;
    }

    /// Traces the credential named and writes its last use; hands back its instance or NONE. It
    /// comes after step 5, which needs the earlier last use.
    #[inline]
    fn record_use(&mut self, event: u16) -> u32 {
        let Some(object) = self.named else {
            return NONE;
        };
        let holder = &self.site.records[object.record];
        if holder[record::FLAGS] & credential_flag::TRACE_FLAG != 0 {
            self.marks |= mark::TRACE;
        }
        if event != event::NONE {
            let held = &mut self.state[object.part];
            put32(held, credential_state::LAST_USE_TIME, self.now);
            put16(held, credential_state::LAST_ACCESS_EVENT, event);
            let point = get32(self.point, record::INSTANCE);
            put32(held, credential_state::LAST_ACCESS_POINT, point);
        }
        get32(holder, record::INSTANCE)
    }

    #[inline]
    fn count_of_zone_to(&self) -> u32 {
        self.zone_to
            .map_or(0, |zone| count_of(&self.state[zone.part]))
    }
}

#[inline]
fn is_failure(event: u16) -> bool {
    matches!(
        event,
        event::DENIED_UNKNOWN_CREDENTIAL | event::DENIED_AUTHENTICATION_FACTOR_ERROR
    )
}

/// Events of a wait alone.
#[inline]
fn is_wrong_try(event: u16) -> bool {
    matches!(
        event,
        event::DENIED_AUTHENTICATION_FACTOR_TIMEOUT | event::DENIED_INCORRECT_AUTHENTICATION_FACTOR
    )
}

/// Step 3: the event of a disabled factor.
#[inline]
fn disabled_factor(disable: u8) -> Option<u16> {
    match disable {
        factor_disable::NONE => None,
        factor_disable::DISABLED => Some(event::DENIED_AUTHENTICATION_FACTOR_DISABLED),
        factor_disable::DISABLED_LOST => Some(event::DENIED_AUTHENTICATION_FACTOR_LOST),
        factor_disable::DISABLED_STOLEN => Some(event::DENIED_AUTHENTICATION_FACTOR_STOLEN),
        factor_disable::DISABLED_DAMAGED => Some(event::DENIED_AUTHENTICATION_FACTOR_DAMAGED),
        _ => Some(event::DENIED_AUTHENTICATION_FACTOR_DESTROYED),
    }
}

/// A grant spends a use and, where it is the first ever or on a later date than the last one, a day.
/// Step 5 has seen to it that there is one left of each. It then is the last grant itself.
#[inline]
fn spend(held: &mut Record, now: u32) {
    let uses = get16(held, credential_state::USES_REMAINING);
    if uses != UNLIMITED {
        put16(held, credential_state::USES_REMAINING, uses - 1);
    }
    let days = get16(held, credential_state::DAYS_REMAINING);
    let last_grant = get32(held, credential_state::LAST_GRANT_TIME);
    if days != UNLIMITED
        && (last_grant == NEVER || now / SECONDS_PER_DAY > last_grant / SECONDS_PER_DAY)
    {
        put16(held, credential_state::DAYS_REMAINING, days - 1);
    }
    put32(held, credential_state::LAST_GRANT_TIME, now);
}
