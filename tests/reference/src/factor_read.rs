//! Operation 1: an authentication factor read at a point, in the order of checks of document 01.

use crate::answer::Answer;
use crate::bytes::{get16, get32, put16, put32};
use crate::journal::{count_at, gain_tag};
use crate::layout::{credential_state, point_state, zone_state};
use crate::numbers::{
    authorization_mode, credential_disable, credential_flag, event, factor_disable, factor_role,
    factors_wanted, format, kind, mark, passback_mode, point_flag, MOST_COUNT, NEVER, NONE,
    SECONDS_PER_DAY, SECONDS_PER_MINUTE, UNLIMITED, UNSET,
};
use crate::rights::check_rights;
use crate::site::{
    find, instance_of, kind_of, record_at, records, CredentialRecord, FactorRecord, PointRecord,
    ZoneRecord,
};
use crate::state::State;
use crate::time::{date, elapsed};
use std::ops::ControlFlow::{self, Break, Continue};

/// One factor read. Objects are known by their place in the site.
pub struct FactorRead<'a> {
    site: &'a [u8],
    state: State<'a>,
    now: u32,
    format: u8,
    value: &'a [u8],
    point_index: usize,
    point: PointRecord<'a>,
    zone_to: Option<usize>,
    zone_from: Option<usize>,
    /// Whether the entry found the point waiting.
    waiting: bool,
    /// The credential that the answer names: the one waited for, else the one matched.
    credential: Option<usize>,
    marks: u8,
}

impl<'a> FactorRead<'a> {
    pub fn new(
        site: &'a [u8],
        state: State<'a>,
        point_index: usize,
        now: u32,
        format: u8,
        value: &'a [u8],
    ) -> FactorRead<'a> {
        let point = PointRecord(record_at(site, point_index));
        let waited_for = get32(state.at(point_index), point_state::WAITING_CREDENTIAL);
        FactorRead {
            site,
            state,
            now,
            format,
            value,
            point_index,
            point,
            zone_to: find_unless_none(site, kind::ZONE, point.zone_to()),
            zone_from: find_unless_none(site, kind::ZONE, point.zone_from()),
            waiting: waited_for != NONE,
            credential: find_unless_none(site, kind::CREDENTIAL, waited_for),
            marks: 0,
        }
    }

    /// Works the entry and hands back its answer.
    pub fn answer(mut self) -> Answer {
        if self.point.has(point_flag::OUT_OF_SERVICE) {
            return Answer {
                tag: get32(self.point_state(), point_state::ACCESS_EVENT_TAG),
                count: self.count_of_zone_to(),
                ..Answer::EMPTY
            };
        }
        let tag = gain_tag(self.point_state_mut());
        let event = match self.checks() {
            Break(event) => event,
            Continue(credential) => self.grant(credential),
        };
        self.count_failure(event);
        self.count_wrong_try(event);
        self.record_use(event);
        Answer {
            event,
            marks: self.marks,
            tag,
            credential: self.credential_named(),
            count: self.count_of_zone_to(),
            ..Answer::EMPTY
        }
    }

    /// Steps 1 to 11; the first that gives an event ends the checks. Else the position of the
    /// credential that is granted access.
    fn checks(&mut self) -> ControlFlow<u16, usize> {
        self.check_lockout()?;
        self.marks |= mark::AUTHENTICATION_FACTOR_READ;
        self.check_read()?;
        let index = self.match_factor()?;
        let credential = CredentialRecord(record_at(self.site, index));
        self.wait_for_second(&credential)?;
        self.check_active(index, &credential)?;
        if !credential.has(credential_flag::MASTER_EXEMPTION) {
            self.check_authorization(&credential)?;
            self.check_passback(index, &credential)?;
            self.check_limits(&credential)?;
        }
        self.check_room()?;
        Continue(index)
    }

    /// Step 1.
    fn check_lockout(&mut self) -> ControlFlow<u16> {
        if self.point_state()[point_state::LOCKOUT] == 0 {
            return Continue(());
        }
        let relinquish = self.point.lockout_relinquish_time();
        let locked_for = self.elapsed_since(point_state::LOCK_TIME);
        if relinquish == UNSET || locked_for < relinquish {
            return Break(event::DENIED_LOCKOUT);
        }
        let point = self.point_state_mut();
        point[point_state::LOCKOUT] = 0;
        point[point_state::FAILED_ATTEMPTS] = 0;
        self.marks |= mark::LOCKOUT_RELINQUISHED;
        Continue(())
    }

    /// Step 2.
    fn check_read(&mut self) -> ControlFlow<u16> {
        let timeout = self.point.factor_timeout();
        let waited = self.elapsed_since(point_state::WAITING_SINCE);
        if self.waiting && timeout != UNSET && waited > timeout {
            self.end_wait();
            return Break(event::DENIED_AUTHENTICATION_FACTOR_TIMEOUT);
        }
        if self.format == format::ERROR {
            self.end_wait();
            return Break(event::DENIED_AUTHENTICATION_FACTOR_ERROR);
        }
        Continue(())
    }

    /// Step 3: the position of the credential that the factor belongs to.
    fn match_factor(&mut self) -> ControlFlow<u16, usize> {
        let (role, unmatched) = if self.waiting {
            self.end_wait();
            (
                factor_role::CONFIRMING,
                event::DENIED_INCORRECT_AUTHENTICATION_FACTOR,
            )
        } else {
            (factor_role::IDENTIFYING, event::DENIED_UNKNOWN_CREDENTIAL)
        };
        let Some(factor) = self.find_factor(role) else {
            return Break(unmatched);
        };
        let credential = self
            .credential
            .or_else(|| find(self.site, kind::CREDENTIAL, factor.credential()))
            .expect("an accepted site holds the credential of each factor");
        self.credential = Some(credential);
        match factor_event(factor.disable()) {
            Some(event) => Break(event),
            None => Continue(credential),
        }
    }

    /// The factor of the role with the entry's format and value; while waiting, only of the
    /// credential waited for.
    fn find_factor(&self, role: u8) -> Option<FactorRecord<'a>> {
        let waited_for = self.waiting.then(|| self.credential_named());
        records(self.site)
            .filter(|record| kind_of(record) == kind::FACTOR)
            .map(FactorRecord)
            .find(|factor| {
                factor.role() == role
                    && factor.format() == self.format
                    && factor.value() == self.value
                    && waited_for.is_none_or(|instance| factor.credential() == instance)
            })
    }

    /// Step 4.
    fn wait_for_second(&mut self, credential: &CredentialRecord) -> ControlFlow<u16> {
        if self.waiting || self.point.factors_wanted() != factors_wanted::TWO {
            return Continue(());
        }
        let now = self.now;
        let point = self.point_state_mut();
        put32(
            point,
            point_state::WAITING_CREDENTIAL,
            instance_of(credential.0),
        );
        put32(point, point_state::WAITING_SINCE, now);
        Break(event::NONE)
    }

    /// Step 5. Uses, days and disable are those of the state.
    fn check_active(&self, index: usize, credential: &CredentialRecord) -> ControlFlow<u16> {
        let held = self.state.at(index);
        if self.now < credential.activation_time() {
            return Break(event::DENIED_CREDENTIAL_NOT_YET_ACTIVE);
        }
        if self.now > credential.expiry_time() {
            return Break(event::DENIED_CREDENTIAL_EXPIRED);
        }
        match held[credential_state::CREDENTIAL_DISABLE] {
            credential_disable::NONE => {}
            credential_disable::DISABLE_MANUAL => {
                return Break(event::DENIED_CREDENTIAL_MANUAL_DISABLE)
            }
            credential_disable::DISABLE_LOCKOUT => return Break(event::DENIED_CREDENTIAL_LOCKOUT),
            _ => return Break(event::DENIED_CREDENTIAL_DISABLED),
        }
        if get16(held, credential_state::DAYS_REMAINING) == 0 {
            return Break(event::DENIED_CREDENTIAL_MAX_DAYS);
        }
        if get16(held, credential_state::USES_REMAINING) == 0 {
            return Break(event::DENIED_CREDENTIAL_MAX_USES);
        }
        self.check_absence(held, credential.absentee_limit())
    }

    /// Step 5, its last part. The product passes 32 bits.
    fn check_absence(&self, held: &[u8], limit: u16) -> ControlFlow<u16> {
        let last_use = get32(held, credential_state::LAST_USE_TIME);
        if limit == UNLIMITED || last_use == NEVER {
            return Continue(());
        }
        let absent = u64::from(elapsed(self.now, last_use));
        if absent > u64::from(limit) * u64::from(SECONDS_PER_DAY) {
            return Break(event::DENIED_CREDENTIAL_INACTIVITY);
        }
        Continue(())
    }

    /// Steps 7 to 9.
    fn check_authorization(&self, credential: &CredentialRecord) -> ControlFlow<u16> {
        let mode = self.point.authorization_mode();
        if mode == authorization_mode::DENY_ALL {
            return Break(event::DENIED_DENY_ALL);
        }
        if credential.threat_authority() < self.point.threat_level() {
            return Break(event::DENIED_THREAT_LEVEL);
        }
        if mode != authorization_mode::AUTHORIZE {
            return Continue(());
        }
        check_rights(self.site, credential, &self.point, self.now)
    }

    /// Step 10, passback. It asks for no counting; the product passes 32 bits.
    fn check_passback(&mut self, index: usize, credential: &CredentialRecord) -> ControlFlow<u16> {
        let held = self.state.at(index);
        let Some(zone_to) = self.zone_to else {
            return Continue(());
        };
        if credential.has(credential_flag::PASSBACK_EXEMPTION)
            || get32(held, credential_state::ZONE) != self.point.zone_to()
        {
            return Continue(());
        }
        let zone = ZoneRecord(record_at(self.site, zone_to));
        let timeout = u64::from(zone.passback_timeout()) * u64::from(SECONDS_PER_MINUTE);
        let inside_for = elapsed(self.now, get32(held, credential_state::ENTERED));
        if timeout != 0 && u64::from(inside_for) >= timeout {
            return Continue(());
        }
        match zone.passback_mode() {
            passback_mode::HARD_PASSBACK => return Break(event::DENIED_PASSBACK),
            passback_mode::SOFT_PASSBACK => self.marks |= mark::PASSBACK_DETECTED,
            _ => {}
        }
        Continue(())
    }

    /// Step 10, occupancy limits.
    fn check_limits(&self, credential: &CredentialRecord) -> ControlFlow<u16> {
        if credential.has(credential_flag::OCCUPANCY_EXEMPTION) {
            return Continue(());
        }
        let enforced = point_flag::OCCUPANCY_LOWER_LIMIT_ENFORCED;
        if let Some((zone, count)) = self.counting(self.zone_from, enforced) {
            if zone.lower_limit() != UNSET && count <= zone.lower_limit() {
                return Break(event::DENIED_LOWER_OCCUPANCY_LIMIT);
            }
        }
        let enforced = point_flag::OCCUPANCY_UPPER_LIMIT_ENFORCED;
        if let Some((zone, count)) = self.counting(self.zone_to, enforced) {
            if zone.upper_limit() != UNSET && count >= zone.upper_limit() {
                return Break(event::DENIED_UPPER_OCCUPANCY_LIMIT);
            }
        }
        Continue(())
    }

    /// Step 11, for master exemptions too.
    fn check_room(&self) -> ControlFlow<u16> {
        match self.counting(self.zone_to, point_flag::OCCUPANCY_COUNT_ADJUST) {
            Some((_, MOST_COUNT)) => Break(event::DENIED_OTHER),
            _ => Continue(()),
        }
    }

    /// The zone and its count, where the point has the flag and the zone counts.
    fn counting(&self, zone: Option<usize>, flag: u8) -> Option<(ZoneRecord<'a>, u32)> {
        let index = zone?;
        let record = ZoneRecord(record_at(self.site, index));
        (self.point.has(flag) && record.counting()).then(|| (record, count_at(&self.state, index)))
    }

    /// Step 12 and the grant.
    fn grant(&mut self, index: usize) -> u16 {
        self.adjust_counts();
        self.point_state_mut()[point_state::FAILED_ATTEMPTS] = 0;
        if self.point.has(point_flag::MUSTER_POINT) {
            self.marks |= mark::MUSTER;
        }
        let credential = CredentialRecord(record_at(self.site, index));
        if credential.has(credential_flag::EXTENDED_TIME_ENABLE) {
            self.marks |= mark::EXTENDED_PULSE_UNLOCK;
        }
        let held = self.state.at_mut(index);
        move_credential(held, &self.point, self.now);
        spend_use(held);
        spend_day(held, self.now);
        // Of the count: "a grant or operation 4 also zeroes it".
        held[credential_state::WRONG_TRIES] = 0;
        // After the day, which asks for the grant before this one.
        put32(held, credential_state::LAST_GRANT_TIME, self.now);
        event::GRANTED
    }

    fn adjust_counts(&mut self) {
        let adjust = point_flag::OCCUPANCY_COUNT_ADJUST;
        let entered = self.counting(self.zone_to, adjust);
        if let (Some(index), Some((_, count))) = (self.zone_to, entered) {
            // Step 11 has left room for one more.
            self.put_count(index, count + 1);
        }
        let left = self.counting(self.zone_from, adjust);
        if let (Some(index), Some((_, count))) = (self.zone_from, left) {
            self.put_count(index, count.saturating_sub(1));
        }
    }

    fn put_count(&mut self, zone: usize, count: u32) {
        let held = self.state.at_mut(zone);
        put32(held, zone_state::OCCUPANCY_COUNT, count);
    }

    /// Counts a failed attempt where a most is set, and locks the point at the most.
    fn count_failure(&mut self, event: u16) {
        let most = self.point.max_failed_attempts();
        if !is_failure(event) || u32::from(most) == UNSET {
            return;
        }
        let window = self.point.failed_attempts_time();
        let since_first = self.elapsed_since(point_state::FIRST_FAILURE);
        let now = self.now;
        let point = self.point_state_mut();
        let held = point[point_state::FAILED_ATTEMPTS];
        let failures = if held == 0 || (window != UNSET && since_first > window) {
            put32(point, point_state::FIRST_FAILURE, now);
            1
        } else {
            held + 1
        };
        if failures < most {
            point[point_state::FAILED_ATTEMPTS] = failures;
            return;
        }
        point[point_state::FAILED_ATTEMPTS] = 0;
        point[point_state::LOCKOUT] = 1;
        put32(point, point_state::LOCK_TIME, now);
        self.marks |= mark::LOCKOUT_MAX_ATTEMPTS;
    }

    /// "Failures 131 and 132 shall be counted for each credential, not on the point": counts a wrong
    /// try of the credential waited for, where its most is set, "without a window". "Reaching the most
    /// sets the disable to LOCKOUT and zeroes the count, without mark 16".
    fn count_wrong_try(&mut self, event: u16) {
        let Some(index) = self.credential.filter(|_| is_wrong_try(event)) else {
            return;
        };
        let most = CredentialRecord(record_at(self.site, index)).most_wrong_tries();
        if u32::from(most) == UNSET {
            return;
        }
        let held = self.state.at_mut(index);
        let tries = held[credential_state::WRONG_TRIES] + 1;
        if tries < most {
            held[credential_state::WRONG_TRIES] = tries;
            return;
        }
        held[credential_state::WRONG_TRIES] = 0;
        held[credential_state::CREDENTIAL_DISABLE] = credential_disable::DISABLE_LOCKOUT;
    }

    /// Marks the trace and writes last use, event and point of the credential named. It comes
    /// after step 5, which needs the earlier last use.
    fn record_use(&mut self, event: u16) {
        let Some(index) = self.credential else {
            return;
        };
        if CredentialRecord(record_at(self.site, index)).has(credential_flag::TRACE_FLAG) {
            self.marks |= mark::TRACE;
        }
        if event == event::NONE {
            return;
        }
        let held = self.state.at_mut(index);
        put32(held, credential_state::LAST_USE_TIME, self.now);
        put16(held, credential_state::LAST_ACCESS_EVENT, event);
        put32(
            held,
            credential_state::LAST_ACCESS_POINT,
            instance_of(self.point.0),
        );
    }

    fn end_wait(&mut self) {
        put32(
            self.point_state_mut(),
            point_state::WAITING_CREDENTIAL,
            NONE,
        );
    }

    fn credential_named(&self) -> u32 {
        self.credential
            .map_or(NONE, |index| instance_of(record_at(self.site, index)))
    }

    fn count_of_zone_to(&self) -> u32 {
        self.zone_to.map_or(0, |zone| count_at(&self.state, zone))
    }

    fn point_state(&self) -> &[u8] {
        self.state.at(self.point_index)
    }

    fn point_state_mut(&mut self) -> &mut [u8] {
        self.state.at_mut(self.point_index)
    }

    /// Elapsed since a time that the point's state record holds.
    fn elapsed_since(&self, offset: usize) -> u32 {
        elapsed(self.now, get32(self.point_state(), offset))
    }
}

/// The position of an object; NONE costs no scan.
fn find_unless_none(site: &[u8], kind: u8, instance: u32) -> Option<usize> {
    if instance == NONE {
        return None;
    }
    find(site, kind, instance)
}

/// Step 3: the event of a disabled factor.
fn factor_event(disable: u8) -> Option<u16> {
    match disable {
        factor_disable::DISABLED => Some(event::DENIED_AUTHENTICATION_FACTOR_DISABLED),
        factor_disable::DISABLED_LOST => Some(event::DENIED_AUTHENTICATION_FACTOR_LOST),
        factor_disable::DISABLED_STOLEN => Some(event::DENIED_AUTHENTICATION_FACTOR_STOLEN),
        factor_disable::DISABLED_DAMAGED => Some(event::DENIED_AUTHENTICATION_FACTOR_DAMAGED),
        factor_disable::DISABLED_DESTROYED => Some(event::DENIED_AUTHENTICATION_FACTOR_DESTROYED),
        _ => None,
    }
}

/// "129 and 148 stay on the point."
fn is_failure(event: u16) -> bool {
    matches!(
        event,
        event::DENIED_UNKNOWN_CREDENTIAL | event::DENIED_AUTHENTICATION_FACTOR_ERROR
    )
}

/// The events of a second factor that came too late or was wrong. Only a wait leads to them, so that
/// the answer names the credential waited for.
fn is_wrong_try(event: u16) -> bool {
    matches!(
        event,
        event::DENIED_AUTHENTICATION_FACTOR_TIMEOUT | event::DENIED_INCORRECT_AUTHENTICATION_FACTOR
    )
}

/// A grant's change of the credential's zone; a point without zones changes nothing.
fn move_credential(held: &mut [u8], point: &PointRecord, now: u32) {
    if point.zone_to() != NONE {
        put32(held, credential_state::ZONE, point.zone_to());
        put32(held, credential_state::ENTERED, now);
    } else if point.zone_from() != NONE {
        put32(held, credential_state::ZONE, NONE);
    }
}

fn spend_use(held: &mut [u8]) {
    let uses = get16(held, credential_state::USES_REMAINING);
    if uses != UNLIMITED {
        // Step 5 has turned back a credential without uses.
        put16(held, credential_state::USES_REMAINING, uses - 1);
    }
}

/// A grant spends a day where the credential was never granted before, or where its last grant was
/// on an earlier date. Denials have no part in it.
fn spend_day(held: &mut [u8], now: u32) {
    let days = get16(held, credential_state::DAYS_REMAINING);
    let last_grant = get32(held, credential_state::LAST_GRANT_TIME);
    if days != UNLIMITED && (last_grant == NEVER || date(now) > date(last_grant)) {
        put16(held, credential_state::DAYS_REMAINING, days - 1);
    }
}
