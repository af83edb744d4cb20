//! Site records: the readers of their fields, the lookup, and the site check.

use crate::bytes::{all_zero, get16, get32};
use crate::layout::{credential, factor, point, record, rule, zone};
use crate::numbers::{
    authorization_mode, credential_disable, credential_flag, factor_disable, factor_role,
    factors_wanted, format, kind, location_kind, passback_mode, point_flag, refusal, rule_flag,
    zone_flag, EVERY_DAY, MINUTES_PER_DAY, MOST_SITE_BYTES, MOST_THREAT_LEVEL, NONE, RECORD_LENGTH,
    VALUE_LENGTH,
};

/// The whole records of a site in file order.
pub fn records(site: &[u8]) -> impl Iterator<Item = &[u8]> {
    site.chunks_exact(RECORD_LENGTH)
}

/// The record at a position in file order.
pub fn record_at(site: &[u8], index: usize) -> &[u8] {
    &site[index * RECORD_LENGTH..(index + 1) * RECORD_LENGTH]
}

/// The position of the first record with the kind and instance.
pub fn find(site: &[u8], kind: u8, instance: u32) -> Option<usize> {
    records(site).position(|record| kind_of(record) == kind && instance_of(record) == instance)
}

pub fn exists(site: &[u8], kind: u8, instance: u32) -> bool {
    find(site, kind, instance).is_some()
}

pub fn is_real(instance: u32) -> bool {
    instance < NONE
}

pub fn kind_of(record: &[u8]) -> u8 {
    record[record::KIND]
}

pub fn instance_of(record: &[u8]) -> u32 {
    get32(record, record::INSTANCE)
}

pub fn has_flag(record: &[u8], flag: u8) -> bool {
    record[record::FLAGS] & flag != 0
}

/// Reader of a zone's fields.
#[derive(Clone, Copy)]
pub struct ZoneRecord<'a>(pub &'a [u8]);

impl ZoneRecord<'_> {
    pub fn counting(&self) -> bool {
        has_flag(self.0, zone_flag::OCCUPANCY_COUNT_ENABLE)
    }

    pub fn passback_mode(&self) -> u8 {
        self.0[zone::PASSBACK_MODE]
    }

    pub fn upper_limit(&self) -> u32 {
        get32(self.0, zone::OCCUPANCY_UPPER_LIMIT)
    }

    pub fn lower_limit(&self) -> u32 {
        get32(self.0, zone::OCCUPANCY_LOWER_LIMIT)
    }

    /// In minutes.
    pub fn passback_timeout(&self) -> u32 {
        get32(self.0, zone::PASSBACK_TIMEOUT)
    }

    fn in_range(&self) -> bool {
        self.0[record::FLAGS] & !zone_flag::NAMED == 0
            && self.passback_mode() <= passback_mode::SOFT_PASSBACK
            && self.0[3] == 0
            && is_real(instance_of(self.0))
            && all_zero(&self.0[20..])
    }
}

/// Reader of a point's fields.
#[derive(Clone, Copy)]
pub struct PointRecord<'a>(pub &'a [u8]);

impl PointRecord<'_> {
    pub fn has(&self, flag: u8) -> bool {
        has_flag(self.0, flag)
    }

    pub fn authorization_mode(&self) -> u8 {
        self.0[point::AUTHORIZATION_MODE]
    }

    pub fn factors_wanted(&self) -> u8 {
        self.0[point::FACTORS_WANTED]
    }

    pub fn zone_to(&self) -> u32 {
        get32(self.0, point::ZONE_TO)
    }

    pub fn zone_from(&self) -> u32 {
        get32(self.0, point::ZONE_FROM)
    }

    pub fn threat_level(&self) -> u8 {
        self.0[point::THREAT_LEVEL]
    }

    pub fn max_failed_attempts(&self) -> u8 {
        self.0[point::MAX_FAILED_ATTEMPTS]
    }

    /// In seconds.
    pub fn factor_timeout(&self) -> u32 {
        u32::from(get16(self.0, point::FACTOR_TIMEOUT))
    }

    /// In seconds.
    pub fn lockout_relinquish_time(&self) -> u32 {
        get32(self.0, point::LOCKOUT_RELINQUISH_TIME)
    }

    /// The failure window, in seconds.
    pub fn failed_attempts_time(&self) -> u32 {
        get32(self.0, point::FAILED_ATTEMPTS_TIME)
    }

    fn in_range(&self) -> bool {
        let (to, from) = (self.zone_to(), self.zone_from());
        self.0[record::FLAGS] & !point_flag::NAMED == 0
            && self.authorization_mode() <= authorization_mode::DENY_ALL
            && (factors_wanted::ONE..=factors_wanted::TWO).contains(&self.factors_wanted())
            && is_real(instance_of(self.0))
            && to <= NONE
            && from <= NONE
            && (to == NONE || to != from)
            && self.threat_level() <= MOST_THREAT_LEVEL
            && all_zero(&self.0[28..])
    }
}

/// Reader of a rule's fields.
#[derive(Clone, Copy)]
pub struct RuleRecord<'a>(pub &'a [u8]);

impl RuleRecord<'_> {
    pub fn has(&self, flag: u8) -> bool {
        has_flag(self.0, flag)
    }

    pub fn location_kind(&self) -> u8 {
        self.0[rule::LOCATION_KIND]
    }

    pub fn days(&self) -> u8 {
        self.0[rule::DAYS]
    }

    pub fn location(&self) -> u32 {
        get32(self.0, rule::LOCATION)
    }

    /// Whether the weekday, 0 for Monday, is set.
    pub fn has_day(&self, weekday: u32) -> bool {
        self.days() & (1 << weekday) != 0
    }

    /// Minute of the day.
    pub fn from(&self) -> u16 {
        get16(self.0, rule::FROM)
    }

    /// Minute of the day; below from, of the next day.
    pub fn to(&self) -> u16 {
        get16(self.0, rule::TO)
    }

    fn location_in_range(&self) -> bool {
        if self.has(rule_flag::EVERYWHERE) {
            return self.location_kind() == location_kind::UNSPECIFIED && self.location() == 0;
        }
        (location_kind::ZONE..=location_kind::POINT).contains(&self.location_kind())
            && is_real(self.location())
    }

    fn in_range(&self) -> bool {
        self.0[record::FLAGS] & !rule_flag::NAMED == 0
            && self.location_in_range()
            && self.days() & !EVERY_DAY == 0
            && is_real(instance_of(self.0))
            && self.from() <= MINUTES_PER_DAY
            && self.to() <= MINUTES_PER_DAY
            && all_zero(&self.0[16..])
    }
}

/// Reader of a credential's fields.
#[derive(Clone, Copy)]
pub struct CredentialRecord<'a>(pub &'a [u8]);

impl CredentialRecord<'_> {
    pub fn has(&self, flag: u8) -> bool {
        has_flag(self.0, flag)
    }

    pub fn disable(&self) -> u8 {
        self.0[credential::CREDENTIAL_DISABLE]
    }

    pub fn threat_authority(&self) -> u8 {
        self.0[credential::THREAT_AUTHORITY]
    }

    pub fn activation_time(&self) -> u32 {
        get32(self.0, credential::ACTIVATION_TIME)
    }

    pub fn expiry_time(&self) -> u32 {
        get32(self.0, credential::EXPIRY_TIME)
    }

    pub fn uses(&self) -> u16 {
        get16(self.0, credential::USES_REMAINING)
    }

    pub fn days(&self) -> u16 {
        get16(self.0, credential::DAYS_REMAINING)
    }

    /// In days.
    pub fn absentee_limit(&self) -> u16 {
        get16(self.0, credential::ABSENTEE_LIMIT)
    }

    /// The most wrong tries of a second factor.
    pub fn most_wrong_tries(&self) -> u8 {
        self.0[credential::MOST_WRONG_TRIES]
    }

    /// The two rights numbers, each real or NONE.
    pub fn rights(&self) -> [u32; 2] {
        [
            get32(self.0, credential::FIRST_RIGHTS),
            get32(self.0, credential::SECOND_RIGHTS),
        ]
    }

    fn in_range(&self) -> bool {
        self.0[record::FLAGS] & !credential_flag::NAMED == 0
            && self.disable() <= credential_disable::DISABLE_LOCKOUT
            && self.threat_authority() <= MOST_THREAT_LEVEL
            && is_real(instance_of(self.0))
            && self.0[23] == 0
            && self.rights().iter().all(|&rights| rights <= NONE)
    }
}

/// Reader of an authentication factor's fields; its instance is that of its credential.
#[derive(Clone, Copy)]
pub struct FactorRecord<'a>(pub &'a [u8]);

impl<'a> FactorRecord<'a> {
    pub fn credential(&self) -> u32 {
        instance_of(self.0)
    }

    pub fn role(&self) -> u8 {
        self.0[factor::ROLE]
    }

    pub fn disable(&self) -> u8 {
        self.0[factor::DISABLE]
    }

    pub fn format(&self) -> u8 {
        self.0[factor::FORMAT]
    }

    pub fn value(&self) -> &'a [u8] {
        &self.0[factor::VALUE..factor::VALUE + VALUE_LENGTH]
    }

    fn in_range(&self) -> bool {
        self.0[record::FLAGS] == 0
            && (factor_role::IDENTIFYING..=factor_role::CONFIRMING).contains(&self.role())
            && self.disable() <= factor_disable::DISABLED_DESTROYED
            && is_real(self.credential())
            && self.format() > format::ERROR
            && all_zero(&self.0[9..16])
            && all_zero(&self.0[24..])
    }

    /// Identifying factors are twins across credentials, confirming ones within one.
    fn is_twin_of(&self, other: &FactorRecord) -> bool {
        self.role() == other.role()
            && self.format() == other.format()
            && self.value() == other.value()
            && (self.role() == factor_role::IDENTIFYING || self.credential() == other.credential())
    }
}

/// The first refusal of the table that the site meets, or 0.
pub fn check_site(site: &[u8]) -> u8 {
    if !site.len().is_multiple_of(RECORD_LENGTH) || site.len() > MOST_SITE_BYTES {
        return refusal::SITE_LENGTH;
    }
    if !records(site).all(in_range) {
        return refusal::SITE_FIELD;
    }
    if has_twins(site) {
        return refusal::SITE_TWICE;
    }
    if !records(site).all(|record| references_exist(site, record)) {
        return refusal::SITE_MISSING;
    }
    refusal::ACCEPTED
}

fn in_range(record: &[u8]) -> bool {
    match kind_of(record) {
        kind::ZONE => ZoneRecord(record).in_range(),
        kind::POINT => PointRecord(record).in_range(),
        kind::RULE => RuleRecord(record).in_range(),
        kind::CREDENTIAL => CredentialRecord(record).in_range(),
        kind::FACTOR => FactorRecord(record).in_range(),
        _ => false,
    }
}

fn has_twins(site: &[u8]) -> bool {
    records(site).enumerate().any(|(index, record)| {
        records(site)
            .take(index)
            .any(|earlier| are_twins(earlier, record))
    })
}

/// Whether two records of a site are "twice the same". Rules never are.
pub fn are_twins(one: &[u8], other: &[u8]) -> bool {
    if kind_of(one) != kind_of(other) {
        return false;
    }
    match kind_of(one) {
        kind::RULE => false,
        kind::FACTOR => FactorRecord(one).is_twin_of(&FactorRecord(other)),
        _ => instance_of(one) == instance_of(other),
    }
}

fn references_exist(site: &[u8], record: &[u8]) -> bool {
    match kind_of(record) {
        kind::POINT => {
            let point = PointRecord(record);
            none_or_exists(site, kind::ZONE, point.zone_to())
                && none_or_exists(site, kind::ZONE, point.zone_from())
        }
        kind::RULE => location_exists(site, &RuleRecord(record)),
        kind::FACTOR => exists(site, kind::CREDENTIAL, FactorRecord(record).credential()),
        _ => true,
    }
}

/// Whether a reference is NONE or names an existing object of the kind.
pub fn none_or_exists(site: &[u8], kind: u8, instance: u32) -> bool {
    instance == NONE || exists(site, kind, instance)
}

fn location_exists(site: &[u8], rule: &RuleRecord) -> bool {
    if rule.has(rule_flag::EVERYWHERE) {
        return true;
    }
    let kind = match rule.location_kind() {
        location_kind::ZONE => kind::ZONE,
        _ => kind::POINT,
    };
    exists(site, kind, rule.location())
}
