//! Builders of records and entries, and a panel that works one entry at a time.
//!
//! Fields left at their defaults are zero, unlimited, end of time or NONE, as in the printed
//! journal of document 01.

use crate::answer::Answer;
use crate::bytes::{put16, put32};
use crate::engine::{Engine, REFERENCE};
use crate::layout::{credential, entry, factor, point, record, rule, zone};
use crate::numbers::{
    factor_role, factors_wanted, kind, operation, refusal, rule_flag, ANSWER_LENGTH, ENTRY_LENGTH,
    MINUTES_PER_DAY, NEVER, NONE, RECORD_LENGTH, UNLIMITED, VALUE_LENGTH,
};
use crate::site::find;
use crate::state::{state_at, state_length};

pub type Record = [u8; RECORD_LENGTH];

/// The format of factors that name no other.
pub const FORMAT: u8 = 2;

fn start(kind: u8, flags: u8, instance: u32) -> Record {
    let mut bytes = [0; RECORD_LENGTH];
    bytes[record::KIND] = kind;
    bytes[record::FLAGS] = flags;
    put32(&mut bytes, record::INSTANCE, instance);
    bytes
}

#[derive(Clone, Copy)]
pub struct Zone {
    pub instance: u32,
    pub flags: u8,
    pub passback_mode: u8,
    pub upper_limit: u32,
    pub lower_limit: u32,
    /// In minutes.
    pub passback_timeout: u32,
}

impl Zone {
    pub fn new(instance: u32) -> Zone {
        Zone {
            instance,
            flags: 0,
            passback_mode: 0,
            upper_limit: 0,
            lower_limit: 0,
            passback_timeout: 0,
        }
    }

    pub fn record(&self) -> Record {
        let mut bytes = start(kind::ZONE, self.flags, self.instance);
        bytes[zone::PASSBACK_MODE] = self.passback_mode;
        put32(&mut bytes, zone::OCCUPANCY_UPPER_LIMIT, self.upper_limit);
        put32(&mut bytes, zone::OCCUPANCY_LOWER_LIMIT, self.lower_limit);
        put32(&mut bytes, zone::PASSBACK_TIMEOUT, self.passback_timeout);
        bytes
    }
}

#[derive(Clone, Copy)]
pub struct Point {
    pub instance: u32,
    pub flags: u8,
    pub authorization_mode: u8,
    pub factors_wanted: u8,
    pub zone_to: u32,
    pub zone_from: u32,
    pub threat_level: u8,
    pub max_failed_attempts: u8,
    pub factor_timeout: u16,
    pub lockout_relinquish_time: u32,
    pub failed_attempts_time: u32,
}

impl Point {
    pub fn new(instance: u32) -> Point {
        Point {
            instance,
            flags: 0,
            authorization_mode: 0,
            factors_wanted: factors_wanted::ONE,
            zone_to: NONE,
            zone_from: NONE,
            threat_level: 0,
            max_failed_attempts: 0,
            factor_timeout: 0,
            lockout_relinquish_time: 0,
            failed_attempts_time: 0,
        }
    }

    pub fn record(&self) -> Record {
        let mut bytes = start(kind::POINT, self.flags, self.instance);
        bytes[point::AUTHORIZATION_MODE] = self.authorization_mode;
        bytes[point::FACTORS_WANTED] = self.factors_wanted;
        put32(&mut bytes, point::ZONE_TO, self.zone_to);
        put32(&mut bytes, point::ZONE_FROM, self.zone_from);
        bytes[point::THREAT_LEVEL] = self.threat_level;
        bytes[point::MAX_FAILED_ATTEMPTS] = self.max_failed_attempts;
        put16(&mut bytes, point::FACTOR_TIMEOUT, self.factor_timeout);
        let relinquish = self.lockout_relinquish_time;
        put32(&mut bytes, point::LOCKOUT_RELINQUISH_TIME, relinquish);
        let window = self.failed_attempts_time;
        put32(&mut bytes, point::FAILED_ATTEMPTS_TIME, window);
        bytes
    }
}

#[derive(Clone, Copy)]
pub struct Rule {
    pub rights: u32,
    pub flags: u8,
    pub location_kind: u8,
    pub location: u32,
    pub days: u8,
    pub from: u16,
    pub to: u16,
}

impl Rule {
    /// A positive rule that fits everywhere and always.
    pub fn new(rights: u32) -> Rule {
        Rule {
            rights,
            flags: rule_flag::ENABLE | rule_flag::ALWAYS | rule_flag::EVERYWHERE,
            location_kind: 0,
            location: 0,
            days: 0,
            from: 0,
            to: MINUTES_PER_DAY,
        }
    }

    pub fn record(&self) -> Record {
        let mut bytes = start(kind::RULE, self.flags, self.rights);
        bytes[rule::LOCATION_KIND] = self.location_kind;
        bytes[rule::DAYS] = self.days;
        put32(&mut bytes, rule::LOCATION, self.location);
        put16(&mut bytes, rule::FROM, self.from);
        put16(&mut bytes, rule::TO, self.to);
        bytes
    }
}

#[derive(Clone, Copy)]
pub struct Credential {
    pub instance: u32,
    pub flags: u8,
    pub disable: u8,
    pub threat_authority: u8,
    pub activation_time: u32,
    pub expiry_time: u32,
    pub uses: u16,
    pub days: u16,
    pub absentee_limit: u16,
    pub most_wrong_tries: u8,
    pub rights: [u32; 2],
}

impl Credential {
    pub fn new(instance: u32) -> Credential {
        Credential {
            instance,
            flags: 0,
            disable: 0,
            threat_authority: 0,
            activation_time: 0,
            expiry_time: NEVER,
            uses: UNLIMITED,
            days: UNLIMITED,
            absentee_limit: UNLIMITED,
            most_wrong_tries: 0,
            rights: [NONE, NONE],
        }
    }

    pub fn record(&self) -> Record {
        let mut bytes = start(kind::CREDENTIAL, self.flags, self.instance);
        bytes[credential::CREDENTIAL_DISABLE] = self.disable;
        bytes[credential::THREAT_AUTHORITY] = self.threat_authority;
        put32(
            &mut bytes,
            credential::ACTIVATION_TIME,
            self.activation_time,
        );
        put32(&mut bytes, credential::EXPIRY_TIME, self.expiry_time);
        put16(&mut bytes, credential::USES_REMAINING, self.uses);
        put16(&mut bytes, credential::DAYS_REMAINING, self.days);
        put16(&mut bytes, credential::ABSENTEE_LIMIT, self.absentee_limit);
        bytes[credential::MOST_WRONG_TRIES] = self.most_wrong_tries;
        put32(&mut bytes, credential::FIRST_RIGHTS, self.rights[0]);
        put32(&mut bytes, credential::SECOND_RIGHTS, self.rights[1]);
        bytes
    }
}

#[derive(Clone, Copy)]
pub struct Factor {
    pub credential: u32,
    pub role: u8,
    pub disable: u8,
    pub format: u8,
    pub value: [u8; VALUE_LENGTH],
}

impl Factor {
    /// An identifying factor that is not disabled.
    pub fn new(credential: u32, value: [u8; VALUE_LENGTH]) -> Factor {
        Factor {
            credential,
            role: factor_role::IDENTIFYING,
            disable: 0,
            format: FORMAT,
            value,
        }
    }

    pub fn record(&self) -> Record {
        let mut bytes = start(kind::FACTOR, 0, self.credential);
        bytes[factor::ROLE] = self.role;
        bytes[factor::DISABLE] = self.disable;
        bytes[factor::FORMAT] = self.format;
        bytes[factor::VALUE..factor::VALUE + VALUE_LENGTH].copy_from_slice(&self.value);
        bytes
    }
}

/// The fields of an entry, also where they are out of range.
#[derive(Clone, Copy)]
pub struct EntryFields {
    pub operation: u8,
    pub argument: u8,
    pub time: u32,
    pub instance: u32,
    pub amount: u32,
    pub value: [u8; VALUE_LENGTH],
}

impl EntryFields {
    fn new(operation: u8, time: u32, instance: u32) -> EntryFields {
        EntryFields {
            operation,
            argument: 0,
            time,
            instance,
            amount: 0,
            value: [0; VALUE_LENGTH],
        }
    }

    pub fn read_factor(time: u32, point: u32, format: u8, value: [u8; 8]) -> EntryFields {
        EntryFields {
            argument: format,
            value,
            ..EntryFields::new(operation::READ_FACTOR, time, point)
        }
    }

    pub fn set_count(time: u32, zone: u32, amount: u32) -> EntryFields {
        EntryFields {
            amount,
            ..EntryFields::new(operation::SET_COUNT, time, zone)
        }
    }

    pub fn adjust_count(time: u32, zone: u32, amount: i32) -> EntryFields {
        EntryFields {
            amount: amount as u32,
            ..EntryFields::new(operation::ADJUST_COUNT, time, zone)
        }
    }

    pub fn set_disable(time: u32, credential: u32, disable: u8) -> EntryFields {
        EntryFields {
            argument: disable,
            ..EntryFields::new(operation::SET_DISABLE, time, credential)
        }
    }

    pub fn set_lockout(time: u32, point: u32, lock: bool) -> EntryFields {
        EntryFields {
            argument: u8::from(lock),
            ..EntryFields::new(operation::SET_LOCKOUT, time, point)
        }
    }

    pub fn bytes(&self) -> [u8; ENTRY_LENGTH] {
        let mut bytes = [0; ENTRY_LENGTH];
        bytes[entry::OPERATION] = self.operation;
        bytes[entry::ARGUMENT] = self.argument;
        put32(&mut bytes, entry::TIME, self.time);
        put32(&mut bytes, entry::INSTANCE, self.instance);
        put32(&mut bytes, entry::AMOUNT, self.amount);
        bytes[entry::VALUE..entry::VALUE + VALUE_LENGTH].copy_from_slice(&self.value);
        bytes
    }
}

/// Entries one after the other.
pub fn journal(entries: &[EntryFields]) -> Vec<u8> {
    entries.iter().flat_map(EntryFields::bytes).collect()
}

/// An accepted site with its state, worked by one engine.
pub struct Panel {
    engine: Engine,
    pub site: Vec<u8>,
    pub state: Vec<u8>,
}

impl Panel {
    /// A panel of this crate's engine in the fresh state.
    pub fn fresh(records: &[Record]) -> Panel {
        Panel::fresh_by(REFERENCE, records)
    }

    /// A panel in the fresh state. Panics where the site is turned back.
    pub fn fresh_by(engine: Engine, records: &[Record]) -> Panel {
        let site = records.concat();
        let mut state = vec![0; state_length(&site)];
        let refused = (engine.fresh_state)(&site, &mut state);
        assert_eq!(refused, refusal::ACCEPTED, "the site is turned back");
        Panel {
            engine,
            site,
            state,
        }
    }

    /// Works a journal and hands back its answers. Panics where it is turned back.
    pub fn run(&mut self, entries: &[EntryFields]) -> Vec<Answer> {
        let mut answers = vec![0; entries.len() * ANSWER_LENGTH];
        let journal = journal(entries);
        let run = self.engine.run_journal;
        let refused = run(&self.site, &mut self.state, &journal, &mut answers);
        assert_eq!(refused, refusal::ACCEPTED, "the journal is turned back");
        answers
            .chunks_exact(ANSWER_LENGTH)
            .map(Answer::from_bytes)
            .collect()
    }

    /// Works one entry.
    pub fn work(&mut self, entry: EntryFields) -> Answer {
        self.run(&[entry])[0]
    }

    /// The state record of an object. Panics where the site holds no such object.
    pub fn state_of(&self, kind: u8, instance: u32) -> &[u8] {
        let index = find(&self.site, kind, instance).expect("the site holds the object");
        state_at(&self.site, &self.state, index)
    }
}
