//! The journal run: what turns it back, the form of entries, and operations 2 to 5.

use crate::answer::Answer;
use crate::bytes::{get16, get32, get64, put32, Record};
use crate::factor_read::FactorRead;
use crate::lookup::{Lookup, Object, ZONE_TO};
use crate::site::Site;
use crate::state::well_formed;
use reference::layout::{credential_state, entry, point_state, zone_state};
use reference::numbers::{
    credential_disable, event, format, kind, operation, refusal, ANSWER_LENGTH, ENTRY_LENGTH,
    MOST_COUNT, MOST_JOURNAL_BYTES, NEVER, NONE,
};

type Entry = [u8; ENTRY_LENGTH];

pub fn run_journal<L: Lookup>(
    site: &[u8],
    state: &mut [u8],
    journal: &[u8],
    answers: &mut [u8],
) -> u8 {
    let accepted = match Site::<L>::accept(site) {
        Ok(accepted) => accepted,
        Err(refused) => return refused,
    };
    if state.len() != accepted.state_length() {
        return refusal::STATE_LENGTH;
    }
    let (parts, _) = state.as_chunks_mut();
    if !well_formed(&accepted, parts) {
        return refusal::STATE_FORM;
    }
    let (entries, rest) = journal.as_chunks();
    if !rest.is_empty() || journal.len() > MOST_JOURNAL_BYTES {
        return refusal::JOURNAL_LENGTH;
    }
    if answers.len() != entries.len() * ANSWER_LENGTH {
        return refusal::ANSWERS_LENGTH;
    }
    let (answers, _) = answers.as_chunks_mut();
    for (entry, answer) in entries.iter().zip(answers) {
        work(&accepted, parts, entry).write(answer);
    }
    refusal::ACCEPTED
}

fn work<L: Lookup>(site: &Site<L>, state: &mut [Record], entry: &Entry) -> Answer {
    let Some(kind) = object_kind(entry) else {
        return Answer::refused(refusal::ENTRY_FIELD);
    };
    let instance = get32(entry, entry::INSTANCE);
    let Some(object) = site.find(kind, instance) else {
        return Answer::refused(refusal::ENTRY_MISSING);
    };
    let now = get32(entry, entry::TIME);
    let argument = entry[entry::ARGUMENT];
    let amount = get32(entry, entry::AMOUNT);
    match entry[entry::OPERATION] {
        operation::READ_FACTOR => {
            let value = get64(entry, entry::VALUE);
            FactorRead::new(site, state, object, now).answer(argument, value)
        }
        operation::SET_COUNT => set_count(&mut state[object.part], amount),
        operation::ADJUST_COUNT => adjust_count(&mut state[object.part], amount as i32),
        operation::SET_DISABLE => {
            let held = &mut state[object.part];
            held[credential_state::CREDENTIAL_DISABLE] = argument;
            held[credential_state::WRONG_TRIES] = 0;
            Answer {
                credential: instance,
                ..Answer::EMPTY
            }
        }
        _ => set_lockout(site, state, object, now, argument == 1),
    }
}

/// The kind of object that an entry's instance names; nothing where the entry meets refusal 7.
#[inline]
fn object_kind(entry: &Entry) -> Option<u8> {
    let argument = entry[entry::ARGUMENT];
    let amount = get32(entry, entry::AMOUNT);
    let value = get64(entry, entry::VALUE);
    if get16(entry, entry::SPARE) != 0
        || get32(entry, entry::TIME) == NEVER
        || get32(entry, entry::INSTANCE) >= NONE
    {
        return None;
    }
    let (kind, sound) = match entry[entry::OPERATION] {
        operation::READ_FACTOR => (kind::POINT, argument != format::UNDEFINED && amount == 0),
        operation::SET_COUNT | operation::ADJUST_COUNT => (kind::ZONE, argument == 0 && value == 0),
        operation::SET_DISABLE => (
            kind::CREDENTIAL,
            argument <= credential_disable::DISABLE_LOCKOUT && amount == 0 && value == 0,
        ),
        operation::SET_LOCKOUT => (kind::POINT, argument <= 1 && amount == 0 && value == 0),
        _ => return None,
    };
    sound.then_some(kind)
}

fn set_count(zone: &mut Record, count: u32) -> Answer {
    put32(zone, zone_state::OCCUPANCY_COUNT, count);
    Answer {
        count,
        ..Answer::EMPTY
    }
}

fn adjust_count(zone: &mut Record, amount: i32) -> Answer {
    let held = i64::from(get32(zone, zone_state::OCCUPANCY_COUNT));
    let adjusted = (held + i64::from(amount)).max(0);
    if adjusted > i64::from(MOST_COUNT) {
        return Answer::refused(refusal::ENTRY_COUNT);
    }
    set_count(zone, adjusted as u32)
}

/// Operation 5, at a point out of service too.
fn set_lockout<L: Lookup>(
    site: &Site<L>,
    state: &mut [Record],
    object: Object,
    now: u32,
    lock: bool,
) -> Answer {
    let point = &mut state[object.part];
    let tag = gain_tag(point);
    point[point_state::LOCKOUT] = u8::from(lock);
    let event = if lock {
        put32(point, point_state::LOCK_TIME, now);
        put32(point, point_state::WAITING_CREDENTIAL, NONE);
        event::LOCKOUT_OTHER
    } else {
        point[point_state::FAILED_ATTEMPTS] = 0;
        event::LOCKOUT_RELINQUISHED
    };
    let zone_to = site.lookup.named(site.records, object.record, &ZONE_TO);
    Answer {
        event,
        tag,
        count: zone_to.map_or(0, |zone| count_of(&state[zone.part])),
        ..Answer::EMPTY
    }
}

#[inline]
pub fn gain_tag(point: &mut Record) -> u32 {
    let tag = get32(point, point_state::ACCESS_EVENT_TAG).wrapping_add(1);
    put32(point, point_state::ACCESS_EVENT_TAG, tag);
    tag
}

#[inline]
pub fn count_of(zone: &Record) -> u32 {
    get32(zone, zone_state::OCCUPANCY_COUNT)
}
