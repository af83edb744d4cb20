//! The journal run: what turns a whole run back, and operations 2 to 5.

use crate::answer::Answer;
use crate::bytes::{get32, put32};
use crate::entry::{entries, Action, Entry};
use crate::factor_read::FactorRead;
use crate::layout::{credential_state, point_state, zone_state};
use crate::numbers::{
    event, kind, refusal, ANSWER_LENGTH, ENTRY_LENGTH, MOST_COUNT, MOST_JOURNAL_BYTES, NONE,
};
use crate::site::{find, record_at, PointRecord};
use crate::state::{Form, State, SHORTER};

/// Works the journal's entries in order, each with one answer.
/// Turned back with 1 to 6, 10 or 11, and then nothing is written.
pub fn run_journal(site: &[u8], state: &mut [u8], journal: &[u8], answers: &mut [u8]) -> u8 {
    run_journal_on(&SHORTER, site, state, journal, answers)
}

/// As `run_journal`, on a state of the form.
pub(crate) fn run_journal_on(
    form: &Form,
    site: &[u8],
    bytes: &mut [u8],
    journal: &[u8],
    answers: &mut [u8],
) -> u8 {
    let refused = check_run(form, site, bytes, journal, answers);
    if refused != refusal::ACCEPTED {
        return refused;
    }
    for (entry, answer) in entries(journal).zip(answers.chunks_exact_mut(ANSWER_LENGTH)) {
        let state = State { site, bytes, form };
        answer.copy_from_slice(&work_entry(site, state, entry).to_bytes());
    }
    refusal::ACCEPTED
}

fn check_run(form: &Form, site: &[u8], state: &[u8], journal: &[u8], answers: &[u8]) -> u8 {
    let refused = (form.check_state)(site, state);
    if refused != refusal::ACCEPTED {
        return refused;
    }
    if !journal.len().is_multiple_of(ENTRY_LENGTH) || journal.len() > MOST_JOURNAL_BYTES {
        return refusal::JOURNAL_LENGTH;
    }
    if answers.len() != journal.len() / ENTRY_LENGTH * ANSWER_LENGTH {
        return refusal::ANSWERS_LENGTH;
    }
    refusal::ACCEPTED
}

fn work_entry(site: &[u8], mut state: State, bytes: &[u8]) -> Answer {
    let Some(entry) = Entry::read(bytes) else {
        return Answer::refused(refusal::ENTRY_FIELD);
    };
    let Some(place) = find(site, entry.action.object_kind(), entry.instance) else {
        return Answer::refused(refusal::ENTRY_MISSING);
    };
    match entry.action {
        Action::ReadFactor { format, value } => {
            FactorRead::new(site, state, place, entry.time, format, value).answer()
        }
        Action::SetCount { amount } => set_count(state.at_mut(place), amount),
        Action::AdjustCount { amount } => adjust_count(state.at_mut(place), amount),
        Action::SetDisable { disable } => {
            set_disable(state.at_mut(place), disable);
            Answer {
                credential: entry.instance,
                ..Answer::EMPTY
            }
        }
        Action::SetLockout { lock } => set_lockout(site, state, place, entry.time, lock),
    }
}

fn set_count(zone: &mut [u8], count: u32) -> Answer {
    put32(zone, zone_state::OCCUPANCY_COUNT, count);
    Answer {
        count,
        ..Answer::EMPTY
    }
}

fn adjust_count(zone: &mut [u8], amount: i32) -> Answer {
    let held = i64::from(get32(zone, zone_state::OCCUPANCY_COUNT));
    let adjusted = (held + i64::from(amount)).max(0);
    if adjusted > i64::from(MOST_COUNT) {
        return Answer::refused(refusal::ENTRY_COUNT);
    }
    set_count(zone, adjusted as u32)
}

/// Operation 4. It "also zeroes" the wrong tries, whatever the disable.
fn set_disable(credential: &mut [u8], disable: u8) {
    credential[credential_state::CREDENTIAL_DISABLE] = disable;
    credential[credential_state::WRONG_TRIES] = 0;
}

/// Operation 5. It works at a point out of service too.
fn set_lockout(site: &[u8], mut state: State, place: usize, now: u32, lock: bool) -> Answer {
    let point = state.at_mut(place);
    let tag = gain_tag(point);
    point[point_state::LOCKOUT] = u8::from(lock);
    if lock {
        put32(point, point_state::LOCK_TIME, now);
        put32(point, point_state::WAITING_CREDENTIAL, NONE);
    } else {
        point[point_state::FAILED_ATTEMPTS] = 0;
    }
    let zone_to = PointRecord(record_at(site, place)).zone_to();
    Answer {
        event: if lock {
            event::LOCKOUT_OTHER
        } else {
            event::LOCKOUT_RELINQUISHED
        },
        tag,
        count: find(site, kind::ZONE, zone_to).map_or(0, |zone| count_at(&state, zone)),
        ..Answer::EMPTY
    }
}

/// Starts a new access transaction at a point and hands back its Access_Event_Tag.
pub(crate) fn gain_tag(point: &mut [u8]) -> u32 {
    let tag = get32(point, point_state::ACCESS_EVENT_TAG).wrapping_add(1);
    put32(point, point_state::ACCESS_EVENT_TAG, tag);
    tag
}

/// The Occupancy_Count of the zone at a place.
pub(crate) fn count_at(state: &State, zone: usize) -> u32 {
    get32(state.at(zone), zone_state::OCCUPANCY_COUNT)
}
