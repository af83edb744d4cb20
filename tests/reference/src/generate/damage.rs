//! Damage to sites, states, journals and the length of answers.

use super::random::Random;
use super::sites::MISSING;
use super::states::not_below;
use crate::bytes::{get16, get32, put16, put32};
use crate::layout::{credential, credential_state, record, rule};
use crate::longer::lengthened;
use crate::numbers::{kind, ANSWER_LENGTH, ENTRY_LENGTH, MINUTES_PER_DAY, NONE, RECORD_LENGTH};
use crate::site::{kind_of, CredentialRecord};
use crate::state::kept_records;

/// Damages bytes that hold units (records or entries) of one length. The outcome may by chance
/// be sound.
pub fn damage(random: &mut Random, bytes: &mut Vec<u8>, unit: usize) {
    if bytes.len() < unit {
        return extend(random, bytes, unit);
    }
    match random.below(20) {
        0..=3 => flip(random, bytes),
        4..=7 => overwrite(random, bytes, unit),
        8 => bytes.truncate(random.below(bytes.len())),
        9 => extend(random, bytes, unit),
        10..=11 => duplicate(random, bytes, unit),
        12 => remove(random, bytes, unit),
        13 => swap(random, bytes, unit),
        14..=15 => change_reference(random, bytes, unit),
        16..=17 => change_hours(random, bytes, unit),
        _ => change_most_wrong_tries(random, bytes, unit),
    }
}

/// Changes a byte of a credential's last grant, which may hold any, or a spare byte behind it.
pub fn damage_last_grant(random: &mut Random, site: &[u8], state: &mut [u8]) {
    let Some((_, part)) = credential_of(random, site, state) else {
        return;
    };
    let offset = random.below(RECORD_LENGTH - credential_state::LAST_GRANT_TIME);
    let byte = &mut part[credential_state::LAST_GRANT_TIME + offset];
    *byte ^= random.pick(&[1, 128, 255]);
}

/// Puts a credential's wrong tries where its most does not allow them, or at times one short of it.
pub fn damage_wrong_tries(random: &mut Random, site: &[u8], state: &mut [u8]) {
    let Some((credential, part)) = credential_of(random, site, state) else {
        return;
    };
    let most = credential.most_wrong_tries();
    part[credential_state::WRONG_TRIES] = if random.sixteenths(4) {
        most.saturating_sub(1)
    } else {
        not_below(random, most)
    };
}

/// Makes a state one of another length or of another site: the longer one, one with a record less or
/// more, or one of as many zones, points and credentials in another order, often of two alone.
pub fn damage_length(random: &mut Random, site: &[u8], state: &mut Vec<u8>) {
    match random.below(5) {
        0 => *state = lengthened(site, state),
        1 if state.len() >= RECORD_LENGTH => remove(random, state, RECORD_LENGTH),
        2 => {
            let end = unit_or_end(random, state, RECORD_LENGTH);
            state.splice(end..end, [0; RECORD_LENGTH]);
        }
        3 if state.len() >= RECORD_LENGTH => swap(random, state, RECORD_LENGTH),
        _ => *state = in_another_order(random, state, RECORD_LENGTH),
    }
}

/// The units in any order.
pub fn in_another_order(random: &mut Random, bytes: &[u8], unit: usize) -> Vec<u8> {
    let mut units: Vec<&[u8]> = bytes.chunks(unit).collect();
    random.shuffle(&mut units);
    units.concat()
}

/// The start of a unit, or the end of the last whole one.
fn unit_or_end(random: &mut Random, bytes: &[u8], unit: usize) -> usize {
    random.below(bytes.len() / unit + 1) * unit
}

/// One of the credentials with its state record.
fn credential_of<'a>(
    random: &mut Random,
    site: &'a [u8],
    state: &'a mut [u8],
) -> Option<(CredentialRecord<'a>, &'a mut [u8])> {
    let parts = kept_records(site).zip(state.chunks_exact_mut(RECORD_LENGTH));
    let mut credentials: Vec<_> = parts
        .filter(|(record, _)| kind_of(record) == kind::CREDENTIAL)
        .map(|(record, part)| (CredentialRecord(record), part))
        .collect();
    if credentials.is_empty() {
        return None;
    }
    let chosen = random.below(credentials.len());
    Some(credentials.swap_remove(chosen))
}

/// Lengthens bytes beyond the most, by whole units of zeros.
pub fn overlong(bytes: &mut Vec<u8>, unit: usize, most: usize) {
    bytes.resize(most / unit * unit + unit, 0);
}

/// A length of answers that mostly does not fit the journal.
pub fn answers_length(random: &mut Random, journal: usize) -> usize {
    let right = journal / ENTRY_LENGTH * ANSWER_LENGTH;
    match random.below(6) {
        0 => 0,
        1 => right + 1,
        2 => right.saturating_sub(1),
        3 => right + ANSWER_LENGTH,
        4 => right.saturating_sub(ANSWER_LENGTH),
        _ => journal,
    }
}

fn flip(random: &mut Random, bytes: &mut [u8]) {
    let offset = random.below(bytes.len());
    bytes[offset] ^= 1 << random.below(8);
}

/// Writes a number at or beside a bound where one-byte fields stand.
fn overwrite(random: &mut Random, bytes: &mut [u8], unit: usize) {
    let field = random.pick(&[0, 1, 2, 3, 2, 3, 4, 5, 8, 16, 17, 18, 19]);
    let offset = unit_at(random, bytes, unit) + field;
    bytes[offset] = random.pick(&[0, 1, 2, 3, 4, 5, 6, 16, 32, 100, 101, 127, 128, 255]);
}

fn extend(random: &mut Random, bytes: &mut Vec<u8>, unit: usize) {
    let more = random.pick(&[1, unit - 1, unit, unit + 1]);
    bytes.resize(bytes.len() + more, 0);
}

fn unit_at(random: &mut Random, bytes: &[u8], unit: usize) -> usize {
    random.below(bytes.len() / unit) * unit
}

/// The start of a unit that begins with the kind, or of any where none does.
fn unit_of_kind(random: &mut Random, bytes: &[u8], unit: usize, kind: u8) -> usize {
    let starts = (0..bytes.len() / unit).map(|index| index * unit);
    let of_kind: Vec<usize> = starts
        .filter(|start| bytes[start + record::KIND] == kind)
        .collect();
    let other = unit_at(random, bytes, unit);
    random.pick_or(&of_kind, other)
}

/// Puts a copy of one unit before another, at times under the other's instance.
fn duplicate(random: &mut Random, bytes: &mut Vec<u8>, unit: usize) {
    let from = unit_at(random, bytes, unit);
    let to = unit_at(random, bytes, unit);
    let mut copy = bytes[from..from + unit].to_vec();
    if random.sixteenths(8) {
        let instance = record::INSTANCE..record::INSTANCE + 4;
        copy[instance.clone()].copy_from_slice(&bytes[to..to + unit][instance]);
    }
    bytes.splice(to..to, copy);
}

fn remove(random: &mut Random, bytes: &mut Vec<u8>, unit: usize) {
    let from = unit_at(random, bytes, unit);
    bytes.drain(from..from + unit);
}

fn swap(random: &mut Random, bytes: &mut [u8], unit: usize) {
    let one = unit_at(random, bytes, unit);
    let other = unit_at(random, bytes, unit);
    for offset in 0..unit {
        bytes.swap(one + offset, other + offset);
    }
}

/// Writes an instance, real or not, where four-byte fields stand; at times that of the field
/// before, so that a point has the same zone twice.
fn change_reference(random: &mut Random, bytes: &mut [u8], unit: usize) {
    let start = unit_at(random, bytes, unit);
    let field = 4 * random.below(unit / 4);
    let before = get32(bytes, start + field.saturating_sub(4));
    let others = [0, 1, 2, 7, MISSING, NONE - 1, NONE, NONE + 1, u32::MAX];
    let instance = if random.sixteenths(6) {
        before
    } else {
        random.pick(&others)
    };
    put32(bytes, start + field, instance);
}

/// Puts from or to of a rule at or beside the end of the day, or each in the other's place. Where no
/// unit is a rule, it changes the bytes in their places of another unit.
fn change_hours(random: &mut Random, bytes: &mut [u8], unit: usize) {
    let start = unit_of_kind(random, bytes, unit, kind::RULE);
    let (from, to) = (start + rule::FROM, start + rule::TO);
    if random.sixteenths(4) {
        let hours = [get16(bytes, from), get16(bytes, to)];
        put16(bytes, from, hours[1]);
        put16(bytes, to, hours[0]);
        return;
    }
    let end = MINUTES_PER_DAY;
    let minute = random.pick(&[end - 1, end, end + 1, end + 1, end + 2, u16::MAX]);
    put16(bytes, random.pick(&[from, to]), minute);
}

/// Writes the most wrong tries of a credential, which may be any, or the spare byte behind it. Where
/// no unit is a credential, it changes the bytes in their places of another unit.
fn change_most_wrong_tries(random: &mut Random, bytes: &mut [u8], unit: usize) {
    let start = unit_of_kind(random, bytes, unit, kind::CREDENTIAL);
    let most = start + credential::MOST_WRONG_TRIES;
    let any = random.byte();
    bytes[random.pick(&[most, most, most + 1])] = random.pick(&[0, 1, 2, 3, 128, 255, any]);
}
