//! `carry_state OLD_SITE OLD_STATE NEW_SITE NEW_STATE`: makes the state of a changed site. Each
//! zone, point and credential of the old site that the new one has too keeps its state, wherever
//! its record stands now; all else is fresh.

use std::error::Error;
use std::process::ExitCode;
use std::{env, fs};
use warblehay::numbers::*;
use warblehay::{
    check_state, fresh_state, place_of_credential, place_of_point, place_of_zone, state_length,
    Place, TurnedBack,
};

/// The state of the new site. It is checked: what is handed back can be run.
fn carried(old_site: &[u8], old_state: &[u8], new_site: &[u8]) -> Result<Vec<u8>, TurnedBack> {
    check_state(old_site, old_state)?;
    let mut state = vec![0; state_length(new_site)];
    fresh_state(new_site, &mut state)?;
    for record in old_site.chunks_exact(RECORD_SIZE) {
        let places = [old_site, new_site].map(|site| place_in(site, record));
        let [Some(old), Some(new)] = places else {
            continue;
        };
        let held = &mut state[new.state..][..RECORD_SIZE];
        held.copy_from_slice(&old_state[old.state..][..RECORD_SIZE]);
        fit(new_site, &new_site[new.site * RECORD_SIZE..], held);
    }
    check_state(new_site, &state)?;
    Ok(state)
}

/// Where a site has the object of a record. Rules and factors have no state to carry.
fn place_in(site: &[u8], record: &[u8]) -> Option<Place> {
    let instance = number_at(record, INSTANCE);
    match record[KIND] {
        ACCESS_ZONE => place_of_zone(site, instance),
        ACCESS_POINT => place_of_point(site, instance),
        ACCESS_CREDENTIAL => place_of_credential(site, instance),
        _ => None,
    }
}

/// What the new site no longer has is NONE in the state, and failures and wrong tries that a lowered
/// most does not leave room for are 0.
fn fit(site: &[u8], record: &[u8], state: &mut [u8]) {
    match record[KIND] {
        ACCESS_POINT => {
            drop_missing(state, POINT_STATE_WAITING_CREDENTIAL, |credential| {
                place_of_credential(site, credential)
            });
            if state[POINT_STATE_FAILURES] >= record[POINT_MOST_FAILURES] {
                state[POINT_STATE_FAILURES] = 0;
            }
        }
        ACCESS_CREDENTIAL => {
            drop_missing(state, CREDENTIAL_STATE_ZONE, |zone| {
                place_of_zone(site, zone)
            });
            drop_missing(state, CREDENTIAL_STATE_LAST_POINT, |point| {
                place_of_point(site, point)
            });
            if state[CREDENTIAL_STATE_WRONG_TRIES] >= record[CREDENTIAL_MOST_WRONG_TRIES] {
                state[CREDENTIAL_STATE_WRONG_TRIES] = 0;
            }
        }
        _ => {}
    }
}

fn drop_missing(state: &mut [u8], at: usize, place_of: impl Fn(u32) -> Option<Place>) {
    if place_of(number_at(state, at)).is_none() {
        state[at..at + 4].copy_from_slice(&NONE.to_be_bytes());
    }
}

fn number_at(bytes: &[u8], at: usize) -> u32 {
    u32::from_be_bytes([bytes[at], bytes[at + 1], bytes[at + 2], bytes[at + 3]])
}

fn run([old_site, old_state, new_site, new_state]: [&String; 4]) -> Result<(), Box<dyn Error>> {
    let state = carried(
        &fs::read(old_site)?,
        &fs::read(old_state)?,
        &fs::read(new_site)?,
    )?;
    Ok(fs::write(new_state, state)?)
}

fn main() -> ExitCode {
    let arguments: Vec<String> = env::args().collect();
    let [_, old_site, old_state, new_site, new_state] = &arguments[..] else {
        eprintln!("usage: carry_state OLD_SITE OLD_STATE NEW_SITE NEW_STATE");
        return ExitCode::FAILURE;
    };
    if let Err(error) = run([old_site, old_state, new_site, new_state]) {
        eprintln!("carry_state: {error}");
        return ExitCode::FAILURE;
    }
    ExitCode::SUCCESS
}
