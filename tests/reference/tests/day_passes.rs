//! Day passes over lists of journal runs from the fresh state: a credential's days are those left and
//! those that its grants took; and, as long as the dates of its grants never fall, those left and the
//! dates on which it was granted.

use reference::answer::Answer;
use reference::bytes::{get16, get32};
use reference::entry::entries;
use reference::generate::clock::base_time;
use reference::generate::{list_run, site, Random};
use reference::journal::run_journal;
use reference::layout::{credential_state, entry};
use reference::numbers::{event, kind, refusal, ANSWER_LENGTH, NEVER, SECONDS_PER_DAY, UNLIMITED};
use reference::site::{instance_of, kind_of, records, CredentialRecord};
use reference::state::{fresh_state, state_at, state_length};
use reference::time::date;
use std::collections::{BTreeMap, BTreeSet};

/// The times at which each credential was granted, in the order of the list.
type Grants = BTreeMap<u32, Vec<u32>>;

/// What the lists reached, so that an empty test is noticed.
#[derive(Debug, Default)]
struct Reached {
    turned_back: usize,
    /// Credentials of limited days that are granted, on dates that never fall.
    in_order: usize,
    /// Those of them whose times fall all the same.
    within_a_date: usize,
    on_several_dates: usize,
    twice_on_a_date: usize,
    run_down: usize,
    /// Credentials of limited days that are granted on dates that fall.
    set_back: usize,
    /// Those of them whose days are not those left and the dates.
    unequal: usize,
}

/// Runs one journal, at times spoiled so that it is turned back, and takes its grants.
fn run_one(
    random: &mut Random,
    base: u32,
    site: &[u8],
    state: &mut [u8],
    grants: &mut Grants,
) -> bool {
    let (journal, mut answers) = list_run(random, base, site, 40);
    if run_journal(site, state, &journal, &mut answers) != refusal::ACCEPTED {
        return false;
    }
    for (entry, answer) in entries(&journal).zip(answers.chunks_exact(ANSWER_LENGTH)) {
        let answer = Answer::from_bytes(answer);
        if answer.event == event::GRANTED {
            let times = grants.entry(answer.credential).or_default();
            times.push(get32(entry, entry::TIME));
        }
    }
    true
}

/// The days that grants on these dates take: the first takes one, and so does each that is on a later
/// date than the one before it.
fn days_taken(dates: &[u32]) -> usize {
    let later = dates.windows(2).filter(|pair| pair[0] < pair[1]).count();
    later + usize::from(!dates.is_empty())
}

/// Compares the days of one credential, which are limited.
fn see_credential(days: u16, left: u16, times: &[u32], reached: &mut Reached) {
    let [days, left] = [days, left].map(usize::from);
    let dates: Vec<u32> = times.iter().map(|&time| date(time)).collect();
    let taken = days_taken(&dates);
    assert_eq!(left + taken, days, "{left} left, granted at {times:?}");
    let different = BTreeSet::from_iter(&dates).len();
    let is_equal = left + different == days;
    if !dates.is_sorted() {
        reached.set_back += 1;
        reached.unequal += usize::from(!is_equal);
        return;
    }
    assert!(is_equal, "{days} days, {left} left, granted at {times:?}");
    reached.in_order += usize::from(!times.is_empty());
    reached.within_a_date += usize::from(!times.is_sorted());
    reached.on_several_dates += usize::from(different > 1);
    reached.twice_on_a_date += usize::from(times.len() > different);
    reached.run_down += usize::from(days > 1 && left == 0);
}

fn run_list(random: &mut Random, reached: &mut Reached) {
    let mut base = base_time(random);
    let site = site(random, base);
    let mut state = vec![0; state_length(&site)];
    assert_eq!(fresh_state(&site, &mut state), refusal::ACCEPTED);
    let mut grants = Grants::new();
    for _ in 0..random.below(8) {
        let worked = run_one(random, base, &site, &mut state, &mut grants);
        reached.turned_back += usize::from(!worked);
        // Mostly on a later date, so that a list reaches several in order.
        let later = random.below(4) as u32 * SECONDS_PER_DAY;
        base = base.saturating_add(later).min(NEVER - 1);
    }
    for (index, record) in records(&site).enumerate() {
        let days = CredentialRecord(record).days();
        if kind_of(record) != kind::CREDENTIAL || days == UNLIMITED {
            continue;
        }
        let left = get16(
            state_at(&site, &state, index),
            credential_state::DAYS_REMAINING,
        );
        let times = grants.remove(&instance_of(record)).unwrap_or_default();
        see_credential(days, left, &times, reached);
    }
}

#[test]
fn days_are_those_left_and_the_dates_of_grants_unless_the_clock_is_set_back() {
    let mut random = Random::new(3);
    let mut reached = Reached::default();
    for _ in 0..20_000 {
        run_list(&mut random, &mut reached);
    }
    println!("{reached:#?}");
    assert!(reached.turned_back > 1_000, "{reached:?}");
    assert!(reached.in_order > 1_000, "{reached:?}");
    assert!(reached.within_a_date > 20, "{reached:?}");
    assert!(reached.on_several_dates > 500, "{reached:?}");
    assert!(reached.twice_on_a_date > 200, "{reached:?}");
    assert!(reached.run_down > 200, "{reached:?}");
    assert!(reached.set_back > 200, "{reached:?}");
    assert!(reached.unequal > 100, "{reached:?}");
}
