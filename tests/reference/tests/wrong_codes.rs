//! Wrong codes over lists of journal runs from the fresh state, told from the site, the entries and the
//! answers alone: a credential's count is that of its wrong tries since its last grant or operation 4,
//! modulo its most; its disable is LOCKOUT where they reached the most, else the one set last; and a
//! point's failures are 129 and 148 alone.

use reference::answer::Answer;
use reference::bytes::get32;
use reference::entry::entries;
use reference::generate::clock::base_time;
use reference::generate::{list_run, site, Random};
use reference::journal::run_journal;
use reference::layout::{credential_state, entry, point_state};
use reference::numbers::{
    credential_disable, event, kind, mark, operation, refusal, ANSWER_LENGTH, NEVER,
    SECONDS_PER_DAY,
};
use reference::site::{instance_of, kind_of, records, CredentialRecord, PointRecord};
use reference::state::{fresh_state, state_at, state_length};
use reference::time::elapsed;
use std::collections::BTreeSet;

/// An accepted entry of a list with its answer.
struct Line<'a> {
    run: usize,
    entry: &'a [u8],
    answer: Answer,
}

impl Line<'_> {
    fn operation(&self) -> u8 {
        self.entry[entry::OPERATION]
    }

    fn argument(&self) -> u8 {
        self.entry[entry::ARGUMENT]
    }

    fn instance(&self) -> u32 {
        get32(self.entry, entry::INSTANCE)
    }

    fn is_wrong_try(&self) -> bool {
        matches!(
            self.answer.event,
            event::DENIED_AUTHENTICATION_FACTOR_TIMEOUT
                | event::DENIED_INCORRECT_AUTHENTICATION_FACTOR
        )
    }

    fn is_failure(&self) -> bool {
        matches!(
            self.answer.event,
            event::DENIED_UNKNOWN_CREDENTIAL | event::DENIED_AUTHENTICATION_FACTOR_ERROR
        )
    }
}

/// The wrong tries of a credential since its last grant or operation 4, with the point and the run of
/// each, and the disable set last.
#[derive(Clone, Default)]
struct Tries {
    places: Vec<(u32, usize)>,
    disable: u8,
}

impl Tries {
    fn take(&mut self, line: &Line, reached: &mut Reached) {
        if line.operation() == operation::SET_DISABLE {
            reached.operations_4 += usize::from(!self.places.is_empty());
            self.places.clear();
            self.disable = line.argument();
        } else if line.answer.event == event::GRANTED {
            reached.grants += usize::from(!self.places.is_empty());
            self.places.clear();
        } else if line.is_wrong_try() {
            self.places.push((line.instance(), line.run));
        }
    }

    /// Compares count and disable with the state's.
    fn see(&self, credential: &CredentialRecord, part: &[u8], reached: &mut Reached) {
        let most = usize::from(credential.most_wrong_tries());
        let is_reached = most != 0 && self.places.len() >= most;
        let count = self.places.len().checked_rem(most).unwrap_or(0);
        let disable = if is_reached {
            credential_disable::DISABLE_LOCKOUT
        } else {
            self.disable
        };
        assert_eq!(usize::from(part[credential_state::WRONG_TRIES]), count);
        assert_eq!(part[credential_state::CREDENTIAL_DISABLE], disable);
        if most == 0 {
            reached.unset += usize::from(!self.places.is_empty());
            return;
        }
        let points = BTreeSet::from_iter(self.places.iter().map(|place| place.0));
        let runs = BTreeSet::from_iter(self.places.iter().map(|place| place.1));
        reached.counts += usize::from(count > 0);
        reached.lockouts += usize::from(is_reached);
        reached.lockouts_and_more += usize::from(is_reached && count > 0);
        reached.at_several_points += usize::from(points.len() > 1);
        reached.in_several_runs += usize::from(runs.len() > 1);
    }
}

/// The failures of a point and the first of them.
#[derive(Clone, Default)]
struct Failures {
    count: u8,
    first: u32,
}

impl Failures {
    fn take(&mut self, point: &PointRecord, line: &Line) {
        let has = |mark: u8| line.answer.marks & mark != 0;
        let is_unlocked = line.operation() == operation::SET_LOCKOUT && line.argument() == 0;
        let is_granted = line.answer.event == event::GRANTED;
        if is_unlocked || is_granted || has(mark::LOCKOUT_RELINQUISHED) {
            self.count = 0;
        }
        let most = point.max_failed_attempts();
        let is_counted = line.is_failure() && most != 0;
        if is_counted {
            self.add(get32(line.entry, entry::TIME), point.failed_attempts_time());
        }
        let is_reached = is_counted && self.count == most;
        assert_eq!(has(mark::LOCKOUT_MAX_ATTEMPTS), is_reached);
        if is_reached {
            self.count = 0;
        }
    }

    fn add(&mut self, now: u32, window: u32) {
        let is_over = window != 0 && elapsed(now, self.first) > window;
        if self.count == 0 || is_over {
            (self.count, self.first) = (0, now);
        }
        self.count += 1;
    }

    fn see(&self, part: &[u8], reached: &mut Reached) {
        assert_eq!(part[point_state::FAILED_ATTEMPTS], self.count);
        assert_eq!(get32(part, point_state::FIRST_FAILURE), self.first);
        reached.failures += usize::from(self.count > 0);
    }
}

/// What the lists reached, so that an empty test is noticed.
#[derive(Debug, Default)]
struct Reached {
    turned_back: usize,
    /// Credentials by their wrong tries since their last grant or operation 4.
    unset: usize,
    counts: usize,
    lockouts: usize,
    lockouts_and_more: usize,
    at_several_points: usize,
    in_several_runs: usize,
    /// Entries that follow wrong tries.
    grants: usize,
    operations_4: usize,
    /// Points with failures.
    failures: usize,
}

/// What a list has told so far of each record.
struct Told {
    tries: Vec<Tries>,
    failures: Vec<Failures>,
}

impl Told {
    fn fresh(site: &[u8]) -> Told {
        let tries = records(site).map(|record| match kind_of(record) {
            kind::CREDENTIAL => Tries {
                disable: CredentialRecord(record).disable(),
                ..Tries::default()
            },
            _ => Tries::default(),
        });
        let tries = Vec::from_iter(tries);
        Told {
            failures: vec![Failures::default(); tries.len()],
            tries,
        }
    }

    fn take(&mut self, site: &[u8], line: &Line, reached: &mut Reached) {
        let at_point = [operation::READ_FACTOR, operation::SET_LOCKOUT];
        for (index, record) in records(site).enumerate() {
            let instance = instance_of(record);
            match kind_of(record) {
                kind::CREDENTIAL if line.answer.credential == instance => {
                    self.tries[index].take(line, reached);
                }
                kind::POINT
                    if at_point.contains(&line.operation()) && line.instance() == instance =>
                {
                    self.failures[index].take(&PointRecord(record), line);
                }
                _ => {}
            }
        }
    }

    fn see(&self, site: &[u8], state: &[u8], reached: &mut Reached) {
        for (index, record) in records(site).enumerate() {
            match kind_of(record) {
                kind::CREDENTIAL => {
                    let part = state_at(site, state, index);
                    self.tries[index].see(&CredentialRecord(record), part, reached);
                }
                kind::POINT => self.failures[index].see(state_at(site, state, index), reached),
                _ => {}
            }
        }
    }
}

fn run_list(random: &mut Random, reached: &mut Reached) {
    let mut base = base_time(random);
    let site = site(random, base);
    let mut state = vec![0; state_length(&site)];
    assert_eq!(fresh_state(&site, &mut state), refusal::ACCEPTED);
    let mut told = Told::fresh(&site);
    for run in 0..random.below(8) {
        let (journal, mut answers) = list_run(random, base, &site, 40);
        if run_journal(&site, &mut state, &journal, &mut answers) != refusal::ACCEPTED {
            reached.turned_back += 1;
            continue;
        }
        for (entry, answer) in entries(&journal).zip(answers.chunks_exact(ANSWER_LENGTH)) {
            let answer = Answer::from_bytes(answer);
            if answer.refusal == refusal::ACCEPTED {
                told.take(&site, &Line { run, entry, answer }, reached);
            }
        }
        // Days or years later, since tries never age.
        let later = random.pick(&[0, 1, 3, 3_650]) * SECONDS_PER_DAY;
        base = base.saturating_add(later).min(NEVER - 1);
    }
    told.see(&site, &state, reached);
}

#[test]
fn counts_are_the_wrong_tries_since_the_last_grant_or_operation_4_modulo_the_most() {
    let mut random = Random::new(4);
    let mut reached = Reached::default();
    for _ in 0..20_000 {
        run_list(&mut random, &mut reached);
    }
    println!("{reached:#?}");
    assert!(reached.turned_back > 1_000, "{reached:?}");
    assert!(reached.unset > 500, "{reached:?}");
    assert!(reached.counts > 500, "{reached:?}");
    assert!(reached.lockouts > 500, "{reached:?}");
    assert!(reached.lockouts_and_more > 200, "{reached:?}");
    assert!(reached.at_several_points > 200, "{reached:?}");
    assert!(reached.in_several_runs > 200, "{reached:?}");
    assert!(reached.grants > 200, "{reached:?}");
    assert!(reached.operations_4 > 200, "{reached:?}");
    assert!(reached.failures > 500, "{reached:?}");
}
