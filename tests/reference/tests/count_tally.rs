//! The count half of demand 3: over a list of journal runs from the fresh state, each zone's
//! count equals T less the smaller of 0 and L.

use reference::bytes::{get16, get32};
use reference::entry::entries;
use reference::generate::clock::base_time;
use reference::generate::{list_run, site, Random};
use reference::journal::run_journal;
use reference::layout::{answer, entry, zone_state};
use reference::numbers::{event, kind, operation, point_flag, refusal, ANSWER_LENGTH};
use reference::site::{find, instance_of, kind_of, record_at, records, PointRecord, ZoneRecord};
use reference::state::{fresh_state, state_at, state_length};

/// A zone's tally. It reads the site, the entries and, of their answers, event and refusal.
#[derive(Clone, Copy, Default)]
struct Tally {
    t: i128,
    l: i128,
}

impl Tally {
    /// Both become the amount.
    fn set(&mut self, amount: u32) {
        self.t = i128::from(amount);
        self.l = self.t;
    }

    fn add(&mut self, amount: i128) {
        self.t += amount;
        self.l = self.l.min(self.t);
    }

    fn count(&self) -> i128 {
        self.t - self.l.min(0)
    }

    fn take(&mut self, site: &[u8], zone: &ZoneRecord, entry: &[u8], answer: &[u8]) {
        if answer[answer::REFUSAL] != refusal::ACCEPTED {
            return;
        }
        let instance = get32(entry, entry::INSTANCE);
        let amount = get32(entry, entry::AMOUNT);
        let on_zone = instance == instance_of(zone.0);
        match entry[entry::OPERATION] {
            operation::SET_COUNT if on_zone => self.set(amount),
            operation::ADJUST_COUNT if on_zone => self.add(i128::from(amount as i32)),
            operation::READ_FACTOR if get16(answer, answer::EVENT) == event::GRANTED => {
                self.add(passage(site, zone, instance));
            }
            _ => {}
        }
    }
}

/// What a granted entry at a point adds to a zone's tally; 0 where it is no counted passage.
fn passage(site: &[u8], zone: &ZoneRecord, point: u32) -> i128 {
    let index = find(site, kind::POINT, point).expect("a granted entry names a point");
    let point = PointRecord(record_at(site, index));
    if !point.has(point_flag::OCCUPANCY_COUNT_ADJUST) || !zone.counting() {
        return 0;
    }
    let instance = instance_of(zone.0);
    i128::from(point.zone_to() == instance) - i128::from(point.zone_from() == instance)
}

/// What the lists reached, so that an empty test is noticed.
#[derive(Default)]
struct Reached {
    worked: usize,
    turned_back: usize,
    zones: usize,
    below_zero: usize,
}

/// Runs one journal, at times spoiled so that it is turned back, and takes it into the tallies.
fn run_one(
    random: &mut Random,
    base: u32,
    site: &[u8],
    state: &mut [u8],
    tallies: &mut [Tally],
) -> bool {
    let (journal, mut answers) = list_run(random, base, site, 20);
    if run_journal(site, state, &journal, &mut answers) != refusal::ACCEPTED {
        return false;
    }
    for (entry, answer) in entries(&journal).zip(answers.chunks_exact(ANSWER_LENGTH)) {
        for (record, tally) in records(site).zip(tallies.iter_mut()) {
            if kind_of(record) == kind::ZONE {
                tally.take(site, &ZoneRecord(record), entry, answer);
            }
        }
    }
    true
}

fn run_list(random: &mut Random, reached: &mut Reached) {
    let base = base_time(random);
    let site = site(random, base);
    let mut state = vec![0; state_length(&site)];
    assert_eq!(fresh_state(&site, &mut state), refusal::ACCEPTED);
    let mut tallies = vec![Tally::default(); records(&site).count()];
    for _ in 0..random.below(6) {
        let worked = run_one(random, base, &site, &mut state, &mut tallies);
        reached.worked += usize::from(worked);
        reached.turned_back += usize::from(!worked);
    }
    for (index, (record, tally)) in records(&site).zip(&tallies).enumerate() {
        if kind_of(record) != kind::ZONE {
            continue;
        }
        let count = get32(state_at(&site, &state, index), zone_state::OCCUPANCY_COUNT);
        assert_eq!(i128::from(count), tally.count());
        reached.zones += 1;
        reached.below_zero += usize::from(tally.l < 0);
    }
}

#[test]
fn each_zones_count_is_its_tally_less_its_lowest_standing_below_zero() {
    let mut random = Random::new(3);
    let mut reached = Reached::default();
    for _ in 0..10_000 {
        run_list(&mut random, &mut reached);
    }
    assert!(reached.worked > 10_000, "{} runs", reached.worked);
    assert!(
        reached.turned_back > 1_000,
        "{} refused",
        reached.turned_back
    );
    assert!(reached.zones > 10_000, "{} zones", reached.zones);
    assert!(reached.below_zero > 1_000, "{} below 0", reached.below_zero);
}
