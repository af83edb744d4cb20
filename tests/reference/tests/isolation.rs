//! The isolation half of demand 3: a self-contained part gives the same answers and the same
//! state records, whatever stands beside it in the site and in the journals.

use reference::build::{Record, Rule};
use reference::bytes::{get16, get32};
use reference::entry::entries;
use reference::generate::clock::base_time;
use reference::generate::sites::{site_from, Pool, Sizes};
use reference::generate::{journal, site, Random};
use reference::journal::run_journal;
use reference::layout::{answer, entry};
use reference::numbers::{
    event, format, kind, location_kind, operation, refusal, rule_flag, ANSWER_LENGTH, ENTRY_LENGTH,
    RECORD_LENGTH,
};
use reference::site::{instance_of, kind_of, records};
use reference::state::{fresh_state, is_kept, state_length};
use std::ops::Range;

/// The numbers of the east wing; all others belong to the west wing.
const EAST: Range<u32> = 1_000..1_010;

/// The format of the east wing's factors; the west wing's have others.
const EAST_FORMAT: u8 = 9;

/// Units of the west wing with those of the east wing put between them, and whose each one is.
struct Mixed {
    bytes: Vec<u8>,
    west: Vec<bool>,
}

impl Mixed {
    fn new(random: &mut Random, west: &[u8], east: &[u8], unit: usize) -> Mixed {
        let (mut wests, mut easts) = (west.chunks_exact(unit), east.chunks_exact(unit));
        let mut mixed = Mixed {
            bytes: Vec::new(),
            west: Vec::new(),
        };
        while wests.len() + easts.len() > 0 {
            let is_west = random.below(wests.len() + easts.len()) < wests.len();
            let next = if is_west { wests.next() } else { easts.next() };
            mixed.bytes.extend_from_slice(next.unwrap_or(&[]));
            mixed.west.push(is_west);
        }
        mixed
    }

    /// The west wing's units of bytes that belong to these units one by one.
    fn west_of(&self, bytes: &[u8], unit: usize) -> Vec<u8> {
        self.units_of(bytes, unit, true)
    }

    /// As `west_of`, for the east wing.
    fn east_of(&self, bytes: &[u8], unit: usize) -> Vec<u8> {
        self.units_of(bytes, unit, false)
    }

    /// The west wing's state records, where the units are the records of a site.
    fn west_state(&self, state: &[u8]) -> Vec<u8> {
        let owned = records(&self.bytes).zip(&self.west);
        owned
            .filter(|(record, _)| is_kept(record))
            .zip(records(state))
            .filter(|((_, is_west), _)| **is_west)
            .flat_map(|(_, part)| part.to_vec())
            .collect()
    }

    fn units_of(&self, bytes: &[u8], unit: usize, west: bool) -> Vec<u8> {
        bytes
            .chunks_exact(unit)
            .zip(&self.west)
            .filter(|(_, is_west)| **is_west == west)
            .flat_map(|(part, _)| part.to_vec())
            .collect()
    }
}

/// An east wing. A rule of its own may name a location in the west wing.
fn east_site(random: &mut Random, base: u32, west: &[u8]) -> Vec<u8> {
    let pool = Pool {
        instances: EAST.collect(),
        rights: vec![EAST.start, EAST.start + 1],
        formats: vec![EAST_FORMAT],
    };
    let sizes = Sizes::small(random);
    let mut site = site_from(random, base, &pool, &sizes);
    if let Some(point) = records(west).find(|record| kind_of(record) == kind::POINT) {
        site.extend_from_slice(&rule_at(instance_of(point)));
    }
    site
}

fn rule_at(point: u32) -> Record {
    Rule {
        flags: rule_flag::ENABLE | rule_flag::NEGATIVE | rule_flag::ALWAYS,
        location_kind: location_kind::POINT,
        location: point,
        ..Rule::new(EAST.start)
    }
    .record()
}

/// Entries that belong to the east wing and read no card of the west wing.
fn east_journal(random: &mut Random, base: u32, site: &[u8]) -> Vec<u8> {
    let length = random.below(60);
    let all = journal(random, base, site, length);
    entries(&all)
        .filter(|bytes| EAST.contains(&get32(bytes, entry::INSTANCE)))
        .filter(|bytes| {
            bytes[entry::OPERATION] != operation::READ_FACTOR
                || [EAST_FORMAT, format::ERROR].contains(&bytes[entry::ARGUMENT])
        })
        .flat_map(<[u8]>::to_vec)
        .collect()
}

/// Works the entries from the fresh state as a list of journals, cut at random.
fn run_list(random: &mut Random, site: &[u8], entries: &[u8]) -> (Vec<u8>, Vec<u8>) {
    let mut state = vec![0; state_length(site)];
    assert_eq!(fresh_state(site, &mut state), refusal::ACCEPTED);
    let mut answers = Vec::new();
    let mut rest = entries;
    while !rest.is_empty() {
        let length = 1 + random.below(rest.len() / ENTRY_LENGTH);
        let (journal, later) = rest.split_at(length * ENTRY_LENGTH);
        let mut part = vec![0; length * ANSWER_LENGTH];
        let returned = run_journal(site, &mut state, journal, &mut part);
        assert_eq!(returned, refusal::ACCEPTED);
        answers.extend_from_slice(&part);
        rest = later;
    }
    (answers, state)
}

/// Grants and wrong tries, added up so that an empty wing is noticed.
#[derive(Default)]
struct Reached {
    grants: usize,
    wrong_tries: usize,
}

impl Reached {
    fn add(&mut self, answers: &[u8]) {
        self.grants += count(answers, &[event::GRANTED]);
        self.wrong_tries += count(answers, &WRONG_TRIES);
    }
}

/// The west wing's answers and state records with some east wing beside it.
fn run_with_an_east_wing(
    random: &mut Random,
    base: u32,
    west: &[u8],
    west_entries: &[u8],
    east_reached: &mut Reached,
) -> (Vec<u8>, Vec<u8>) {
    let east = east_site(random, base, west);
    let east_entries = east_journal(random, base, &east);
    let site = Mixed::new(random, west, &east, RECORD_LENGTH);
    let journal = Mixed::new(random, west_entries, &east_entries, ENTRY_LENGTH);
    let (answers, state) = run_list(random, &site.bytes, &journal.bytes);
    east_reached.add(&journal.east_of(&answers, ANSWER_LENGTH));
    let west_answers = journal.west_of(&answers, ANSWER_LENGTH);
    (west_answers, site.west_state(&state))
}

#[test]
fn a_self_contained_part_does_not_depend_on_what_stands_beside_it() {
    let mut random = Random::new(31);
    let (mut reached, mut east_reached) = (Reached::default(), Reached::default());
    for _ in 0..4_000 {
        let base = base_time(&mut random);
        let west = site(&mut random, base);
        let west_entries = journal(&mut random, base, &west, 30);
        let alone = run_list(&mut random, &west, &west_entries);
        for _ in 0..2 {
            let beside =
                run_with_an_east_wing(&mut random, base, &west, &west_entries, &mut east_reached);
            assert_eq!(beside, alone);
        }
        reached.add(&alone.0);
    }
    for (wing, reached) in [("west", reached), ("east", east_reached)] {
        let (grants, wrong_tries) = (reached.grants, reached.wrong_tries);
        println!("{wing}: {grants} grants, {wrong_tries} wrong tries");
        assert!(grants > 4_000, "{wing}: {grants} grants");
        assert!(wrong_tries > 500, "{wing}: {wrong_tries} wrong tries");
    }
}

/// The events that are counted for the credential waited for.
const WRONG_TRIES: [u16; 2] = [
    event::DENIED_AUTHENTICATION_FACTOR_TIMEOUT,
    event::DENIED_INCORRECT_AUTHENTICATION_FACTOR,
];

fn count(answers: &[u8], events: &[u16]) -> usize {
    answers
        .chunks_exact(ANSWER_LENGTH)
        .filter(|answer| events.contains(&get16(answer, answer::EVENT)))
        .count()
}
