//! How long a state is and where its records stand, on any bytes; and that the generated cases reach
//! every length about the right one, and every mix of kinds.

use reference::build::{Credential, Factor, Point, Rule, Zone};
use reference::generate::clock::base_time;
use reference::generate::damage::damage_length;
use reference::generate::{case, orders_of_three, site, state, Case, Random};
use reference::journal::run_journal;
use reference::longer::lengthened;
use reference::numbers::{kind, refusal, RECORD_LENGTH};
use reference::occurrences::assert_often;
use reference::site::check_site;
use reference::state::{check_state, place_of, state_length, well_formed, Place};
use std::collections::BTreeMap;

const CASES: usize = 20_000;

/// The fewest times that each of these has to occur.
const FEWEST: usize = 50;

/// Each instance under several kinds, rules and factors between them, a zone twice, and half a record.
fn mixed() -> Vec<u8> {
    let whole = [
        Rule::new(7).record(),
        Point::new(7).record(),
        Factor::new(7, [1; 8]).record(),
        Zone::new(7).record(),
        Rule::new(9).record(),
        Credential::new(7).record(),
        Zone::new(7).record(),
        Factor::new(9, [1; 8]).record(),
        Credential::new(9).record(),
    ];
    [&whole.concat()[..], &Zone::new(8).record()[..16]].concat()
}

#[test]
fn places_are_those_of_the_first_whole_records() {
    let places = |kind: u8| [7, 8, 9].map(|instance| place_of(&mixed(), kind, instance));
    let at = |place: usize, state_offset: usize| {
        Some(Place {
            place,
            state_offset,
        })
    };
    assert_eq!(places(kind::ZONE), [at(3, 32), None, None]);
    assert_eq!(places(kind::POINT), [at(1, 0), None, None]);
    assert_eq!(places(kind::CREDENTIAL), [at(5, 64), None, at(8, 128)]);
}

#[test]
fn lengths_count_the_whole_records_of_three_kinds() {
    let bytes = mixed();
    let lengths = (0..=9).map(|records| state_length(&bytes[..records * RECORD_LENGTH]));
    let expected = [0, 0, 32, 32, 64, 64, 96, 128, 128, 160];
    assert_eq!(Vec::from_iter(lengths), expected);
    assert_eq!(state_length(&bytes), 160);
    assert_eq!(state_length(&bytes[..2 * RECORD_LENGTH - 1]), 0);
    for kind in 0..=u8::MAX {
        let mut bytes = [0xFF; RECORD_LENGTH];
        bytes[0] = kind;
        let expected = match kind {
            kind::ZONE | kind::POINT | kind::CREDENTIAL => 32,
            _ => 0,
        };
        assert_eq!(state_length(&bytes), expected, "kind {kind}");
    }
}

/// Each order once, and that of its state the same without rules and factors.
#[test]
fn three_records_of_different_kinds_stand_in_every_order() {
    let mut orders = BTreeMap::new();
    for site in orders_of_three() {
        let kinds: Vec<u8> = site.chunks_exact(RECORD_LENGTH).map(|it| it[0]).collect();
        let kept = kinds.iter().filter(|kind| [1, 2, 4].contains(*kind));
        for (number, &kind) in kept.clone().enumerate() {
            let place = place_of(&site, kind, 1).expect("it is there");
            assert_eq!(place.state_offset, number * RECORD_LENGTH);
            assert_eq!(kinds[place.place], kind);
        }
        assert_eq!(state_length(&site), kept.count() * RECORD_LENGTH);
        *orders.entry(kinds).or_insert(0) += 1;
    }
    assert_eq!(orders.len(), 5 * 4 * 3);
    assert!(orders.values().all(|&times| times == 1));
}

/// Where the length of a state that is not the right one stands to it.
fn wrong_length(site: &[u8], state: &[u8]) -> Option<&'static str> {
    let (right, length) = (state_length(site), state.len());
    if length == right {
        return None;
    }
    Some(match length {
        _ if length == site.len() => "the longer state's",
        _ if length + RECORD_LENGTH == right => "a record less",
        _ if length == right + RECORD_LENGTH => "a record more",
        _ if !length.is_multiple_of(RECORD_LENGTH) => "no whole records",
        _ => "another",
    })
}

#[test]
fn every_wrong_length_of_a_state_is_turned_back_with_5() {
    let mut times = BTreeMap::new();
    let mut random = Random::new(5);
    for _ in 0..CASES {
        let Case { site, state, .. } = case(&mut random);
        if check_site(&site) != refusal::ACCEPTED {
            continue;
        }
        let returned = check_state(&site, &state);
        let wrong = wrong_length(&site, &state);
        assert_eq!(returned == refusal::STATE_LENGTH, wrong.is_some());
        *times.entry(wrong).or_default() += 1;
    }
    println!("{times:?}");
    times.remove(&Some("another"));
    let wanted = [
        None,
        Some("the longer state's"),
        Some("a record less"),
        Some("a record more"),
        Some("no whole records"),
    ];
    assert_often("length", &times, &wanted, FEWEST);
}

/// Which records a site has.
fn mix(site: &[u8]) -> &'static str {
    match (site.len(), state_length(site)) {
        (0, _) => "none",
        (_, 0) => "rules alone",
        (all, kept) if all == kept => "no rules and factors",
        _ => "both",
    }
}

/// A site of factors alone lacks their credentials.
#[test]
fn sites_of_every_mix_are_run() {
    let mut times = BTreeMap::new();
    let mut random = Random::new(6);
    for _ in 0..2 * CASES {
        let Case {
            site,
            mut state,
            journal,
            mut answers,
        } = case(&mut random);
        let mix = mix(&site);
        if run_journal(&site, &mut state, &journal, &mut answers) == refusal::ACCEPTED {
            *times.entry(mix).or_default() += 1;
        }
    }
    println!("{times:?}");
    let wanted = ["none", "rules alone", "no rules and factors", "both"];
    assert_often("mix", &times, &wanted, FEWEST);
}

/// A state of as many records in another order is often well formed, since a check cannot tell whose a
/// record is, and often not.
#[test]
fn damage_to_lengths_leads_to_every_length_and_to_other_orders() {
    let mut times = BTreeMap::new();
    let mut random = Random::new(7);
    for _ in 0..CASES / 4 {
        let base = base_time(&mut random);
        let site = site(&mut random, base);
        let before = state(&mut random, base, &site);
        let mut after = before.clone();
        damage_length(&mut random, &site, &mut after);
        if after == before {
            continue;
        }
        let order = match well_formed(&site, &after) {
            true => "another order, well formed",
            false => "another order, not well formed",
        };
        let damaged = match wrong_length(&site, &after) {
            _ if after == lengthened(&site, &before) => "the longer state",
            Some(length) => length,
            None => order,
        };
        *times.entry(damaged).or_default() += 1;
    }
    println!("{times:?}");
    times.remove("the longer state's");
    let wanted = [
        "the longer state",
        "a record less",
        "a record more",
        "another order, well formed",
        "another order, not well formed",
    ];
    assert_often("damage", &times, &wanted, FEWEST);
}
