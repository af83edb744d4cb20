//! The state beside the longer one of before, through the proved engine: its length and its places on
//! any bytes, both ways between the forms, and lists of journals whose longer run is the reference's.

use differential::{compare, settings, small};
use reference::build::{Credential, Rule};
use reference::generate::clock::base_time;
use reference::generate::damage::damage;
use reference::generate::{
    forms, journal, large_site, list_run, longer_state, orders_of_three, site, state, Case, Forms,
    Random,
};
use reference::longer;
use reference::numbers::{
    kind, refusal, ANSWER_LENGTH, ENTRY_LENGTH, MOST_JOURNAL_BYTES, MOST_SITE_BYTES, NONE,
    RECORD_LENGTH,
};
use reference::occurrences::{assert_often, Occurrences};
use reference::site::{instance_of, kind_of, records};
use reference::state::state_length;
use std::collections::BTreeMap;

const CASES: usize = 100_000;

const MOST_RECORDS: usize = MOST_SITE_BYTES / RECORD_LENGTH;

/// A time about which the states' own times lie.
const NOW: u32 = 255 * 60;

/// The kinds that have a state.
const KEPT: [u8; 3] = [kind::ZONE, kind::POINT, kind::CREDENTIAL];

/// Both ways through both engines, each from the same buffers.
fn both_ways(forms: &Forms) -> [u8; 2] {
    [compare::shorten_state, compare::lengthen_state].map(|way| way(&mut forms.clone()))
}

/// How often each number is returned by shortening and by lengthening.
#[derive(Default)]
struct Ways([Occurrences; 2]);

impl Ways {
    fn count(&mut self, returned: [u8; 2]) {
        for (way, returned) in self.0.iter_mut().zip(returned) {
            way.count_call(returned);
        }
    }

    fn assert(&self, title: &str, fewest: usize, refusals: &[u8]) {
        for (way, occurrences) in ["shortened", "lengthened"].iter().zip(&self.0) {
            settings::print(&format!("States {way}, {title}"), occurrences);
            occurrences.assert_refusals(fewest, refusals);
        }
    }
}

/// Both forms of an odd state of a site.
fn forms_of(random: &mut Random, base: u32, site: &[u8]) -> Forms {
    Forms {
        longer: longer_state(random, base, site),
        state: state(random, base, site),
        site: site.to_vec(),
    }
}

#[test]
fn random_and_damaged_forms() {
    let cases = settings::cases(CASES);
    let mut random = settings::random();
    let mut ways = Ways::default();
    for _ in 0..cases {
        ways.count(both_ways(&forms(&mut random)));
    }
    let of_states = Vec::from_iter(refusal::SITE_LENGTH..=refusal::STATE_FORM);
    ways.assert("random and damaged", cases / 1_000, &of_states);
}

#[test]
fn every_byte_of_small_forms_changed() {
    let mut random = Random::new(1);
    let mut ways = Ways::default();
    for site in small::sites() {
        let sound = forms_of(&mut random, NOW, &site);
        ways.count(both_ways(&sound));
        for longer in small::with_each_byte_changed(&sound.longer) {
            let state = sound.state.clone();
            let site = site.clone();
            ways.count(both_ways(&Forms {
                site,
                longer,
                state,
            }));
        }
        for state in small::with_each_byte_changed(&sound.state) {
            let longer = sound.longer.clone();
            let site = site.clone();
            ways.count(both_ways(&Forms {
                site,
                longer,
                state,
            }));
        }
        for site in small::with_each_byte_changed(&site) {
            ways.count(both_ways(&Forms {
                site,
                ..sound.clone()
            }));
        }
    }
    let of_bytes = [
        refusal::SITE_FIELD,
        refusal::SITE_TWICE,
        refusal::SITE_MISSING,
        refusal::STATE_FORM,
    ];
    ways.assert("every byte of small forms changed", 1, &of_bytes);
}

/// Lengths about the right one, and lengths that are right where only two bytes of them are kept.
fn about(length: usize) -> Vec<usize> {
    let near = length.saturating_sub(RECORD_LENGTH + 1)..=length + RECORD_LENGTH + 1;
    near.chain([0, length + 65_536]).collect()
}

#[test]
fn every_length() {
    let mut random = Random::new(1);
    let mut ways = Ways::default();
    for site in small::sites().into_iter().take(1).chain(orders_of_three()) {
        let sound = forms_of(&mut random, NOW, &site);
        for length in about(sound.longer.len()) {
            for state in about(sound.state.len()) {
                let mut forms = sound.clone();
                forms.longer.resize(length, 0);
                forms.state.resize(state, 0);
                ways.count(both_ways(&forms));
            }
        }
    }
    let of_lengths = [refusal::SITE_MISSING, refusal::STATE_LENGTH];
    ways.assert("lengths", 1, &of_lengths);
}

/// Sites of the most records: of all kinds, of rules alone, which have no state, and of credentials
/// alone, whose forms are one. The last byte of each form is looked at too.
#[test]
fn largest_forms() {
    let mut random = settings::random();
    let rules = Rule::new(1).record().repeat(MOST_RECORDS);
    let credentials = (0..MOST_RECORDS as u32).map(|number| Credential::new(number).record());
    let credentials = credentials.collect::<Vec<_>>().concat();
    for site in [
        large_site(&mut random, NOW, MOST_RECORDS),
        rules,
        credentials,
    ] {
        let sound = forms_of(&mut random, NOW, &site);
        assert_eq!(both_ways(&sound), [refusal::ACCEPTED; 2]);
        let mut forms = sound.clone();
        forms.longer[MOST_SITE_BYTES - 1] = 1;
        assert_eq!(compare::shorten_state(&mut forms), refusal::STATE_FORM);
        let mut forms = sound.clone();
        if let Some(last) = forms.state.last_mut() {
            *last = 1;
            assert_eq!(compare::lengthen_state(&mut forms), refusal::STATE_FORM);
        }
        let mut longest = [&site[..], &Rule::new(1).record()].concat();
        compare::state_length(&longest);
        longest.extend_from_slice(&site);
        compare::state_length(&longest);
    }
}

/// The reference's longer run beside the proved run on the shortened state. The longer state is then
/// what lengthening makes of the other.
fn run_both(site: &[u8], longer: &mut [u8], case: &mut Case) -> u8 {
    let mut answers = case.answers.clone();
    let expected = longer::run_journal(site, longer, &case.journal, &mut answers);
    let returned = compare::run_journal(case);
    assert_eq!(returned, expected);
    assert!(
        case.answers == answers,
        "other answers than the longer run's"
    );
    let mut forms = Forms {
        site: site.to_vec(),
        longer: vec![0xA5; site.len()],
        state: case.state.clone(),
    };
    assert_eq!(compare::lengthen_state(&mut forms), refusal::ACCEPTED);
    assert!(
        forms.longer == longer,
        "other records than the longer run's"
    );
    returned
}

/// A case from a well-formed longer state, shortened.
fn shortened_case(site: &[u8], longer: &[u8]) -> Case {
    let mut forms = Forms {
        site: site.to_vec(),
        longer: longer.to_vec(),
        state: vec![0xA5; state_length(site)],
    };
    assert_eq!(compare::shorten_state(&mut forms), refusal::ACCEPTED);
    Case {
        site: forms.site,
        state: forms.state,
        journal: Vec::new(),
        answers: Vec::new(),
    }
}

#[test]
fn lists_of_journals_from_longer_states() {
    let cases = settings::cases(CASES) / 2;
    let mut random = settings::random();
    let mut occurrences = Occurrences::default();
    for _ in 0..cases {
        let base = base_time(&mut random);
        let site = site(&mut random, base);
        let mut longer = longer_state(&mut random, base, &site);
        let mut case = shortened_case(&site, &longer);
        for _ in 0..random.below(4) {
            (case.journal, case.answers) = list_run(&mut random, base, &site, 20);
            let returned = run_both(&site, &mut longer, &mut case);
            occurrences.count_run(returned, &case.journal, &case.answers);
        }
    }
    settings::print("Journal run, lists from longer states", &occurrences);
    occurrences.assert_lists(cases / 1_000);
}

/// The longest journals from longer states, on sites of up to 2,000 records.
#[test]
fn longest_journals_from_longer_states() {
    let mut random = settings::random();
    for records in [40, 300, MOST_RECORDS] {
        let base = base_time(&mut random);
        let site = large_site(&mut random, base, records);
        let mut longer = longer_state(&mut random, base, &site);
        let mut case = shortened_case(&site, &longer);
        let entries = MOST_JOURNAL_BYTES / ENTRY_LENGTH;
        case.journal = journal(&mut random, base, &site, entries);
        case.answers = vec![0xA5; entries * ANSWER_LENGTH];
        let returned = run_both(&site, &mut longer, &mut case);
        assert_eq!(returned, refusal::ACCEPTED);
    }
}

/// Sites, damaged ones, and bytes whose kinds are any and whose instances are few.
fn any_bytes(random: &mut Random) -> Vec<u8> {
    let base = base_time(random);
    match random.below(4) {
        0 => site(random, base),
        1 => {
            let mut site = site(random, base);
            damage(random, &mut site, RECORD_LENGTH);
            site
        }
        _ => resembling(random),
    }
}

fn resembling(random: &mut Random) -> Vec<u8> {
    let length = RECORD_LENGTH * random.below(20) + random.pick(&[0, 0, 1, 16, 31]);
    let any = random.byte();
    let mut bytes = vec![any; length];
    for record in bytes.chunks_mut(RECORD_LENGTH) {
        let any = random.byte();
        record[0] = random.pick(&[0, 1, 1, 2, 2, 3, 4, 4, 5, 6, 8, 9, 16, 128, any]);
        for byte in record.iter_mut().skip(4).take(4) {
            *byte = random.pick(&[0, 0, 0, 0, 0, 0, 1, 255]);
        }
    }
    bytes
}

/// Where an object stands that is looked for.
fn standing(site: &[u8], kind: u8, instance: u32) -> &'static str {
    let is_it = |record: &&[u8]| kind_of(record) == kind && instance_of(record) == instance;
    let mut found = records(site).filter(is_it);
    match (found.next(), found.next()) {
        (None, _) => "nowhere",
        (Some(_), None) => "once",
        (Some(_), Some(_)) => "twice",
    }
}

/// Each record's instance under every kind, and instances that mostly none has, also unreal ones.
#[test]
fn lengths_and_places_on_any_bytes() {
    let cases = settings::cases(CASES);
    let mut random = settings::random();
    let mut times = BTreeMap::new();
    for _ in 0..cases / 10 {
        let bytes = any_bytes(&mut random);
        compare::state_length(&bytes);
        let any = random.number32();
        let others = [0, 1, NONE - 1, NONE, NONE + 1, u32::MAX, any];
        for instance in records(&bytes).map(instance_of).chain(others) {
            for kind in KEPT {
                let place = compare::place_of(&bytes, kind, instance);
                let standing = standing(&bytes, kind, instance);
                assert_eq!(place.is_none(), standing == "nowhere");
                *times.entry((kind, standing)).or_default() += 1;
            }
        }
    }
    let wanted = KEPT.map(|kind| ["nowhere", "once", "twice"].map(|times| (kind, times)));
    assert_often("objects found", &times, &wanted.concat(), cases / 100);
}

/// Every kind that a byte can be, alone and before each kind that has a state.
#[test]
fn lengths_and_places_by_every_kind() {
    for any in 0..=u8::MAX {
        for kept in KEPT {
            let mut bytes = [0; 2 * RECORD_LENGTH];
            bytes[0] = any;
            bytes[RECORD_LENGTH] = kept;
            for end in 0..=bytes.len() {
                compare::state_length(&bytes[..end]);
            }
            let place = compare::place_of(&bytes, kept, 0).expect("it is there");
            assert_eq!(place.place, usize::from(any != kept));
            let is_before = KEPT.contains(&any) && any != kept;
            assert_eq!(place.state_offset, RECORD_LENGTH * usize::from(is_before));
        }
    }
}

/// Each object of the largest sites, whose last state record begins near 64,000 bytes.
#[test]
fn places_in_the_largest_sites() {
    let mut random = settings::random();
    let site = large_site(&mut random, NOW, MOST_RECORDS);
    let credentials = (0..MOST_RECORDS as u32).map(|number| Credential::new(number).record());
    let credentials = credentials.collect::<Vec<_>>().concat();
    for site in [site, credentials] {
        let mut end = 0;
        for record in records(&site).filter(|record| KEPT.contains(&kind_of(record))) {
            let place = compare::place_of(&site, kind_of(record), instance_of(record));
            assert_eq!(place.expect("it is there").state_offset, end);
            end += RECORD_LENGTH;
        }
        assert_eq!(compare::state_length(&site), end);
    }
}

/// Three records in every order: the length, each place, and both ways from every damaged form.
#[test]
fn orders_of_three_records() {
    let mut random = Random::new(1);
    let mut ways = Ways::default();
    for site in orders_of_three() {
        compare::state_length(&site);
        for kind in KEPT {
            for instance in [0, 1, 2] {
                compare::place_of(&site, kind, instance);
            }
        }
        for _ in 0..20 {
            let mut forms = forms_of(&mut random, NOW, &site);
            ways.count(both_ways(&forms));
            damage(&mut random, &mut forms.longer, RECORD_LENGTH);
            damage(&mut random, &mut forms.state, RECORD_LENGTH);
            ways.count(both_ways(&forms));
        }
    }
    let of_three = Vec::from_iter(refusal::SITE_MISSING..=refusal::STATE_FORM);
    ways.assert("three records in every order", 10, &of_three);
}
